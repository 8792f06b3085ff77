/* How much room a block needs, as the header's macros tell it. */
#ifndef ROOM_H
#define ROOM_H

void room(void);

#endif
