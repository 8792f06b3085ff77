/* Tables whose 128 places are all held. */
#ifndef FULL_H
#define FULL_H

void full(void);

#endif
