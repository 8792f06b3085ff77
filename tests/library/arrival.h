/* Which entry a collect frees: of those that are ready the one whose delete arrived first. */
#ifndef ARRIVAL_H
#define ARRIVAL_H

void arrival(void);

#endif
