/* Messages with interim answers: several blocks of a part, what finishes and closes parts, and when a slot is freed. */
#ifndef INTERIM_H
#define INTERIM_H

void interim(void);

#endif
