/* Padded integers, in every place where one is read. */
#ifndef PADDED_H
#define PADDED_H

void padded(void);

#endif
