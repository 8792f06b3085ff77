/* Packed strings, read and written. */
#ifndef PACKED_H
#define PACKED_H

void packed(void);

#endif
