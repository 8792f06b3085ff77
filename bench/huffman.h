/* The packing of RFC 7541, 5.2 and Appendix B, for what decoders are given. Not measured itself. */
#ifndef BENCH_HUFFMAN_H
#define BENCH_HUFFMAN_H

#include "lists.h"

/* How many bytes a string has when it is packed. */
size_t packed_length(struct text text);

/* A string, packed exactly where that is strictly shorter. The H bit stands before the prefix. */
uint8_t *put_packed(uint8_t *at, unsigned pattern, unsigned prefix, struct text text);

#endif
