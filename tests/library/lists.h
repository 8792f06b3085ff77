/* The test of kolowrotan_list.h. */
#ifndef LISTS_H
#define LISTS_H

void lists(void);

#endif
