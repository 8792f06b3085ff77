/* How deep the calls go on the stack. */
#ifndef STACK_H
#define STACK_H

void stack(void);

#endif
