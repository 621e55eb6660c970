/* Threads with the stack that the header says a call needs: the tests' own frames have their place in it as well. */
#ifndef ON_STACK_H
#define ON_STACK_H

/* Starts a thread on such a stack, and gives a handle to end it with. */
void *start_on_stack(void (*work)(void *), void *argument);
void end_on_stack(void *handle);

#endif
