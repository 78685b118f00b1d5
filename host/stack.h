/* How much stack a call takes: it is made in a thread, on a stack that is painted before. */
#include <stdint.h>

/* The lowest byte of the stack that `call` wrote to. */
uintptr_t stack_lowest(void (*call)(void *), void *argument);

/* Where the frame ends of the function that asks. */
uintptr_t stack_pointer(void);
