/* How deep the stack of a call is, for library.c and desk.c. */
#include <string.h>
#include <ucontext.h>

enum { STACK = 1 << 18, MARK = 0xA5 };
static uint8_t stack[STACK];
static ucontext_t here, there;

/* How many bytes of stack a call takes, that of starting it included. */
static size_t depth_of(void (*call)(void))
{
    size_t untouched = 0;
    memset(stack, MARK, sizeof stack);
    getcontext(&there);
    there.uc_stack.ss_sp = stack;
    there.uc_stack.ss_size = sizeof stack;
    there.uc_link = &here;
    makecontext(&there, call, 0);
    swapcontext(&here, &there);
    while (untouched < sizeof stack && stack[untouched] == MARK)
        untouched++;
    return sizeof stack - untouched;
}
