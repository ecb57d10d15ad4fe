// How many bytes of stack a course of calls takes: it runs on a stack of its own, painted before, and what was written is counted. What an
// empty course takes is taken off. Link with -Wl,-z,now, so that the loader binds no symbol on that stack.
#include <stddef.h>
#include <string.h>
#include <ucontext.h>

enum { PAINTED = 1 << 20, PAINT = 0xa5 };
static unsigned char painted_stack[PAINTED] __attribute__((aligned(16)));
static ucontext_t painted_from, painted_on;

static size_t painted_once(void (*course)(void)) {
    size_t left = 0;
    memset(painted_stack, PAINT, PAINTED);
    getcontext(&painted_on);
    painted_on.uc_stack.ss_sp = painted_stack;
    painted_on.uc_stack.ss_size = PAINTED;
    painted_on.uc_link = &painted_from;
    makecontext(&painted_on, course, 0);
    swapcontext(&painted_from, &painted_on);
    while (left < PAINTED && painted_stack[left] == PAINT) left++;
    return PAINTED - left;
}

static void painted_nothing(void) {}

static size_t painted(void (*course)(void)) { return painted_once(course) - painted_once(painted_nothing); }
