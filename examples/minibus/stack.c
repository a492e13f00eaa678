/*
 * A stack for a guest's calls: so many bytes and no more, between two pages that can
 * neither be read nor written. A call that takes more meets the lower page, and the
 * system ends the program.
 *
 * A thread gets no less than 16 KiB from the system, and the announcer has 2 KiB. So a
 * guest's thread does on the system's stack what it does itself, as to print. Only for
 * a call of the library it moves its stack pointer to this one, and behind the call
 * back again.
 *
 * The example is linked with -z now, so that memcpy and memset are found before the
 * program begins. Else the first call that wants one of them may have it looked for in
 * its midst, on this stack, which takes more than the announcer has.
 */
#define _DEFAULT_SOURCE

#include "minibus.h"

#include <string.h>
#include <sys/mman.h>
#include <unistd.h>

#if !defined(__x86_64__)
#error "the stack pointer is moved by instructions for x86-64"
#endif

/* What a stack is filled with, to see later how much of it was written to. */
#define UNTOUCHED 0xA5

/* Calls work(of) with the stack pointer at `top`, a multiple of 16. */
void call_at(void (*work)(void *of), void *of, uint8_t *top);

/* C can't say on which stack a function runs, so this is assembly. System V hands
   over the three words in rdi, rsi and rdx. What is called keeps rbp, which so knows
   the way back; the lines with .cfi tell it to a debugger. */
__asm__(".text\n"
        ".globl call_at\n"
        ".type call_at, @function\n"
        "call_at:\n"
        "    .cfi_startproc\n"
        "    pushq %rbp\n"
        "    .cfi_def_cfa_offset 16\n"
        "    .cfi_offset %rbp, -16\n"
        "    movq %rsp, %rbp\n"
        "    .cfi_def_cfa_register %rbp\n"
        "    movq %rdi, %rax\n"
        "    movq %rsi, %rdi\n"
        "    movq %rdx, %rsp\n"
        "    callq *%rax\n"
        "    movq %rbp, %rsp\n"
        "    popq %rbp\n"
        "    .cfi_def_cfa %rsp, 8\n"
        "    ret\n"
        "    .cfi_endproc\n"
        ".size call_at, . - call_at\n");

static size_t page_size(void)
{
    return (size_t)sysconf(_SC_PAGESIZE);
}

size_t in_pages(size_t bytes)
{
    size_t page = page_size();
    return (bytes + page - 1) / page * page;
}

struct stack make_stack(size_t bytes)
{
    struct stack stack;
    size_t page = page_size();
    uint8_t *start;

    stack.bytes = bytes;
    stack.mapped = in_pages(bytes);
    start = mmap(NULL, page + stack.mapped + page, PROT_NONE,
                 MAP_PRIVATE | MAP_ANONYMOUS, -1, 0);
    if (start == MAP_FAILED)
        give_up("there is no memory for a stack");
    stack.lowest = start + page;
    if (mprotect(stack.lowest, stack.mapped, PROT_READ | PROT_WRITE) != 0)
        give_up("a stack can't be opened between its pages");
    memset(stack.lowest, UNTOUCHED, stack.mapped);
    return stack;
}

void run_on(const struct stack *stack, void (*work)(void *of), void *of)
{
    call_at(work, of, stack->lowest + stack->bytes);
}

/* A stack that is smaller than a page has more bytes above its top. They are no
   part of it, and nobody may have written there. */
static void hold_above(const struct stack *stack)
{
    size_t at;
    for (at = stack->bytes; at < stack->mapped; at++) {
        if (stack->lowest[at] != UNTOUCHED)
            give_up("a call has written above its stack");
    }
}

size_t stack_used(const struct stack *stack)
{
    size_t untouched = 0;
    hold_above(stack);
    while (untouched < stack->bytes && stack->lowest[untouched] == UNTOUCHED)
        untouched++;
    if (untouched == stack->bytes)
        give_up("no call was made on its guest's stack");
    return stack->bytes - untouched;
}
