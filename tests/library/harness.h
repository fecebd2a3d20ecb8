/* What the programs here use to call a function of the library as a hypervisor would: on a stack of the test's own that is not aligned to
 * 16, with memcpy and memset of the test's own, and with a pattern in every register that has to stay as it is. The answer and the
 * buffers have to be those of a plain call. The stack that a call wrote to is measured: at most the bound, which is that of the
 * code (stack.awk). The bound, the arguments on the stack and 256 bytes for memcpy and memset have to be within what the header says.
 * A program defines `struct buffers`, all that its functions may write, before it includes this. */
#include <signal.h>
#include <stdio.h>
#include <stdlib.h>
#include <string.h>
#include <ucontext.h>

enum { ARGUMENTS = 15, ON_STACK = 8 * (ARGUMENTS - 6), FOR_MEMORY = 256, FILE_MAX = 32768 };

/* What thunk.S takes and leaves. */
struct registers {
    uint8_t vectors[512]; /* as fxsave64 writes them */
    uint64_t kept[6];
    uint64_t pointer;
    uint64_t flags;
} __attribute__((aligned(16)));

enum { TRAP_FLAG = 0x100, DIRECTION_FLAG = 0x400 };

uint64_t call_on_stack(void (*function)(void), const uint64_t arguments[ARGUMENTS], uint8_t *stack, struct registers *registers);

static int passed, failed;

static void expect(const char *function, const char *input, const char *what, uint64_t got, uint64_t want)
{
    if (got == want) {
        passed++;
        return;
    }
    failed++;
    printf("%s, %s: %s: 0x%llx, and not 0x%llx\n", function, input, what, (unsigned long long)got, (unsigned long long)want);
}

/* ---- the stack */

enum { STACK_SIZE = 262144, ABOVE = 256, BELOW = 512 };

static uint8_t stack[STACK_SIZE] __attribute__((aligned(16)));

/* The stack pointer at a call: a multiple of 8 and not of 16. */
static uint8_t *const pointer = stack + STACK_SIZE - ABOVE + 8;

/* How far below the stack pointer a byte was written. */
static size_t depth(uint8_t pattern)
{
    const uint8_t *at = stack;
    while (at < pointer && *at == pattern)
        at++;
    return (size_t)(pointer - at);
}

static int written_above(uint8_t pattern)
{
    for (const uint8_t *at = pointer + ON_STACK; at < stack + STACK_SIZE; at++)
        if (*at != pattern)
            return 1;
    return 0;
}

/* ---- an interrupt after every instruction, which writes below the stack pointer */

static uint64_t steps;

static void interrupt(int signal, siginfo_t *info, void *context)
{
    uint8_t *at = (uint8_t *)((ucontext_t *)context)->uc_mcontext.gregs[REG_RSP];
    (void)signal;
    (void)info;
    memset(at - BELOW, (int)(++steps & 0xff), BELOW);
}

static void take_interrupts(void)
{
    static uint8_t other[65536];
    stack_t there = {.ss_sp = other, .ss_size = sizeof other};
    struct sigaction action = {.sa_sigaction = interrupt, .sa_flags = SA_SIGINFO | SA_ONSTACK};
    if (sigaltstack(&there, NULL) != 0 || sigaction(SIGTRAP, &action, NULL) != 0) {
        perror("calls");
        exit(2);
    }
}

/* ---- the registers */

/* Rounding and precision other than at the start of a program, all exceptions masked, all x87 registers in use. */
static void fill(struct registers *r, uint64_t flags)
{
    static const uint8_t words[5] = {0x7f, 0x0e, 0, 0, 0xff}, mxcsr[4] = {0x80, 0x7f, 0, 0};
    memset(r, 0, sizeof *r);
    memcpy(r->vectors, words, sizeof words);
    memcpy(r->vectors + 24, mxcsr, sizeof mxcsr);
    for (int i = 32; i < 416; i++)
        if (i >= 160 || i % 16 < 10) /* an x87 register has 10 bytes */
            r->vectors[i] = (uint8_t)(i * 37 + 11);
    for (int i = 0; i < 6; i++)
        r->kept[i] = 0x0123456789abcdefu * (uint64_t)(2 * i + 1);
    r->flags = flags;
}

static void compare(const char *function, const char *input, const struct registers *after)
{
    struct registers before;
    fill(&before, 0);
    expect(function, input, "x87 words changed", memcmp(before.vectors, after->vectors, 5) != 0, 0);
    expect(function, input, "MXCSR changed", memcmp(before.vectors + 24, after->vectors + 24, 4) != 0, 0);
    expect(function, input, "x87 or MMX changed", memcmp(before.vectors + 32, after->vectors + 32, 128) != 0, 0);
    expect(function, input, "xmm changed", memcmp(before.vectors + 160, after->vectors + 160, 256) != 0, 0);
    expect(function, input, "rbx, rbp or r12 to r15 changed", memcmp(before.kept, after->kept, sizeof before.kept) != 0, 0);
    expect(function, input, "the stack pointer", after->pointer, (uintptr_t)pointer);
    expect(function, input, "the direction flag", after->flags & DIRECTION_FLAG, 0);
}

/* ---- the functions */

struct function {
    const char *name;
    void (*at)(void);
    size_t on_stack; /* bytes of arguments */
    size_t promised, bound, measured;
};

/* What they may write: as it is now, as it is before each call, and as a plain call left it. */
static struct buffers buffers, initial, wanted;

/* Calls once on the test's stack. */
static void call(struct function *f, const char *input, const uint64_t *arguments, uint64_t want, uint8_t pattern, uint64_t flags)
{
    struct registers r;
    memset(stack, pattern, sizeof stack);
    buffers = initial;
    fill(&r, flags);
    expect(f->name, input, "the answer on another stack", call_on_stack(f->at, arguments, pointer, &r), want);
    expect(f->name, input, "the buffers differ", memcmp(&buffers, &wanted, sizeof buffers) != 0, 0);
    compare(f->name, input, &r);
}

/* The plain call was made before: its answer is `got`, and `buffers` are as it left them. */
static void same(struct function *f, const char *input, const uint64_t *arguments, uint64_t got, uint64_t want)
{
    static const uint8_t patterns[2] = {0xa5, 0x5a}; /* a byte that equals the one is seen by the other */
    wanted = buffers;
    expect(f->name, input, "the answer", got, want);
    for (int i = 0; i < 2; i++) {
        call(f, input, arguments, got, patterns[i], 0);
        if (f->measured < depth(patterns[i]))
            f->measured = depth(patterns[i]);
        expect(f->name, input, "wrote above its arguments", written_above(patterns[i]), 0);
    }
    steps = 0;
    call(f, input, arguments, got, 0xa5, TRAP_FLAG);
    expect(f->name, input, "taken without interrupts", steps < 4, 0);
}

/* ---- the figures */

static void stacks(const struct function *functions, int count)
{
    for (const struct function *f = functions; f < functions + count; f++) {
        size_t needed = f->bound + f->on_stack + FOR_MEMORY;
        printf("%s: %zu bytes of stack measured, at most %zu by its code, with arguments and room for memcpy and memset %zu of %zu\n",
               f->name, f->measured, f->bound, needed, f->promised);
        expect(f->name, "all", "more stack than its code takes", f->measured > f->bound, 0);
        expect(f->name, "all", "more stack than the header says", needed > f->promised, 0);
        expect(f->name, "all", "a figure that is no multiple of 1,024", f->promised % 1024, 0);
    }
}

/* ---- a payload and what it is loaded with */

static uint64_t refusal(enum urddolwy_reason number, enum urddolwy_place place, uint64_t first, uint64_t second)
{
    return number | (uint64_t)place << 8 | first << 16 | second << 32;
}

static uint64_t nowhere(enum urddolwy_reason number)
{
    return refusal(number, URDDOLWY_NOWHERE, 0, 0);
}

/* printk at 0xffff82d08015fbb9, xen_extra_version at 0xffff82d08013963c. */
static const uint8_t list[] = "\x00\x00\x00\x2c\x01\x00\x02"
                              "\xff\xff\x82\xd0\x80\x15\xfb\xb9\x06printk"
                              "\xff\xff\x82\xd0\x80\x13\x96\x3c\x11xen_extra_version";

enum { LIST = sizeof list - 1 };

static uint8_t file[FILE_MAX];
static size_t file_len;

/* Takes the payload and the bounds of the functions from the words of the program, and interrupts from now on. */
static void take(int argc, char **argv, struct function *functions, int count)
{
    FILE *from = argc == 2 + count ? fopen(argv[1], "rb") : NULL;
    file_len = from == NULL ? 0 : fread(file, 1, sizeof file - LIST, from);
    if (file_len == 0) {
        printf("%s: wants a payload and %d numbers\n", argv[0], count);
        exit(2);
    }
    fclose(from);
    for (int i = 0; i < count; i++)
        functions[i].bound = strtoul(argv[2 + i], NULL, 10);
    take_interrupts();
}

static int closing_line(void)
{
    printf("%d passed, %d failed\n", passed, failed);
    return failed != 0;
}
