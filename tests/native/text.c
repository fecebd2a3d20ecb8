/* The text that the native run patches: functions without data, linked at the address where they run. */
#define FUNCTION __attribute__((noipa, used))

FUNCTION int version(void)
{
    return 1;
}

FUNCTION int scaled(int x)
{
    return 3 * x + 7;
}

FUNCTION int total(int n)
{
    int sum = 0;
    for (int i = 1; i <= n; i++)
        sum += scaled(i);
    return sum;
}

FUNCTION int letter(int i)
{
    return 'a' + i % 26;
}

FUNCTION int count(void)
{
    return 50;
}

/* int admitted(void): 0; it would be 1 without the instruction at `denied`. */
__asm__("        .balign 16\n"
        "        .globl admitted, denied\n"
        "        .type admitted, @function\n"
        "        .type denied, @function\n"
        "admitted: mov $1, %eax\n"
        "denied: xor %eax, %eax\n"
        "        .size denied, . - denied\n"
        "        ret\n"
        "        .size admitted, . - admitted\n");
