/* Constants, data with pointers to places here and outside, and zeroed data. */
#include "livepatch.h"

extern int printk(const char *format, ...);
extern unsigned long jiffies;
extern char percpu[4096];

struct node {
    struct node *next;
    const void *what;
    long number;
};

int summed(int number);

static const short primes[7] = {2, 3, 5, 7, 11, 13, 17};
static char zeroed[301];
static long long_zeroed[5] __attribute__((aligned(64)));
int number = 0x12345678;
static struct node nodes[3] = {
    {&nodes[1], &primes[3], -1},
    {&nodes[2], zeroed + 300, 2},
    {nodes, &long_zeroed[5], 3},
};
void *const outside[] = {printk, &jiffies, percpu + 4095, percpu - 1, summed, &number};
static struct node *volatile head = &nodes[2];
const unsigned char table[] __attribute__((aligned(32))) = {0xff, 0xfe, 0, 1, 2};

APART int summed(int wanted)
{
    long sum = primes[wanted] + zeroed[wanted] + long_zeroed[wanted & 3] + table[wanted % 5] + number;
    zeroed[wanted] = (char)sum;
    long_zeroed[wanted & 3]++;
    head = head->next;
    return (int)(sum + head->number + percpu[wanted] + (outside[wanted] == head->what));
}

RECORDS = {
    {.version = 1, .name = "do_domctl", .new_addr = summed, .new_size = 32, .old_size = 64},
};
