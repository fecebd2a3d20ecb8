/* The checks of the test programs here, counted; what fails is printed. */
#ifndef EXPECT_H
#define EXPECT_H

#include <stdint.h>
#include <stdio.h>

static int passed, failed;

static void expect(const char *what, uint64_t got, uint64_t want)
{
    if (got == want) {
        passed++;
        return;
    }
    failed++;
    printf("%s: 0x%llx, and not 0x%llx\n", what, (unsigned long long)got, (unsigned long long)want);
}

/* Prints the counts; the exit status of the program. */
static int closing_line(void)
{
    printf("%d passed, %d failed\n", passed, failed);
    return failed != 0;
}

#endif
