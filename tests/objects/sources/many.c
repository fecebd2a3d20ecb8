/* Thirty-two functions with a record each: as many as a payload may have. */
#include "livepatch.h"

extern int printk(const char *format, ...);

#define EACH(F) \
    F(00) F(01) F(02) F(03) F(04) F(05) F(06) F(07) F(08) F(09) F(10) F(11) F(12) F(13) F(14) F(15) \
    F(16) F(17) F(18) F(19) F(20) F(21) F(22) F(23) F(24) F(25) F(26) F(27) F(28) F(29) F(30) F(31)

#define FUNCTION(N) \
    APART int many_##N(int with) \
    { \
        return printk("function " #N " with %d\n", with) + 1; \
    }
EACH(FUNCTION)

/* The old functions stand 0x1000 apart from the text's start on. */
#define RECORD(N) \
    { \
        .version = 1, \
        .old_addr = (void *)(0xffff82d080100000 + 0x1000 * (1##N - 100)), \
        .new_addr = many_##N, \
        .new_size = 16, \
        .old_size = 16, \
    },
RECORDS = {EACH(RECORD)};
