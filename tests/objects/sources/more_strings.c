/* The second object of strings.c. */
#include "livepatch.h"

APART const char *other(int which)
{
    return which == 5 ? "the same in both" : which == 6 ? "World" : "in both";
}

const char *const more_words[] = {"Hello World", "World", "only there"};
