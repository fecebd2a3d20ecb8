/* What the examples use: a file's bytes, and a refusal in words. The tools use the same. */
#ifndef COMMON_H
#define COMMON_H

#include "../tools/common/refusal.h"

#endif
