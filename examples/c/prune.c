/* Prunes the rule of specification 01's example and prints what is left of it.
 *
 *   (cd crates/exports && rt lib) && mkdir -p target
 *   gcc -std=c99 -Wall -Wextra -Iinclude examples/c/prune.c crates/exports/out/libexports.a -o target/prune_example
 *   target/prune_example
 *
 * It prints "words 4 foldable 0: 1 33 2 0", and then how the same call is refused with too few work words. */
#include <stdio.h>

#include "tinzoher.h"

enum { WORDS = 10, WORK = 16 * WORDS + 64, RESULT = 3 * WORDS };

/* if True: return local 0, else: break */
static const uint32_t words[WORDS] = {1, 37, 257, 1, 1, 33, 2, 0, 1, 39};
static uint32_t work[WORK];
static uint32_t result[RESULT];

static void prune_with(size_t work_len)
{
    uint64_t values[2];
    uint32_t refusal = tinzoher_prune(words, WORDS, work, work_len, result, RESULT, values, 2);
    if (refusal != 0) {
        printf("refused %u at %llu\n", (unsigned)refusal, (unsigned long long)values[0]);
        return;
    }
    printf("words %llu foldable %llu:", (unsigned long long)values[0], (unsigned long long)values[1]);
    for (uint64_t i = 0; i < values[0]; i++)
        printf(" %u", (unsigned)result[i]);
    printf("\n");
}

int main(void)
{
    prune_with(WORK);
    prune_with(WORK - 1);
    return 0;
}
