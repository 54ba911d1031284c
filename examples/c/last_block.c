/* A store that hands over each word of a file's last block once: what tinzoher_read_blocks would say of that block,
 * with no more kept than six numbers.
 *
 *   (cd crates/exports && rt lib) && mkdir -p target
 *   gcc -std=c99 -Wall -Wextra -Iinclude examples/c/last_block.c crates/exports/out/libexports.a \
 *       -o target/last_block_example
 *   target/last_block_example
 *
 * It prints "nothing yet" after 127 words, "count 10" after 128 and after one more, and then "refused 3 at 0": an
 * unused word was not zero, but the sum is wrong too, and that comes first. */
#include <stdio.h>

#include "tinzoher.h"

enum { BLOCK = 128, RULE = 10 };

/* if True: return local 0, else: break */
static const uint32_t rule[RULE] = {1, 37, 257, 1, 1, 33, 2, 0, 1, 39};

/* Word i of a block of that rule, number 0. */
static uint32_t stored(int i)
{
    uint32_t sum = 65536 * RULE;
    if (i == 0)
        return sum;
    if (i < BLOCK - 1)
        return i <= RULE ? rule[i - 1] : 0;
    for (int k = 0; k < RULE; k++)
        sum += rule[k];
    return sum;
}

static void tell(const struct tinzoher_last_block *block)
{
    uint64_t values[2];
    uint32_t refusal = tinzoher_last_block_answer(block, values, 2);
    if (refusal != 0)
        printf("refused %u at %llu\n", (unsigned)refusal, (unsigned long long)values[0]);
    else if (values[0] == 0)
        printf("nothing yet\n");
    else
        printf("count %llu\n", (unsigned long long)values[1]);
}

int main(void)
{
    struct tinzoher_last_block block;
    tinzoher_last_block_new(&block, 0);
    for (int i = 0; i < BLOCK - 1; i++)
        tinzoher_last_block_step(&block, stored(i));
    tell(&block);
    tinzoher_last_block_step(&block, stored(BLOCK - 1));
    tell(&block);
    tinzoher_last_block_step(&block, 7);
    tell(&block);
    tinzoher_last_block_new(&block, 0);
    for (int i = 0; i < BLOCK; i++)
        tinzoher_last_block_step(&block, i == 100 ? 1 : stored(i));
    tell(&block);
    return 0;
}
