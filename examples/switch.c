/* One switch, from C: the worked example that the program decide reads, in crates/decide/stdin.
   cc -std=c99 -Iinclude examples/switch.c target/staticlib/libronthuyal.a -o target/switch
   target/switch < crates/decide/stdin */
#include "ronthuyal.h"

#include <inttypes.h>
#include <stdio.h>

#define MOST RONTHUYAL_LENGTH(4, 64)

static uint64_t words[4 + MOST];

int main(void)
{
    size_t length = 0;
    unsigned char bytes[8];
    while (length < 4 + MOST && fread(bytes, 1, 8, stdin) == 8) {
        uint64_t word = 0;
        for (int at = 7; at >= 0; at--) {
            word = word << 8 | bytes[at];
        }
        words[length++] = word;
    }
    if (length < 6) {
        fprintf(stderr, "operation, CPU, time, context and an image are wanted\n");
        return 1;
    }
    uint64_t *image = words + 4;
    struct ronthuyal_answer answer = ronthuyal_call(image, length - 4, words[0], words[1], words[2], words[3]);
    printf("refusal %" PRIu64 ", result %" PRIu64 ", rule %" PRIu64 "\n", answer.refusal, answer.result, answer.rule);
    if (answer.refusal == 0) {
        const uint64_t *block = image + RONTHUYAL_BLOCK(image[1], words[1]);
        printf("in charge %" PRIu64 ", V %" PRIu64 "\n", block[RONTHUYAL_BLOCK_SCHED_CTXT], block[RONTHUYAL_BLOCK_V]);
    }
    return 0;
}
