/* A front panel: shows who is about to run on CPU 0, and commits what was shown when the button is pressed. Another CPU
   lets go of a lock between the two, so the first press is refused with 13, and the panel asks again.
   cc -std=c11 -Iinclude examples/front_panel.c target/staticlib/libronthuyal.a -o target/front_panel
   ronthuyal pack examples/moment.txt | target/front_panel 1000000000 3 */
#include "ronthuyal.h"

#include <inttypes.h>
#include <stdio.h>
#include <stdlib.h>

static uint64_t image[RONTHUYAL_LENGTH(RONTHUYAL_CPUS, RONTHUYAL_CONTEXTS) + 1];

static struct ronthuyal_asked show(size_t length, uint64_t time)
{
    struct ronthuyal_asked reply = ronthuyal_ask(image, length, 0, time);
    if (reply.refusal != 0) {
        printf("panel: refused with %" PRIu64 "\n", reply.refusal);
    } else {
        printf("panel: context %" PRIu64 " would be in charge\n", reply.in_charge);
    }
    return reply;
}

static uint64_t press(size_t length, uint64_t time, struct ronthuyal_asked reply)
{
    struct ronthuyal_answer answer = ronthuyal_commit(image, length, 0, time, reply.refusal, reply.result,
                                                      reply.in_charge, reply.current, reply.v);
    printf("button: refusal %" PRIu64 ", rule %" PRIu64 "\n", answer.refusal, answer.rule);
    return answer.refusal;
}

int main(int count, char **arguments)
{
    size_t length = 0;
    unsigned char bytes[8];
    while (length < sizeof image / sizeof *image && fread(bytes, 1, 8, stdin) == 8) {
        uint64_t word = 0;
        for (int at = 7; at >= 0; at--) {
            word = word << 8 | bytes[at];
        }
        image[length++] = word;
    }
    if (count != 3) {
        fprintf(stderr, "front_panel TIME CONTEXT < IMAGE\n");
        return 2;
    }
    uint64_t time = strtoull(arguments[1], NULL, 10);
    uint64_t writer = strtoull(arguments[2], NULL, 10);
    struct ronthuyal_asked reply = show(length, time);
    /* What another CPU does meanwhile: it lets go of the writer's record. */
    if (length >= 2 && writer < image[1] && RONTHUYAL_RECORD(writer) + RONTHUYAL_RECORD_WORDS <= length) {
        image[RONTHUYAL_RECORD(writer) + RONTHUYAL_CONTEXT_LOCK] = 0;
    }
    if (press(length, time, reply) == 13) {
        reply = show(length, time);
        return press(length, time, reply) == 0 ? 0 : 3;
    }
    return 0;
}
