/* A status page: what each CPU of an image does, as HTML on standard output. The image is read from standard input, in
   words of 64 bits, lowest byte first, as `ronthuyal pack` writes them.
   cc -std=c11 -Iinclude examples/status_page.c target/staticlib/libronthuyal.a -o target/status_page
   ronthuyal pack examples/evening.txt | target/status_page 0 > status.html */
#include "ronthuyal.h"

#include <inttypes.h>
#include <stdio.h>
#include <stdlib.h>

static uint64_t image[RONTHUYAL_LENGTH(RONTHUYAL_CPUS, RONTHUYAL_CONTEXTS) + 1];

static size_t read_image(void)
{
    size_t length = 0;
    unsigned char bytes[8];
    while (length < sizeof image / sizeof *image && fread(bytes, 1, 8, stdin) == 8) {
        uint64_t word = 0;
        for (int at = 7; at >= 0; at--) {
            word = word << 8 | bytes[at];
        }
        image[length++] = word;
    }
    return length;
}

/* A row: who is in charge and current, how long the queue is, the weight, and who would come next. */
static void row(size_t length, uint64_t cpu, uint64_t time)
{
    const uint64_t *block = image + RONTHUYAL_BLOCK(image[1], cpu);
    if (block[RONTHUYAL_BLOCK_PRESENT] == 0) {
        printf("<tr><td>%" PRIu64 "</td><td colspan=\"5\">absent</td></tr>\n", cpu);
        return;
    }
    struct ronthuyal_answer weight = ronthuyal_total_weight(image, length, cpu);
    struct ronthuyal_asked next = ronthuyal_ask(image, length, cpu, time);
    printf("<tr><td>%" PRIu64 "</td><td>%" PRIu64 "</td><td>%" PRIu64 "</td><td>%" PRIu64 "</td><td>%" PRIu64 "</td>", cpu,
           block[RONTHUYAL_BLOCK_SCHED_CTXT], block[RONTHUYAL_BLOCK_CURRENT_CTXT], block[RONTHUYAL_BLOCK_QUEUE_COUNT],
           weight.result);
    if (next.refusal == 0) {
        printf("<td>%" PRIu64 "</td></tr>\n", next.in_charge);
    } else {
        printf("<td>refused with %" PRIu64 "</td></tr>\n", next.refusal);
    }
}

int main(int count, char **arguments)
{
    size_t length = read_image();
    uint64_t time = count > 1 ? strtoull(arguments[1], NULL, 10) : 0;
    /* CPU 0 may be absent or locked: that is refusal 5 or 6, of an image that is good. */
    struct ronthuyal_asked good = ronthuyal_ask(image, length, 0, time);
    if (good.refusal >= 1 && good.refusal <= 4) {
        fprintf(stderr, "the image is refused with %" PRIu64 "; ronthuyal check names the word\n", good.refusal);
        return 3;
    }
    printf("<!doctype html>\n<title>CPUs</title>\n<table>\n"
           "<tr><th>CPU</th><th>in charge</th><th>current</th><th>queued</th><th>weight</th><th>next</th></tr>\n");
    for (uint64_t cpu = 0; cpu < image[0]; cpu++) {
        row(length, cpu, time);
    }
    printf("</table>\n");
    return 0;
}
