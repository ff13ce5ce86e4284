/* One cue, from C, over both archives: the writer is context 1 of the worked example that the program decide reads, in
   crates/decide/stdin. It blocks, its cue comes due and wakes it, and the switch puts it in charge.
   cc -std=c99 -Iinclude examples/cue.c target/staticlib/libcue_board.a target/staticlib/libronthuyal.a -o target/cue
   target/cue < crates/decide/stdin */
#include "cue_board.h"
#include "ronthuyal.h"

#include <inttypes.h>
#include <stdio.h>
#include <string.h>

#define MOST RONTHUYAL_LENGTH(4, 64)
#define CAPACITY 2
#define WRITER 1

static uint64_t words[4 + MOST];
static uint8_t board[CUE_BOARD_SIZE(CAPACITY)] = {CAPACITY};

static size_t read_words(void)
{
    size_t length = 0;
    unsigned char bytes[8];
    while (length < 4 + MOST && fread(bytes, 1, 8, stdin) == 8) {
        uint64_t word = 0;
        for (int at = 7; at >= 0; at--) {
            word = word << 8 | bytes[at];
        }
        words[length++] = word;
    }
    return length;
}

/* Adds a cue for the writer and says how that went. */
static void add(uint64_t start, const char *first, const char *second)
{
    uint64_t refusal = cue_board_add(board, sizeof board, start, WRITER, (const uint8_t *)first, strlen(first),
                                     (const uint8_t *)second, strlen(second));
    printf("add at %" PRIu64 ": refusal %" PRIu64 "\n", start, refusal);
}

int main(void)
{
    size_t length = read_words();
    if (length < 6) {
        fprintf(stderr, "operation, CPU, time, context and an image are wanted\n");
        return 1;
    }
    uint64_t *image = words + 4, time = words[2];
    size_t image_length = length - 4;
    add(2000000, "Good evening.", "Here is the news.");
    add(2000000, "too early", "");
    add(3000000, "A row of 41 bytes does not fit the board.", "");
    ronthuyal_block(image, image_length, 0, time, WRITER);
    struct cue_board_handed handed = cue_board_next(board, sizeof board, image, image_length, 0, time);
    printf("at %" PRIu64 ": refusal %" PRIu64 ", due %" PRIu64 ", writer %" PRIu64 ", woken %" PRIu64 "\n", time,
           handed.refusal, handed.due, handed.writer, handed.result);
    if (handed.due) {
        printf("%.*s\n", (int)handed.first_length, (const char *)board + CUE_BOARD_ROW_AT(CAPACITY, handed.cue, 0));
        printf("%.*s\n", (int)handed.second_length, (const char *)board + CUE_BOARD_ROW_AT(CAPACITY, handed.cue, 1));
    }
    ronthuyal_switch(image, image_length, 0, time);
    printf("in charge %" PRIu64 "\n", image[RONTHUYAL_BLOCK(image[1], 0) + RONTHUYAL_BLOCK_SCHED_CTXT]);
    return 0;
}
