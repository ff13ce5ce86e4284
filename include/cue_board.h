/* The cue board: caption cues in lent bytes, handed out in the order of their starts, each with a wake-up of its writer
   on a machine image (ronthuyal.h). README.md says how a cue's rows are read. Link libcue_board.a; libronthuyal.a may
   stand beside it. */
#ifndef CUE_BOARD_H
#define CUE_BOARD_H

#include <stddef.h>
#include <stdint.h>

#ifdef __cplusplus
extern "C" {
#endif

/* Limits. */
#define CUE_BOARD_CAPACITY 512
#define CUE_BOARD_ROW 40

/* Bytes of a board of k cues. Numbers of 8 bytes stand lowest byte first: at 0 the capacity k, at 8 how many cues are
   stored, at 16 how many of these are handed out. A board that is all zero but for its capacity is empty. */
#define CUE_BOARD_SIZE(k) (24 + 98 * (size_t)(k))

/* Where cue i of k has its start and its writer, 8 bytes each, and the length, one byte, and the 40 bytes of its row r,
   0 or 1. */
#define CUE_BOARD_START(i) (24 + 8 * (size_t)(i))
#define CUE_BOARD_WRITER(k, i) (24 + 8 * (size_t)(k) + 8 * (size_t)(i))
#define CUE_BOARD_LENGTH(k, i, r) (24 + 16 * (size_t)(k) + 2 * (size_t)(i) + (size_t)(r))
#define CUE_BOARD_ROW_AT(k, i, r) (24 + 18 * (size_t)(k) + CUE_BOARD_ROW * (2 * (size_t)(i) + (size_t)(r)))

/* Refusals of the board itself; cue_board_next passes on those of the wake-up, 1 to 9 of ronthuyal.h. */
enum {
    CUE_BOARD_REFUSED_SIZES = 1,
    CUE_BOARD_REFUSED_ROW = 10,
    CUE_BOARD_REFUSED_START = 11,
    CUE_BOARD_REFUSED_FULL = 12
};

/* What asking for the next cue answers. due is 1 if a cue is handed out: cue is its slot, then come its start and its
   writer, the lengths of its two rows, and what waking its writer answered. Else, and if refusal is not 0, they are 0,
   and no byte and no word has changed. */
struct cue_board_handed {
    uint64_t refusal;
    uint64_t due;
    uint64_t cue;
    uint64_t start;
    uint64_t writer;
    uint64_t first_length;
    uint64_t second_length;
    uint64_t result;
    uint64_t interrupt;
};

/* board points to length bytes, and image to words, that nobody else uses during the call. Any bytes, words, times,
   writers and CPUs are answered. */

/* Adds a cue behind those that are stored: 0, or the refusal, which changes no byte. */
uint64_t cue_board_add(uint8_t *board, size_t length, uint64_t start, uint64_t writer, const uint8_t *first,
                       size_t first_length, const uint8_t *second, size_t second_length);

/* Hands out the earliest cue that is not handed out yet, if its start is at most the time, and wakes its writer by
   operation 4 on the CPU. If that is refused, the cue stays on the board. */
struct cue_board_handed cue_board_next(uint8_t *board, size_t length, uint64_t *image, size_t image_length,
                                       uint64_t cpu, uint64_t time);

#ifdef __cplusplus
}
#endif

#endif
