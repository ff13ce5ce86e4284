/* The scheduling decisions of the Redox kernel over a machine image: docs/IMAGE.md says what each word is.
   Written by tools/places.py. */
#ifndef RONTHUYAL_H
#define RONTHUYAL_H

#define RONTHUYAL_VERSION "0.16.0"

#include <stddef.h>
#include <stdint.h>

#ifdef __cplusplus
extern "C" {
#endif

/* What a call answers. refusal 0: the call was made, and the words hold the next image. Else every word is kept, and
   result, interrupt and rule are 0. interrupt is 1 if a wake-up went to another CPU. rule is the number of the rule by
   which a decision left whom in charge, 0 where nothing was decided. */
struct ronthuyal_answer {
    uint64_t refusal;
    uint64_t result;
    uint64_t interrupt;
    uint64_t rule;
};

/* image points to length words that nobody else uses during the call. Any words, operation, CPU, time and context are
   answered. */
struct ronthuyal_answer ronthuyal_call(uint64_t *image, size_t length, uint64_t operation, uint64_t cpu,
                                       uint64_t time, uint64_t context);
struct ronthuyal_answer ronthuyal_tick(uint64_t *image, size_t length, uint64_t cpu, uint64_t time);
struct ronthuyal_answer ronthuyal_switch(uint64_t *image, size_t length, uint64_t cpu, uint64_t time);
struct ronthuyal_answer ronthuyal_direct_switch_to(uint64_t *image, size_t length, uint64_t cpu, uint64_t time,
                                                   uint64_t context);
struct ronthuyal_answer ronthuyal_unblock_context(uint64_t *image, size_t length, uint64_t cpu, uint64_t time,
                                                  uint64_t context);
struct ronthuyal_answer ronthuyal_drain_ipi_context_wakeups(uint64_t *image, size_t length, uint64_t cpu,
                                                            uint64_t time);
struct ronthuyal_answer ronthuyal_block(uint64_t *image, size_t length, uint64_t cpu, uint64_t time, uint64_t context);
struct ronthuyal_answer ronthuyal_hard_block(uint64_t *image, size_t length, uint64_t cpu, uint64_t time,
                                             uint64_t context);

/* ronthuyal_call by the plain engine, which looks through all entries each time and builds the next image afresh: the
   same answer and the same words, slowly. */
struct ronthuyal_answer ronthuyal_plain_call(uint64_t *image, size_t length, uint64_t operation, uint64_t cpu,
                                             uint64_t time, uint64_t context);

/* No operation: unblocks every context x whose bit x is set in mask, by rising number, or, refused, none. result is
   how many of them were soft-blocked, interrupt is 1 if a wake-up of any of them went to another CPU. */
struct ronthuyal_answer ronthuyal_unblock_group(uint64_t *image, size_t length, uint64_t cpu, uint64_t time,
                                                uint64_t mask);

/* No operation, and no time: result is the weight of the CPU, added up from its queue entries, also of those whose
   context is gone, and the context in charge if it is active. The image is left as it is. */
struct ronthuyal_answer ronthuyal_total_weight(const uint64_t *image, size_t length, uint64_t cpu);

/* What a switch at that time would answer, and leave on that CPU: who is in charge, who is current, and V. Where it
   would be refused all but the refusal is 0. */
struct ronthuyal_asked {
    uint64_t refusal;
    uint64_t result;
    uint64_t in_charge;
    uint64_t current;
    uint64_t v;
};

/* No operation: asks. The image is left as it is. */
struct ronthuyal_asked ronthuyal_ask(const uint64_t *image, size_t length, uint64_t cpu, uint64_t time);

/* No operation: makes the switch if it gives what was asked, in all five words. Else the refusal is the switch's own,
   or 13 where it would be accepted and gives something else. */
struct ronthuyal_answer ronthuyal_commit(uint64_t *image, size_t length, uint64_t cpu, uint64_t time, uint64_t refusal,
                                         uint64_t result, uint64_t in_charge, uint64_t current, uint64_t v);

/* The operation of that number, with the window of that CPU's last decisions: window points to RONTHUYAL_WINDOW_WORDS
   words that nobody else uses during the call. An accepted decision adds the context in charge before it and the
   nanoseconds since the one before; of 256 records the oldest leaves. The call's own refusal comes first, then the
   window's, 1 or 3, and then neither image nor window is changed. */
struct ronthuyal_answer ronthuyal_call_in_window(uint64_t *image, size_t length, uint64_t *window, size_t window_length,
                                                 uint64_t operation, uint64_t cpu, uint64_t time, uint64_t context);

/* The nanoseconds of one context in a window, and of all, as the result. contexts is the image's number of contexts,
   for which the window is checked. */
struct ronthuyal_answer ronthuyal_share(const uint64_t *window, size_t length, uint64_t contexts, uint64_t context);
struct ronthuyal_answer ronthuyal_share_of_all(const uint64_t *window, size_t length, uint64_t contexts);

/* The largest priority number that gets the CPU. found is 1 if there is one, else 0, and then priority is 0 too; so it is
   where the call is refused. */
struct ronthuyal_humblest {
    uint64_t refusal;
    uint64_t found;
    uint64_t priority;
};

/* No operation: of a context that is neither queued nor in charge, the largest of the priorities 0 to 39 with which it
   would be in charge after a switch at that time, were it stored and the context put last on the CPU's local list. The
   image is left as it is. */
struct ronthuyal_humblest ronthuyal_humblest(const uint64_t *image, size_t length, uint64_t cpu, uint64_t time,
                                             uint64_t context);

/* Writer against rival. forced is 1 if the writer can force itself into charge; choice is its first winning one, 1 go on,
   2 yield, 3 block, where it can and has the first choice, else 0. Where the call is refused both are 0. */
struct ronthuyal_game {
    uint64_t refusal;
    uint64_t forced;
    uint64_t choice;
};

/* No operation: 1 to 6 rounds, in each of which the one in charge of the CPU chooses if it is the writer or the rival:
   go on (a switch after 6,750,000 ns), yield (after 1,000,000) or block (asleep until 4,500,000, and a switch after
   1,000,000). Anyone else goes on. Whether the writer can be in charge at the end whatever the rival picks; a branch in
   which a call is refused is lost. The image is left as it is. */
struct ronthuyal_game ronthuyal_rival(const uint64_t *image, size_t length, uint64_t cpu, uint64_t time,
                                      uint64_t writer, uint64_t rival, uint64_t rounds);

/* No operation, and no time: result is 1 if no context is named by both CPUs, in any roles together. Then a switch of
   the one and a switch of the other give the same in either order, if neither is on a stealing turn and all four calls
   are accepted. The image is left as it is. */
struct ronthuyal_answer ronthuyal_apart(const uint64_t *image, size_t length, uint64_t one, uint64_t other);

/* No operation: calls has four words for each call (operation, CPU, time, context), and answers gets four for each
   (refusal, result, interrupt, rule). The calls are made one after the other, each as ronthuyal_call makes it; a
   refused one changes no word of the image, and the run goes on. Returns how many calls were made. Where calls_length
   is no multiple of four, or answers_length another length, nothing is written, and 2^64 - 1 is returned. */
uint64_t ronthuyal_run(uint64_t *image, size_t length, const uint64_t *calls, size_t calls_length, uint64_t *answers,
                       size_t answers_length);

/* Operations. */
enum {
    RONTHUYAL_OP_TICK = 1,
    RONTHUYAL_OP_SWITCH = 2,
    RONTHUYAL_OP_DIRECT_SWITCH_TO = 3,
    RONTHUYAL_OP_UNBLOCK_CONTEXT = 4,
    RONTHUYAL_OP_DRAIN_IPI_CONTEXT_WAKEUPS = 5,
    RONTHUYAL_OP_BLOCK = 6,
    RONTHUYAL_OP_HARD_BLOCK = 7
};

/* Results of tick, switch and direct_switch_to. */
enum {
    RONTHUYAL_RESULT_NOT_DUE = 0,
    RONTHUYAL_RESULT_SWITCHED = 1,
    RONTHUYAL_RESULT_ALL_CONTEXTS_IDLE = 2
};

/* Rules of a decision. */
enum {
    RONTHUYAL_RULE_NONE = 0,
    RONTHUYAL_RULE_FIRST_ELIGIBLE = 1,
    RONTHUYAL_RULE_HOLDER_DEADLINE = 2,
    RONTHUYAL_RULE_HOLDER_SLICE = 3,
    RONTHUYAL_RULE_HOLDER_ALONE = 4,
    RONTHUYAL_RULE_HOLDER_VTIME = 5,
    RONTHUYAL_RULE_HOLDER_LATE_DEADLINE = 6,
    RONTHUYAL_RULE_ENTRY_VTIME = 7,
    RONTHUYAL_RULE_STOLEN = 8,
    RONTHUYAL_RULE_IDLE = 9
};

/* Statuses of a context. */
enum {
    RONTHUYAL_STATUS_RUNNABLE = 0,
    RONTHUYAL_STATUS_BLOCKED = 1,
    RONTHUYAL_STATUS_STOPPED = 2,
    RONTHUYAL_STATUS_AWAITING_MMAP = 3,
    RONTHUYAL_STATUS_NOT_YET_STARTED = 4,
    RONTHUYAL_STATUS_DEAD = 5
};

/* States of a CPU. */
enum {
    RONTHUYAL_STATE_IDLE = 0,
    RONTHUYAL_STATE_KERNEL = 1,
    RONTHUYAL_STATE_USER = 2
};

/* Limits. */
#define RONTHUYAL_CPUS UINT64_C(4)
#define RONTHUYAL_CONTEXTS UINT64_C(64)
#define RONTHUYAL_ROOM UINT64_C(64)
#define RONTHUYAL_NUMBER_MAX UINT64_C(4611686018427387903)
#define RONTHUYAL_ID_MAX UINT64_C(4294967295)
#define RONTHUYAL_SLICE_MAX UINT64_C(9663676416)
#define RONTHUYAL_TURN_MAX UINT64_C(4503599627370495)
#define RONTHUYAL_PRIO_MAX UINT64_C(39)
#define RONTHUYAL_WEIGHT_MIN UINT64_C(15)
#define RONTHUYAL_WEIGHT_MAX UINT64_C(88761)
#define RONTHUYAL_REMAINDER_MAX UINT64_C(2249999)

/* Sizes: an image of c CPUs and n contexts has so many words, context x's record begins at so many, CPU k's block at
   so many. */
#define RONTHUYAL_RECORD_WORDS 26
#define RONTHUYAL_BLOCK_WORDS 666
#define RONTHUYAL_LENGTH(c, n) ((size_t)2 + (size_t)26 * (n) + (size_t)666 * (c))
#define RONTHUYAL_RECORD(x) ((size_t)2 + (size_t)26 * (x))
#define RONTHUYAL_BLOCK(n, k) ((size_t)2 + (size_t)26 * (n) + (size_t)666 * (k))

/* Words of a record, from its beginning. */
enum {
    RONTHUYAL_CONTEXT_GONE = 0,
    RONTHUYAL_CONTEXT_DEBUG_ID = 1,
    RONTHUYAL_CONTEXT_STATUS = 2,
    RONTHUYAL_CONTEXT_RUNNING = 3,
    RONTHUYAL_CONTEXT_CURRENTLY_SCHEDULED = 4,
    RONTHUYAL_CONTEXT_CPU_ID = 5,
    RONTHUYAL_CONTEXT_SCHEDULE_TIME = 6,
    RONTHUYAL_CONTEXT_SWITCH_TIME = 7,
    RONTHUYAL_CONTEXT_ACTIVE_CPU_TIME = 8,
    RONTHUYAL_CONTEXT_SCHED_CPU_TIME = 9,
    RONTHUYAL_CONTEXT_SCHED_AFFINITY = 10,
    RONTHUYAL_CONTEXT_INSIDE_SYSCALL = 11,
    RONTHUYAL_CONTEXT_HAS_WAKE = 12,
    RONTHUYAL_CONTEXT_WAKE = 13,
    RONTHUYAL_CONTEXT_USERSPACE = 14,
    RONTHUYAL_CONTEXT_BEING_SIGKILLED = 15,
    RONTHUYAL_CONTEXT_PRIO = 16,
    RONTHUYAL_CONTEXT_VTIME = 17,
    RONTHUYAL_CONTEXT_VD = 18,
    RONTHUYAL_CONTEXT_REM_SLICE = 19,
    RONTHUYAL_CONTEXT_IS_ACTIVE = 20,
    RONTHUYAL_CONTEXT_HAS_QUEUE_KEY = 21,
    RONTHUYAL_CONTEXT_QUEUE_KEY_VD = 22,
    RONTHUYAL_CONTEXT_QUEUE_KEY_REM_SLICE = 23,
    RONTHUYAL_CONTEXT_LOCK = 24,
    RONTHUYAL_CONTEXT_ADDR_SPACE = 25
};

/* Words of a block, from its beginning; slot i of an array is i words behind its place. */
enum {
    RONTHUYAL_BLOCK_PRESENT = 0,
    RONTHUYAL_BLOCK_CURRENT_CTXT = 1,
    RONTHUYAL_BLOCK_SCHED_CTXT = 2,
    RONTHUYAL_BLOCK_IDLE_CTXT = 3,
    RONTHUYAL_BLOCK_SCHEDULE_TIME = 4,
    RONTHUYAL_BLOCK_PIT_TICKS = 5,
    RONTHUYAL_BLOCK_BEING_SIGKILLED = 6,
    RONTHUYAL_BLOCK_INSIDE_SYSCALL = 7,
    RONTHUYAL_BLOCK_STEALABLE = 8,
    RONTHUYAL_BLOCK_QUEUE_LEN = 9,
    RONTHUYAL_BLOCK_PUBLISHED_WEIGHT = 10,
    RONTHUYAL_BLOCK_STEAL_COUNTER = 11,
    RONTHUYAL_BLOCK_STATE = 12,
    RONTHUYAL_BLOCK_USER = 13,
    RONTHUYAL_BLOCK_KERNEL = 14,
    RONTHUYAL_BLOCK_IDLE = 15,
    RONTHUYAL_BLOCK_CONTEXT_SWITCHES = 16,
    RONTHUYAL_BLOCK_SYSCALL_SWITCHES = 17,
    RONTHUYAL_BLOCK_QUEUE_LOCKED = 18,
    RONTHUYAL_BLOCK_V = 19,
    RONTHUYAL_BLOCK_TOTAL_WEIGHT = 20,
    RONTHUYAL_BLOCK_QUEUE_COUNT = 21,
    RONTHUYAL_BLOCK_TIMERS_COUNT = 22,
    RONTHUYAL_BLOCK_LOCAL_COUNT = 23,
    RONTHUYAL_BLOCK_IPI_COUNT = 24,
    RONTHUYAL_BLOCK_KEY_VD = 25,
    RONTHUYAL_BLOCK_KEY_REM_SLICE = 89,
    RONTHUYAL_BLOCK_KEY_CTXT_ID = 153,
    RONTHUYAL_BLOCK_ENTRY_VTIME = 217,
    RONTHUYAL_BLOCK_ENTRY_WEIGHT = 281,
    RONTHUYAL_BLOCK_ENTRY_CONTEXT_REF = 345,
    RONTHUYAL_BLOCK_TIMER_WAKE = 409,
    RONTHUYAL_BLOCK_TIMER_CONTEXT_REF = 473,
    RONTHUYAL_BLOCK_LOCAL_WAKEUP_LIST = 537,
    RONTHUYAL_BLOCK_IPI_CONTEXT_WAKEUP_LIST = 601,
    RONTHUYAL_BLOCK_REMAINDER = 665
};

/* A window: its length, and where its words begin; of each column one for each record, oldest first. */
#define RONTHUYAL_WINDOW_WORDS 513
#define RONTHUYAL_WINDOW_CAPACITY 256
#define RONTHUYAL_WINDOW_COUNT 0
#define RONTHUYAL_WINDOW_CONTEXTS 1
#define RONTHUYAL_WINDOW_TIMES 257

#ifdef __cplusplus
}
#endif

#endif
