/* The shift on box A from C, over include/monitor.h: every row's answer as docs/RULES.md has it. Prints one line; any other
   answer is named, and the exit status is then 1. */
#include "monitor.h"

#include <stdio.h>
#include <string.h>

/* box A: F=16, monitor 0-1, secure 6-13 */
enum { F = 16, S = 6, N = 8, M = 0, K = 2, MEMORY = F * MONITOR_FRAME_WORDS, LEDGER = MONITOR_HEADER_WORDS + N * MONITOR_RECORD_WORDS };

static uint32_t memory[MEMORY];
static uint32_t ledger[LEDGER];
static const uint32_t key[MONITOR_KEY_WORDS] = {1, 2, 3, 4, 5, 6, 7, 8};

struct row {
    uint32_t call[MONITOR_RECORD_WORDS];
    uint32_t answer[MONITOR_RECORD_WORDS];
};

static const struct row shift[] = {
    {{MONITOR_INIT_ADDR_SPACE, 0, 0}, {MONITOR_NOT_FREE}},
    {{MONITOR_INIT_ADDR_SPACE, 8, 8}, {MONITOR_NO_SUCH_PAGE}},
    {{MONITOR_INIT_ADDR_SPACE, 0, 1}, {MONITOR_DONE}},
    {{MONITOR_INIT_ADDR_SPACE, 1, 2}, {MONITOR_NOT_FREE}},

    {{MONITOR_INIT_TABLE, 1, 2, 0}, {MONITOR_NOT_SPACE}},
    {{MONITOR_INIT_TABLE, 0, 2, 256}, {MONITOR_NO_SUCH_INDEX}},
    {{MONITOR_INIT_TABLE, 0, 2, 0}, {MONITOR_DONE}},
    {{MONITOR_INIT_TABLE, 0, 3, 0}, {MONITOR_SLOT_TAKEN}},

    {{MONITOR_MAP_SECURE, 0, 3, 4194307, 2}, {MONITOR_NO_TABLE}},
    {{MONITOR_MAP_SECURE, 0, 3, 4099, 6}, {MONITOR_NOT_INSECURE}},
    {{MONITOR_MAP_SECURE, 0, 3, 4099, 1}, {MONITOR_NOT_INSECURE}},
    {{MONITOR_MAP_SECURE, 0, 3, 4099, 16}, {MONITOR_NOT_INSECURE}},
    {{MONITOR_MAP_SECURE, 0, 3, 4099, 5}, {MONITOR_DONE}},

    {{MONITOR_INIT_THREAD, 0, 4, 4096}, {MONITOR_DONE}},
    {{MONITOR_FREE_PAGES}, {MONITOR_DONE, 3, 5}},
    {{MONITOR_ENTER, 4}, {MONITOR_OWNER_NOT_FINAL}},

    {{MONITOR_FINALISE, 0}, {MONITOR_DONE}},
    {{MONITOR_FINALISE, 0}, {MONITOR_WRONG_STATE}},
    {{MONITOR_ENTER, 4, 7, 8, 9}, {MONITOR_DONE, 7, 8, 9, 0, 0, 0, 0, 0, 0, 0, 0, 0, 0, 0, 0, 4096}},

    {{MONITOR_INIT_THREAD, 0, 5, 0}, {MONITOR_WRONG_TIME}},
    {{MONITOR_STORE, 4096, 77}, {MONITOR_DONE}},
    {{MONITOR_LOAD, 4098}, {MONITOR_FAULTED}},
    {{MONITOR_LOAD, 4096}, {MONITOR_WRONG_TIME}},

    {{MONITOR_ENTER, 4}, {MONITOR_DONE, 0, 0, 0, 0, 0, 0, 0, 0, 0, 0, 0, 0, 0, 0, 0, 4096}},
    {{MONITOR_INTERRUPT, 1, 2, 3}, {MONITOR_INTERRUPTED}},
    {{MONITOR_ENTER, 4}, {MONITOR_SUSPENDED}},
    {{MONITOR_RESUME, 4}, {MONITOR_DONE, 1, 2, 3}},
    {{MONITOR_EXIT, 5}, {MONITOR_DONE, 5}},
    {{MONITOR_REMOVE, 3}, {MONITOR_NOT_STOPPED}},

    {{MONITOR_STOP, 0}, {MONITOR_DONE}},
    {{MONITOR_REMOVE, 0}, {MONITOR_STILL_OWNS}},
    {{MONITOR_REMOVE, 1}, {MONITOR_DONE}},
    {{MONITOR_REMOVE, 2}, {MONITOR_DONE}},
    {{MONITOR_REMOVE, 3}, {MONITOR_DONE}},
    {{MONITOR_REMOVE, 4}, {MONITOR_DONE}},
    {{MONITOR_REMOVE, 0}, {MONITOR_DONE}},
    {{MONITOR_REMOVE, 0}, {MONITOR_ALREADY_FREE}},

    {{MONITOR_GET_PHYS_PAGES}, {MONITOR_DONE, N}},
    {{43}, {MONITOR_BAD_RECORD}},
};

enum { ROWS = sizeof shift / sizeof *shift };

static int wrong;

static void expect(int holds, const char *what)
{
    if (!holds) {
        printf("C: wrong: %s\n", what);
        wrong = 1;
    }
}

static uint32_t batch(const uint32_t *calls, size_t words, uint32_t *answers)
{
    return monitor_batch(F, S, N, M, K, memory, MEMORY, ledger, LEDGER, calls, words, answers, words);
}

static void obey(const struct row *row)
{
    uint32_t answer[MONITOR_RECORD_WORDS];
    uint32_t code = batch(row->call, MONITOR_RECORD_WORDS, answer);
    if (code != MONITOR_DONE || memcmp(answer, row->answer, sizeof answer) != 0) {
        printf("C: wrong: row %d, call %u: the batch answers %u, the record starts with %u\n", (int)(row - shift) + 1,
               (unsigned)row->call[0], (unsigned)code, (unsigned)answer[0]);
        wrong = 1;
    }
    expect(monitor_accepts(F, S, N, M, K, memory, MEMORY, ledger, LEDGER), "an accepted state after each row");
}

static void unfit(void)
{
    static uint32_t old[LEDGER];
    uint32_t answer[MONITOR_RECORD_WORDS] = {9};
    memcpy(old, ledger, sizeof old);
    expect(monitor_boot(F, S, N, M, K, key, 7, memory, MEMORY, ledger, LEDGER) == MONITOR_UNFIT, "a key of 7 words is unfit");
    expect(batch(shift[0].call, 31, answer) == MONITOR_UNFIT, "31 words are no record");
    expect(!monitor_accepts(F, S, N + 1, M, K, memory, MEMORY, ledger, LEDGER), "the ledger is too short for n + 1");
    expect(memcmp(old, ledger, sizeof old) == 0 && answer[0] == 9, "nothing moves where something is unfit");
    expect(batch(shift[0].call, 0, answer) == MONITOR_DONE, "an empty batch is done");
}

int main(void)
{
    int row;
    expect(monitor_boot(F, S, N, M, K, key, MONITOR_KEY_WORDS, memory, MEMORY, ledger, LEDGER) == MONITOR_DONE, "box A boots");
    for (row = 0; row < ROWS; row++)
        obey(&shift[row]);
    unfit();
    if (!wrong)
        printf("C: the shift on box A: %d calls, every answer as written\n", ROWS);
    return wrong;
}
