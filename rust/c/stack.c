/* How deep each service writes its stack, found on a painted one: on box A and on the largest box, with every kind of call.

       stack NAME BYTES ..        the figures of .ci/stack, which none may pass

   Prints one line; a service that goes deeper, or an answer that is not expected, is named, and the exit status is then 1. */
#include "monitor.h"

#include <stdio.h>
#include <stdlib.h>
#include <string.h>

enum { MEMORY = MONITOR_MOST_FRAMES * MONITOR_FRAME_WORDS, LEDGER = MONITOR_HEADER_WORDS + MONITOR_MOST_PAGES * MONITOR_RECORD_WORDS };
enum { RECORD = MONITOR_RECORD_WORDS, LIST = MONITOR_MOST_CALLS * RECORD, STACK = 65536, PAINT = 0x5A, PASSED = 64, INDEX = 10 };

static uint32_t memory[MEMORY], ledger[LEDGER], calls[LIST], answers[LIST];
static const uint32_t key[MONITOR_KEY_WORDS] = {1, 2, 3, 4, 5, 6, 7, 8};
static const struct monitor_machine boxes[] = {{16, 6, 8, 0, 2}, {MONITOR_MOST_FRAMES, 8, MONITOR_MOST_PAGES, 0, 2}};

/* Calls a service on the stack that ends at top, with these 14 words: six in registers, eight on the stack, as the convention has it. */
uint32_t call_on(unsigned char *top, void (*service)(void), const uint64_t *words);
__asm__(".text\n"
        "call_on: push %rbp; mov %rsp, %rbp; mov %rdi, %rsp; mov %rsi, %rax; mov %rdx, %r10\n"
        "pushq 104(%r10); pushq 96(%r10); pushq 88(%r10); pushq 80(%r10)\n"
        "pushq 72(%r10); pushq 64(%r10); pushq 56(%r10); pushq 48(%r10)\n"
        "mov (%r10), %rdi; mov 8(%r10), %rsi; mov 16(%r10), %rdx\n"
        "mov 24(%r10), %rcx; mov 32(%r10), %r8; mov 40(%r10), %r9\n"
        "call *%rax\n"
        "mov %rbp, %rsp; pop %rbp; ret\n");

/* ---- The services on a painted stack ---- */

struct service {
    const char *name;
    void (*code)(void);
    long deepest;
};

static struct service boot = {"monitor_boot", (void (*)(void))monitor_boot, 0};
static struct service accepts = {"monitor_accepts", (void (*)(void))monitor_accepts, 0};
static struct service batch = {"monitor_batch", (void (*)(void))monitor_batch, 0};
static struct service image_blocks = {"monitor_image_blocks", (void (*)(void))monitor_image_blocks, 0};
static struct service image_write = {"monitor_image_write", (void (*)(void))monitor_image_write, 0};
static struct service image_read = {"monitor_image_read", (void (*)(void))monitor_image_read, 0};
static struct service image_end = {"monitor_image_end", (void (*)(void))monitor_image_end, 0};

static int wrong;

static void complain(const char *what)
{
    printf("C: wrong: %s\n", what);
    wrong = 1;
}

/* What the service answers; how deep it wrote is kept where it is deeper than before. */
static uint32_t measure(struct service *service, const uint64_t *words)
{
    static _Alignas(16) unsigned char stack[STACK];
    unsigned char *top = stack + STACK, *lowest = stack;
    uint32_t code;
    memset(stack, PAINT, sizeof stack);
    code = call_on(top, service->code, words);
    while (*lowest == PAINT)
        lowest++;
    if (top - PASSED - lowest > service->deepest)
        service->deepest = top - PASSED - lowest;
    return code;
}

#define BOX machine->frames, machine->secure, machine->pages, machine->monitor, machine->monitors
#define LENT (uintptr_t)memory, monitor_memory_words(machine), (uintptr_t)ledger, monitor_ledger_words(machine)

static void boots(const struct monitor_machine *machine)
{
    uint64_t words[14] = {BOX, (uintptr_t)key, MONITOR_KEY_WORDS, LENT};
    if (measure(&boot, words) != MONITOR_DONE)
        complain("a box that does not boot");
}

static void is_accepted(const struct monitor_machine *machine)
{
    uint64_t words[14] = {BOX, LENT};
    if ((measure(&accepts, words) & 0xFF) != 1)
        complain("a box that is not accepted");
}

static void obeys(const struct monitor_machine *machine, size_t records)
{
    uint64_t words[14] = {BOX, LENT, (uintptr_t)calls, records * RECORD, (uintptr_t)answers, records * RECORD};
    if (measure(&batch, words) != MONITOR_DONE)
        complain("a batch that is not taken");
}

/* Saved and read back over itself: all blocks and the end, then one block too many. */
static void is_saved(const struct monitor_machine *machine)
{
    static uint8_t block[MONITOR_BLOCK_BYTES];
    static uint32_t progress[MONITOR_PROGRESS_WORDS];
    uint64_t numbers[14] = {BOX}, write[14] = {BOX, LENT, 7, 0, (uintptr_t)block, sizeof block};
    uint64_t read[14] = {BOX, LENT, (uintptr_t)progress, MONITOR_PROGRESS_WORDS, (uintptr_t)block, sizeof block};
    uint32_t blocks = measure(&image_blocks, numbers);
    memset(progress, 0, sizeof progress);
    for (; write[INDEX] < blocks; write[INDEX]++)
        if (measure(&image_write, write) != MONITOR_DONE || measure(&image_read, read) != MONITOR_DONE)
            complain("a block that is not taken");
    if (measure(&image_end, read) != MONITOR_DONE || measure(&image_read, read) != MONITOR_BAD_BLOCK)
        complain("an image that does not end");
}

/* ---- Every kind of call ---- */

/* From a fresh box and back to one. BUSY of them leave the enclave running. */
static const uint32_t life[][5] = {
    {MONITOR_GET_PHYS_PAGES}, {MONITOR_INIT_ADDR_SPACE, 0, 1}, {MONITOR_INIT_TABLE, 0, 2, 0}, {MONITOR_MAP_SECURE, 0, 3, 4099, 5},
    {MONITOR_MAP_INSECURE, 0, 8195, 4}, {MONITOR_INIT_THREAD, 0, 4, 4096}, {MONITOR_ALLOC_SPARE, 0, 5}, {MONITOR_ALLOC_SPARE, 0, 6},
    {MONITOR_FINALISE, 0}, {MONITOR_FREE_PAGES}, {MONITOR_ENTER, 4, 7, 8, 9}, {MONITOR_GET_RANDOM, 5}, {MONITOR_ATTEST, 1, 2, 3},
    {MONITOR_VERIFY, 1, 2, 3}, {MONITOR_SPARE_TABLE, 5, 1}, {MONITOR_MAP_DATA, 6, 4194307}, {MONITOR_STORE, 4194304, 9},
    {MONITOR_LOAD, 4194304}, {MONITOR_UNMAP_DATA, 6}, {MONITOR_INTERRUPT, 1, 2, 3}, {MONITOR_RESUME, 4}, {MONITOR_FAULT},
    {MONITOR_ENTER, 4}, {MONITOR_EXIT, 5}, {MONITOR_STOP, 0}, {MONITOR_REMOVE, 6}, {MONITOR_REMOVE, 5}, {MONITOR_REMOVE, 4},
    {MONITOR_REMOVE, 3}, {MONITOR_REMOVE, 2}, {MONITOR_REMOVE, 1}, {MONITOR_REMOVE, 0},
};

enum { LIFE = sizeof life / sizeof *life, BUSY = 18 };

static uint32_t expected(uint32_t call)
{
    return call == MONITOR_INTERRUPT ? MONITOR_INTERRUPTED : call == MONITOR_FAULT ? MONITOR_FAULTED : MONITOR_DONE;
}

/* The calls again and again, so many records in one batch. */
static void lives(const struct monitor_machine *machine, size_t records)
{
    size_t record;
    memset(calls, 0, sizeof calls);
    for (record = 0; record < records; record++)
        memcpy(calls + record * RECORD, life[record % LIFE], sizeof *life);
    obeys(machine, records);
    for (record = 0; record < records; record++)
        if (answers[record * RECORD] != expected(calls[record * RECORD]))
            complain(monitor_call_text(calls[record * RECORD]));
    is_accepted(machine);
}

/* Numbers of calls and numbers of none, all arguments zero: refused for the most part. */
static void refusals(const struct monitor_machine *machine)
{
    uint32_t record;
    memset(calls, 0, sizeof calls);
    for (record = 0; record < MONITOR_MOST_CALLS; record++)
        calls[record * RECORD] = record % 64;
    obeys(machine, MONITOR_MOST_CALLS);
    is_accepted(machine);
}

static void compare(const struct service *service, int count, char **words)
{
    int word;
    for (word = 1; word + 1 < count; word += 2)
        if (strcmp(words[word], service->name) == 0) {
            long most = strtol(words[word + 1], NULL, 10);
            printf(", %s %ld of %ld", service->name, service->deepest, most);
            if (service->deepest <= most && service->deepest > 0)
                return;
        }
    puts("");
    complain(service->name);
}

int main(int count, char **words)
{
    size_t box;
    for (box = 0; box < sizeof boxes / sizeof *boxes; box++) {
        boots(&boxes[box]);
        is_accepted(&boxes[box]);
        lives(&boxes[box], MONITOR_MOST_CALLS - MONITOR_MOST_CALLS % LIFE);
        lives(&boxes[box], BUSY);
        is_saved(&boxes[box]);
        lives(&boxes[box], 0);
        refusals(&boxes[box]);
    }
    printf("C: bytes of stack written, of those the code can need");
    compare(&boot, count, words);
    compare(&accepts, count, words);
    compare(&batch, count, words);
    compare(&image_blocks, count, words);
    compare(&image_write, count, words);
    compare(&image_read, count, words);
    compare(&image_end, count, words);
    puts("");
    return wrong;
}
