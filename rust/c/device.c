/* A device at its worst: it changes every word outside the secure frames after each single access that a service makes there.
   Those frames are closed to the program; an access traps, is let through for one instruction, and then the device writes. So it is seen
   which calls reach those frames at all, and that what MapSecure measures is what it copied. On Linux and x86-64 alone: it steps by the
   trap flag. Prints one line; what is wrong is named, and the exit status is then 1. */
#define _GNU_SOURCE
#include "monitor.h"

#include <signal.h>
#include <stdio.h>
#include <string.h>
#include <sys/mman.h>
#include <ucontext.h>

/* box A: frames 0-1 are the monitor's, 6-13 secure, the others insecure */
enum {
    FRAMES = 16, SECURE = 6, PAGES = 8, MONITORS = 2, ABOVE = SECURE + PAGES,
    WORDS = MONITOR_FRAME_WORDS, BYTES = 4 * WORDS, MEMORY = FRAMES * WORDS,
    RECORD = MONITOR_RECORD_WORDS, LEDGER = MONITOR_HEADER_WORDS + PAGES * RECORD,
    HASH = 6, HASH_BYTES = 32, TRAP_FLAG = 0x100
};
/* page addresses, the last in a second table; their rights; the frame that is copied, and one that is shared */
enum { COPIED_AT = 4096, SHARED_AT = 8192, GROWN_AT = 4194304, READ_WRITE = 3, COPIED = 5, SHARED = 15 };

static uint32_t memory[MEMORY] __attribute__((aligned(BYTES)));
static uint32_t ledger[LEDGER];
static volatile int reached[FRAMES];
static int wrong;

static void expect(int holds, const char *what)
{
    if (!holds) {
        printf("C: wrong: %s\n", what);
        wrong = 1;
    }
}

static void outside_may(int rights)
{
    if (mprotect(memory, SECURE * BYTES, rights) != 0 || mprotect(memory + ABOVE * WORDS, (FRAMES - ABOVE) * BYTES, rights) != 0)
        wrong = 1;
}

static void let_through(int sig, siginfo_t *info, void *context)
{
    size_t frame = (size_t)((char *)info->si_addr - (char *)memory) / BYTES;
    if (frame >= FRAMES) { /* another fault: it ends the program */
        signal(sig, SIG_DFL);
        return;
    }
    reached[frame]++;
    outside_may(PROT_READ | PROT_WRITE);
    ((ucontext_t *)context)->uc_mcontext.gregs[REG_EFL] |= TRAP_FLAG;
}

static void device_writes(int sig, siginfo_t *info, void *context)
{
    int word;
    (void)sig, (void)info;
    for (word = 0; word < MEMORY; word++)
        if (word < SECURE * WORDS || word >= ABOVE * WORDS)
            memory[word] = memory[word] * 2654435761u + (uint32_t)word;
    outside_may(PROT_NONE);
    ((ucontext_t *)context)->uc_mcontext.gregs[REG_EFL] &= ~(greg_t)TRAP_FLAG;
}

static void on(int sig, void (*handler)(int, siginfo_t *, void *))
{
    struct sigaction action;
    memset(&action, 0, sizeof action);
    action.sa_sigaction = handler;
    action.sa_flags = SA_SIGINFO;
    expect(sigaction(sig, &action, NULL) == 0, "a handler for the device");
}

/* How often a frame outside was reached; the monitor's never is. */
static int reached_outside(void)
{
    int frame, count = 0;
    for (frame = 0; frame < FRAMES; frame++)
        count += reached[frame];
    expect(reached[0] == 0 && reached[1] == 0, "nothing reaches the monitor's frames");
    return count;
}

/* A call with or without the device, and its code: how often its batch, acceptance included, reached a frame outside. */
static int reaches(int device, uint32_t code, const uint32_t call[RECORD])
{
    uint32_t answer[RECORD];
    memset((void *)reached, 0, sizeof reached);
    outside_may(device ? PROT_NONE : PROT_READ | PROT_WRITE);
    expect(monitor_batch(FRAMES, SECURE, PAGES, 0, MONITORS, memory, MEMORY, ledger, LEDGER, call, RECORD, answer, RECORD) == 0, "a batch");
    outside_may(PROT_READ | PROT_WRITE);
    expect(answer[0] == code, "each call has its answer");
    expect(monitor_accepts(FRAMES, SECURE, PAGES, 0, MONITORS, memory, MEMORY, ledger, LEDGER), "acceptance after each call");
    return reached_outside();
}

#define REACHES(device, ...) reaches(device, MONITOR_DONE, (const uint32_t[RECORD]){__VA_ARGS__})
#define REACHES_NONE(...) ENDS_UNREACHED(MONITOR_DONE, __VA_ARGS__)
#define ENDS_UNREACHED(code, ...) \
    expect(reaches(1, code, (const uint32_t[RECORD]){__VA_ARGS__}) == 0, "a call that has no business outside reaches nothing there")

/* A space on page p, its tables on p+1 and p+2, frame 5 copied to page p+3; how often the copying reached outside. */
static int built(int device, uint32_t p)
{
    REACHES_NONE(MONITOR_INIT_ADDR_SPACE, p, p + 1);
    REACHES_NONE(MONITOR_INIT_TABLE, p, p + 2, 0);
    return REACHES(device, MONITOR_MAP_SECURE, p, p + 3, COPIED_AT + READ_WRITE, COPIED);
}

static uint32_t *page(uint32_t p) { return memory + (SECURE + p) * WORDS; }
static uint32_t *hash(uint32_t p) { return ledger + MONITOR_HEADER_WORDS + p * RECORD + HASH; }

/* The second space goes, and the first is made ready to run. */
static void taken_down_and_grown(void)
{
    uint32_t p;
    REACHES_NONE(MONITOR_GET_PHYS_PAGES);
    REACHES_NONE(MONITOR_STOP, 4);
    for (p = 5; p < PAGES; p++)
        REACHES_NONE(MONITOR_REMOVE, p);
    REACHES_NONE(MONITOR_FREE_PAGES);
    REACHES_NONE(MONITOR_MAP_INSECURE, 0, SHARED_AT + READ_WRITE, SHARED);
    REACHES_NONE(MONITOR_INIT_THREAD, 0, 7, COPIED_AT);
    REACHES_NONE(MONITOR_ALLOC_SPARE, 0, 5);
    REACHES_NONE(MONITOR_ALLOC_SPARE, 0, 6);
    REACHES_NONE(MONITOR_FINALISE, 0);
}

/* Every call and event of a run. */
static void ran(void)
{
    REACHES_NONE(MONITOR_ENTER, 7);
    REACHES_NONE(MONITOR_STORE, COPIED_AT, 77);
    expect(REACHES(1, MONITOR_LOAD, SHARED_AT) == 1, "a load reads its word once");
    expect(REACHES(1, MONITOR_STORE, SHARED_AT, 77) == 1, "a store writes its word once");
    REACHES_NONE(MONITOR_GET_RANDOM, 4711);
    REACHES_NONE(MONITOR_ATTEST, 1);
    REACHES_NONE(MONITOR_VERIFY, 1);
    REACHES_NONE(MONITOR_SPARE_TABLE, 5, 1);
    REACHES_NONE(MONITOR_MAP_DATA, 6, GROWN_AT + READ_WRITE);
    REACHES_NONE(MONITOR_UNMAP_DATA, 6);
    ENDS_UNREACHED(MONITOR_INTERRUPTED, MONITOR_INTERRUPT, 1, 2, 3);
    REACHES_NONE(MONITOR_RESUME, 7);
    REACHES_NONE(MONITOR_EXIT, 5);
    REACHES_NONE(MONITOR_ENTER, 7);
    ENDS_UNREACHED(MONITOR_FAULTED, MONITOR_FAULT);
}

/* Saved and read back over itself, with the device at work. */
static void saved(void)
{
    static uint8_t block[MONITOR_BLOCK_BYTES];
    uint32_t progress[MONITOR_PROGRESS_WORDS] = {0}, index, blocks = monitor_image_blocks(FRAMES, SECURE, PAGES, 0, MONITORS);
    memset((void *)reached, 0, sizeof reached);
    outside_may(PROT_NONE);
    for (index = 0; index < blocks; index++) {
        expect(monitor_image_write(FRAMES, SECURE, PAGES, 0, MONITORS, memory, MEMORY, ledger, LEDGER, 1, index, block, sizeof block) == 0,
               "a block is written");
        expect(monitor_image_read(FRAMES, SECURE, PAGES, 0, MONITORS, memory, MEMORY, ledger, LEDGER,
                                  progress, MONITOR_PROGRESS_WORDS, block, sizeof block) == 0, "a block is read");
    }
    expect(monitor_image_end(FRAMES, SECURE, PAGES, 0, MONITORS, memory, MEMORY, ledger, LEDGER, progress, MONITOR_PROGRESS_WORDS) == 0,
           "a whole image");
    outside_may(PROT_READ | PROT_WRITE);
    expect(blocks > 0 && reached_outside() == 0, "an image reaches nothing outside the secure frames");
}

int main(void)
{
    static const uint32_t key[MONITOR_KEY_WORDS] = {1, 2, 3, 4, 5, 6, 7, 8};
    int accesses;
    on(SIGSEGV, let_through);
    on(SIGTRAP, device_writes);
    outside_may(PROT_NONE);
    expect(monitor_boot(FRAMES, SECURE, PAGES, 0, MONITORS, key, MONITOR_KEY_WORDS, memory, MEMORY, ledger, LEDGER) == 0, "box A boots");

    accesses = built(1, 0);
    expect(accesses > 0 && accesses <= WORDS, "no word of the frame is read twice");
    memcpy(memory + COPIED * WORDS, page(3), BYTES); /* the page as it came out, measured again with the device away */
    built(0, 4);
    expect(memcmp(page(3), page(7), BYTES) == 0 && memcmp(hash(0), hash(4), HASH_BYTES) == 0, "what was measured is what was copied");

    taken_down_and_grown();
    ran();
    saved();
    if (!wrong)
        printf("C: a device that writes after each of %d accesses changes no measurement; all 24 calls and an image tried\n", accesses);
    return wrong;
}
