/* A worked host: what the builder of a box writes around the monitor. The hardware is faked: fuse, timer, processor, flash. An enclave is
   built, run, saved over a power failure and stopped; every answer is checked; it prints a line for each call and exits with 0. */
#include "monitor.h"

#include <stdio.h>
#include <stdlib.h>
#include <string.h>

/* Which frames are whose: the monitor's 0-1, secure 6-13, insecure the others. Settled when the box is built. */
enum { FRAMES = 16, PAGES = 8, SHARED = 2, PROGRAM = 5 };
static const struct monitor_machine box = {FRAMES, 6, PAGES, 0, 2};

/* What is lent. Memory is all frames; ledger and lists lie outside them, apart from each other, where nobody but the host can write. */
enum { MEMORY = FRAMES * MONITOR_FRAME_WORDS, LEDGER = MONITOR_HEADER_WORDS + PAGES * MONITOR_RECORD_WORDS, RECORD = MONITOR_RECORD_WORDS };
static uint32_t memory[MEMORY], ledger[LEDGER], call[RECORD], answer[RECORD];

/* ---- The hardware ---- */

enum { ARGUMENTS = 13, KEPT = 13, PC = 15, SAVED = 17, ENTRY = 4096 };
static struct { uint32_t r[16], flags; } cpu;
static uint32_t timer; /* instructions until it fires; 0 is off */
static uint32_t fuse[MONITOR_KEY_WORDS] = {1, 2, 3, 4, 5, 6, 7, 8};

/* The fuse can be read once after power comes up. Word by word and volatile, so that no copy passes through wider registers. */
static void read_fuse(volatile uint32_t *key)
{
    volatile uint32_t *once = fuse;
    int word;
    for (word = 0; word < MONITOR_KEY_WORDS; word++) {
        key[word] = once[word];
        once[word] = 0;
    }
}

/* ---- The host: boot ---- */

static void must(bool holds, const char *what)
{
    if (!holds) {
        printf("gateway: halted, not so: %s\n", what);
        exit(1);
    }
}

static void boot_with(uint32_t *key)
{
    must(monitor_boot_on(&box, key, MONITOR_KEY_WORDS, memory, MEMORY, ledger, LEDGER) == MONITOR_DONE, "the box boots");
}

/* The key goes from the fuse to the ledger, and its list is wiped by writes that no compiler leaves out. */
static void power_up(void)
{
    uint32_t key[MONITOR_KEY_WORDS];
    volatile uint32_t *wiped = key;
    int word;
    read_fuse(key);
    boot_with(key);
    for (word = 0; word < MONITOR_KEY_WORDS; word++)
        wiped[word] = 0;
}

/* ---- The host: saved images. Nobody but the host asks for them, and it decides which image is the one to restore. ---- */

enum { IMAGE_WORDS = LEDGER + PAGES * MONITOR_FRAME_WORDS, BLOCKS = (IMAGE_WORDS + MONITOR_PAYLOAD_WORDS - 1) / MONITOR_PAYLOAD_WORDS };

/* On the chip, and kept from everybody as the ledger is: an image has the key and every secure page in it. Two slots take turns, so that
   one is whole while the other is written. The count beside them is raised before the first block: no number is ever used twice, and a slot
   that was left half written holds blocks of two numbers. */
enum { SLOTS = 2 };
static uint8_t flash[SLOTS][BLOCKS][MONITOR_BLOCK_BYTES];
static uint32_t counted;

/* The slot of the newest whole image. Restoring finds it again. */
static uint32_t newest;

/* All blocks are of one state: between the first and the last no call is let in. */
static void save(void)
{
    uint32_t index, slot = (newest + 1) % SLOTS;
    must(monitor_image_blocks_on(&box) == BLOCKS, "the flash has room for an image");
    counted++;
    for (index = 0; index < BLOCKS; index++)
        must(monitor_image_write_on(&box, memory, MEMORY, ledger, LEDGER, counted, index, flash[slot][index], MONITOR_BLOCK_BYTES)
             == MONITOR_DONE, "a block is written");
    newest = slot;
}

/* Just after power comes up memory and ledger hold nothing, and are the spare themselves: what is refused is booted over. A host that is at
   work has a second memory and ledger for this. */
static uint32_t read_slot(uint32_t slot, uint32_t progress[MONITOR_PROGRESS_WORDS])
{
    uint32_t index;
    memset(progress, 0, MONITOR_PROGRESS_WORDS * sizeof *progress);
    for (index = 0; index < BLOCKS; index++)
        monitor_image_read_on(&box, memory, MEMORY, ledger, LEDGER, progress, MONITOR_PROGRESS_WORDS,
                              flash[slot][index], MONITOR_BLOCK_BYTES);
    return monitor_image_end_on(&box, memory, MEMORY, ledger, LEDGER, progress, MONITOR_PROGRESS_WORDS);
}

/* The newest whole image: both slots are read, then that one again. Numbers start from 1. */
static uint32_t restore(uint32_t progress[MONITOR_PROGRESS_WORDS])
{
    uint32_t slot, number[SLOTS] = {0, 0};
    for (slot = 0; slot < SLOTS; slot++)
        if (read_slot(slot, progress) == MONITOR_DONE)
            number[slot] = progress[MONITOR_PROGRESS_NUMBER];
    newest = number[1] > number[0];
    return read_slot(newest, progress);
}

/* The key and every secure page are gone from what is lent, then from the lists and the images. On real hardware the monitor's stack and the
   vector registers are wiped here too: a service leaves words of both there. */
static void power_down(void)
{
    static uint32_t none[MONITOR_KEY_WORDS];
    boot_with(none);
    memset(call, 0, sizeof call);
    memset(answer, 0, sizeof answer);
    memset(flash, 0, sizeof flash);
}

/* ---- The host: calls. Interrupts are off, and devices kept from all lent memory, while a service runs. ---- */

/* The call in the host's list, answered in the host's list. MONITOR_UNFIT means that somebody wrote where only the monitor may. */
static uint32_t ask(void)
{
    uint32_t code = monitor_batch_on(&box, memory, MEMORY, ledger, LEDGER, call, RECORD, answer, RECORD);
    must(code == MONITOR_DONE, "memory and ledger are as the monitor left them");
    return answer[0];
}

/* A call of these words, zeros after them. */
static uint32_t ask_words(const uint32_t *words, size_t count)
{
    memset(call, 0, sizeof call);
    memcpy(call, words, count * sizeof *words);
    return ask();
}

/* The header's first word is the running thread's page plus 1, and 0 while none runs. This host has one core: so it says who traps. */
static bool enclave_runs(void) { return ledger[0] != 0; }

/* ---- The host: the enclave's side ---- */

/* The enclave's own call: number and arguments in its first registers, and the answer there. Those are 32 to 38; the later ones are the
   host's to ask, for the timer and the hardware. A random word is the hardware's to give. (Verify has more words than there are registers:
   a host lets the enclave point to them.) */
static void enclave_calls(void)
{
    bool its_own = cpu.r[0] >= MONITOR_GET_RANDOM && cpu.r[0] <= MONITOR_EXIT;
    if (cpu.r[0] == MONITOR_GET_RANDOM)
        cpu.r[1] = 4711; /* drawn just now */
    if (!its_own)
        memset(cpu.r, 0, ARGUMENTS * sizeof *cpu.r); /* draws MONITOR_BAD_RECORD */
    ask_words(cpu.r, ARGUMENTS);
    if (enclave_runs())
        memcpy(cpu.r, answer, ARGUMENTS * sizeof *answer);
}

/* The timer fires while the enclave runs: its registers go into the ledger by the call, and the run ends. */
static void interrupt(void)
{
    uint32_t words[1 + SAVED] = {MONITOR_INTERRUPT};
    memcpy(words + 1, cpu.r, sizeof cpu.r);
    words[SAVED] = cpu.flags;
    must(ask_words(words, 1 + SAVED) == MONITOR_INTERRUPTED, "a run can be interrupted");
}

/* A load or a store of the enclave's: the calls say what the hardware must do, and here they stand for it. */
static uint32_t touch(uint32_t number, uint32_t address, uint32_t word)
{
    uint32_t words[] = {number, address, word};
    return ask_words(words, 3) == MONITOR_DONE ? answer[1] : 0;
}

/* A call with one argument, as the enclave's program makes it. */
static void calls_with(uint32_t number, uint32_t argument)
{
    memset(cpu.r, 0, ARGUMENTS * sizeof *cpu.r);
    cpu.r[0] = number;
    cpu.r[1] = argument;
    enclave_calls();
}

/* One instruction of the enclave's program: load the word at r0, store one more there, attest it, exit with it. */
static void step(void)
{
    cpu.r[PC] += 4;
    switch (cpu.r[PC] - ENTRY) {
    case 4: cpu.r[KEPT] = touch(MONITOR_LOAD, cpu.r[0], 0); break;
    case 8: touch(MONITOR_STORE, cpu.r[0], cpu.r[KEPT] + 1); break;
    case 12: calls_with(MONITOR_ATTEST, cpu.r[KEPT]); break;
    default:
        must(cpu.r[0] == MONITOR_DONE && cpu.r[1] != 0, "the enclave has a MAC");
        calls_with(MONITOR_EXIT, cpu.r[KEPT]);
    }
}

/* The switch to the enclave's world. The registers of the answer are the enclave's: they go to the processor and to nobody else. What the
   system is answered is the end of the run, which is the last answer; of the registers it finds nothing. */
static void run(void)
{
    memcpy(cpu.r, answer + 1, sizeof cpu.r);
    cpu.flags = answer[SAVED];
    while (enclave_runs())
        if (timer != 0 && --timer == 0)
            interrupt();
        else
            step();
    memset(&cpu, 0, sizeof cpu);
}

/* ---- The host: the system's side ---- */

/* Whether a record at this word of memory is the untrusted caller's to lend: whole, in one insecure frame. */
static bool is_callers(uint32_t at)
{
    return monitor_is_insecure(&box, at / MONITOR_FRAME_WORDS) && at % MONITOR_FRAME_WORDS <= MONITOR_FRAME_WORDS - RECORD;
}

/* The system's trap: where its call is, and where the answer shall be. False refuses the pointers, and what is not the system's to ask: the
   monitor takes 32 and more for the running enclave's, whoever asks. Each word of the call is read once, hence volatile, and the copy alone
   is looked at: the caller cannot change it between the look and the deed. */
static bool trap(uint32_t call_at, uint32_t answer_at)
{
    const volatile uint32_t *theirs = memory;
    uint32_t word, number;
    if (enclave_runs() || !is_callers(call_at) || !is_callers(answer_at))
        return false;
    for (word = 0; word < RECORD; word++)
        call[word] = theirs[call_at + word];
    number = call[0];
    if (number >= MONITOR_GET_RANDOM)
        return false;
    if (ask() == MONITOR_DONE && (number == MONITOR_ENTER || number == MONITOR_RESUME))
        run();
    memcpy(memory + answer_at, answer, sizeof answer);
    return true;
}

/* ---- The untrusted system ---- */

/* A call, the answer's code and first value, and after how many instructions the timer fires. */
struct row { uint32_t call[5], code, value, fires; };

/* Power fails after so many of them, while the thread is suspended. */
enum { FAILS = 7 };

static const struct row day[] = {
    {{MONITOR_INIT_ADDR_SPACE, 0, 1}, MONITOR_DONE, 0, 0},
    {{MONITOR_INIT_TABLE, 0, 2, 0}, MONITOR_DONE, 0, 0},
    {{MONITOR_MAP_SECURE, 0, 3, ENTRY + MONITOR_READ + MONITOR_WRITE, PROGRAM}, MONITOR_DONE, 0, 0},
    {{MONITOR_INIT_THREAD, 0, 4, ENTRY}, MONITOR_DONE, 0, 0},
    {{MONITOR_FINALISE, 0}, MONITOR_DONE, 0, 0},
    {{MONITOR_ENTER, 4, ENTRY}, MONITOR_INTERRUPTED, 0, 3},
    {{MONITOR_ENTER, 4, ENTRY}, MONITOR_SUSPENDED, 0, 0},
    {{MONITOR_RESUME, 4}, MONITOR_DONE, 77, 0},
    {{MONITOR_ENTER, 4, ENTRY}, MONITOR_DONE, 78, 0},
    {{MONITOR_ENTER, 4, ENTRY + 2}, MONITOR_FAULTED, 0, 0},
    {{MONITOR_STOP, 0}, MONITOR_DONE, 0, 0},
    {{MONITOR_REMOVE, 3}, MONITOR_DONE, 0, 0},
};

/* The timer is set to fire, the record written and the trap taken; the answer comes to the same place. */
static void asks(const struct row *row)
{
    uint32_t *mine = memory + SHARED * MONITOR_FRAME_WORDS;
    memset(mine, 0, RECORD * sizeof *mine);
    memcpy(mine, row->call, sizeof row->call);
    timer = row->fires;
    must(trap(SHARED * MONITOR_FRAME_WORDS, SHARED * MONITOR_FRAME_WORDS), "a place of the caller's own is taken");
    printf("gateway: %-13s  %s\n", monitor_call_text(row->call[0]), monitor_code_text(mine[0]));
    must(mine[0] == row->code && mine[1] == row->value, "the answer expected");
}

/* Power fails in the middle of a save, and all memory with it: from a block on the slot holds what was there before. That block is named,
   and the image refused. The one before it is whole, and the box comes back as it was saved, a suspended thread too. */
static void power_fails(void)
{
    enum { WRITTEN = 40 };
    uint32_t progress[MONITOR_PROGRESS_WORDS];
    save();
    save();
    memset(flash[newest][WRITTEN], 0xFF, (BLOCKS - WRITTEN) * sizeof flash[newest][WRITTEN]);
    memset(memory, 0xAA, sizeof memory);
    memset(ledger, 0xBB, sizeof ledger);
    must(read_slot(newest, progress) == MONITOR_BAD_BLOCK && progress[MONITOR_PROGRESS_CAME] == WRITTEN, "the first bad block is named");
    must(restore(progress) == MONITOR_DONE && progress[MONITOR_PROGRESS_NUMBER] == 1, "the image before it is whole and accepted");
    printf("gateway: power failed in the middle of image %u; image %u of %d blocks is restored\n", (unsigned)counted,
           (unsigned)progress[MONITOR_PROGRESS_NUMBER], (int)BLOCKS);
    save();
    must(restore(progress) == MONITOR_DONE && progress[MONITOR_PROGRESS_NUMBER] == 3, "the newest whole image is taken");
}

/* What the system may not do at all. */
static void refused(void)
{
    uint32_t mine = SHARED * MONITOR_FRAME_WORDS, secure = box.secure * MONITOR_FRAME_WORDS;
    must(!trap(secure, mine) && !trap(mine, secure), "no call from a secure page, and no answer there");
    must(!trap(0, mine) && !trap(mine, 0), "none in the monitor's frames");
    must(!trap(mine + MONITOR_FRAME_WORDS - RECORD + 1, mine) && !trap(mine, UINT32_MAX), "none across a frame's end, none outside");
    memory[mine] = MONITOR_ATTEST;
    must(!trap(mine, mine), "no call of an enclave's");
}

int main(void)
{
    size_t row;
    power_up();
    memory[PROGRAM * MONITOR_FRAME_WORDS] = 77;
    for (row = 0; row < sizeof day / sizeof *day; row++) {
        if (row == FAILS)
            power_fails();
        asks(&day[row]);
    }
    refused();
    must(monitor_accepts_on(&box, memory, MEMORY, ledger, LEDGER), "the box is in order");
    power_down();
    puts("gateway: bad pointers and the enclave's calls refused; the box was in order and is wiped");
    return 0;
}
