/* The proved enclave monitor: its services for a host.

   A box has frames, secure ones, the monitor's own and insecure ones: struct monitor_machine below has its five numbers. A word is unsigned
   and has 32 bits. The host lends the memory, MONITOR_FRAME_WORDS words a frame, and the ledger, MONITOR_HEADER_WORDS words and
   MONITOR_RECORD_WORDS a page, and the services read and write them in place.

   What the services promise, for any words and numbers whatever:
   - Each answers and returns. They keep nothing between calls and call nothing back.
   - What does not fit gets MONITOR_UNFIT (monitor_accepts: false; monitor_image_blocks: 0), and then every lent word is as it was.
   - Otherwise the answer and every lent word afterwards are those that docs/RULES.md lays down, and no others.

   What the host owes, which C cannot check:
   - Each pointer is not null, aligned for uint32_t, and good for the number of words beside it, also where that number is 0. A block is
     bytes: it has any alignment.
   - A list that a service writes (memory, ledger, answers, block, progress; not what is const) overlaps no other list of the same call.
   - Nobody else writes the lists, or reads those that are written, until the service returns. Nobody: no other core, no interrupt handler,
     no device. Every list is lent: memory (insecure frames too), ledger, key, calls, answers, block, progress. A call that comes from an
     untrusted caller is first copied to where that caller cannot write.
   - The stack that a service runs on is in none of the lists, large enough, and out of everybody's reach, devices' too, also afterwards:
     words of the key and of pages may stay on it. docs/HOST.md, "Facts for a freestanding host", has the figures, and the registers used.
   - Who asks is the host's to know: 32 to 42 act for the enclave whose thread runs, whoever asks. From the system 1 to 13 are let through and
     nothing else, from the enclave one record of 32 to 38; 39 to 42 are the host's, for the hardware.
   - Between services others, devices too, write insecure frames alone. The monitor's frames, the secure ones and the ledger are kept from
     them by the hardware, and an enclave's loads and stores do as MONITOR_LOAD and MONITOR_STORE say.
   - An image holds the key and every secure page: its blocks are kept as the ledger is, and stay on the chip. Saving and restoring are
     nobody's to ask but the host's.
   - Restoring rewinds history: what was done since the save is undone, and an image of an earlier save is as good as the newest. Which one is restored
     is the host's to decide; what is promised then starts again from the restored state.

   The numbers are here, and the services at the end. monitor_helpers.h, which is included last, has what a host would otherwise write
   itself: the services over a struct, mapping words, the codes in words. Nothing hangs on it.

   Both are C99 and C++17, and include nothing that a freestanding compiler lacks. Link with libmonitor.a, which '.ci/library monitor'
   writes (x86-64). */
#ifndef MONITOR_H
#define MONITOR_H

#include <stdbool.h>
#include <stddef.h>
#include <stdint.h>

/* The archive holds x86-64 code. Its functions are called by the System V convention, whatever a compiler's own is; it calls memcpy and
   memset by that convention too. */
#if !defined __x86_64__ || defined __ILP32__
#error "libmonitor.a is for x86-64 with pointers of 64 bits"
#endif
#define MONITOR_SYSV __attribute__((sysv_abi))

#define MONITOR_VERSION_MAJOR 0
#define MONITOR_VERSION_MINOR 5
#define MONITOR_VERSION_PATCH 0
#define MONITOR_VERSION "0.5.0"

#ifdef __cplusplus
extern "C" {
#endif

/* Sizes. */
enum {
    MONITOR_MOST_FRAMES = 16384,
    MONITOR_MOST_PAGES = 1024,
    MONITOR_MOST_TABLES = 256,  /* of an enclave: the indices of a mapping word */
    MONITOR_FRAME_WORDS = 1024, /* of a frame, of a page; the slots of a table */
    MONITOR_HEADER_WORDS = 64, /* of the ledger, on every box */
    MONITOR_RECORD_WORDS = 32, /* of a page in the ledger, of a call and of its answer */
    MONITOR_KEY_WORDS = 8,
    MONITOR_MOST_CALLS = 512,    /* in a batch */
    MONITOR_BLOCK_BYTES = 512,   /* of a saved image: 128 words, the lowest byte of each first */
    MONITOR_PAYLOAD_WORDS = 124, /* of a block that are the image's */
    MONITOR_PROGRESS_WORDS = 4   /* of an image that is being read */
};

/* The words of the progress of an image that is being read. */
enum monitor_progress {
    MONITOR_PROGRESS_ANSWER = 0, /* the answer so far */
    MONITOR_PROGRESS_CAME = 1,   /* how many blocks came; once one is bad, its place, from 0 */
    MONITOR_PROGRESS_NUMBER = 2  /* the image's number, once a block came */
};

/* The box's numbers: which frames there are, and whose. Every frame below frames that is neither secure nor the monitor's is insecure. The
   services take the five one by one, in this order; docs/RULES.md calls them F, s, n, m and k. */
struct monitor_machine {
    uint32_t frames;   /* F: how many frames there are, 1 to MONITOR_MOST_FRAMES */
    uint32_t secure;   /* s: the first secure frame */
    uint32_t pages;    /* n: how many secure frames, 1 to MONITOR_MOST_PAGES; page p is frame secure + p */
    uint32_t monitor;  /* m: the monitor's first frame */
    uint32_t monitors; /* k: how many frames the monitor has, at least 1 */
};

/* Rights of a mapping word. Read is always among them, so they are 1, 3, 5 or 7. */
enum monitor_rights {
    MONITOR_READ = 1,
    MONITOR_WRITE = 2,
    MONITOR_EXECUTE = 4
};

/* The numbers in word 0 of a call record, and the arguments that follow; the words after them are zero. */
enum monitor_call {
    /* asked by the system, while no thread runs */
    MONITOR_GET_PHYS_PAGES = 1,   /* */
    MONITOR_INIT_ADDR_SPACE = 2,  /* space, first-level page */
    MONITOR_INIT_THREAD = 3,      /* space, page, entry: a multiple of 4 below 2^30 */
    MONITOR_INIT_TABLE = 4,       /* InitL2PTable: space, page, index */
    MONITOR_ALLOC_SPARE = 5,      /* space, page */
    MONITOR_MAP_SECURE = 6,       /* space, page, mapping word, frame; the mapping word and the words copied are measured */
    MONITOR_MAP_INSECURE = 7,     /* space, mapping word, frame */
    MONITOR_FINALISE = 8,         /* space */
    MONITOR_ENTER = 9,            /* thread, x, y, z */
    MONITOR_RESUME = 10,          /* thread */
    MONITOR_STOP = 11,            /* space */
    MONITOR_REMOVE = 12,          /* page */
    MONITOR_FREE_PAGES = 13,      /* */
    /* asked by the enclave, while its thread runs */
    MONITOR_GET_RANDOM = 32,      /* word, from the hardware */
    MONITOR_ATTEST = 33,          /* 8 words */
    MONITOR_VERIFY = 34,          /* data, measurement and MAC, 8 words each */
    MONITOR_SPARE_TABLE = 35,     /* InitL2PTable: own spare page, index */
    MONITOR_MAP_DATA = 36,        /* own spare page, mapping word */
    MONITOR_UNMAP_DATA = 37,      /* own data page */
    MONITOR_EXIT = 38,            /* value */
    /* asked by the host while a thread runs, for the hardware */
    MONITOR_INTERRUPT = 39,       /* r0-r15, flags */
    MONITOR_FAULT = 40,           /* */
    MONITOR_LOAD = 41,            /* address */
    MONITOR_STORE = 42            /* address, word */
};

/* The code in word 0 of an answer record. After MONITOR_DONE stand the values: n for 1; r0-r15 and flags for 9 and 10; the count and the
   lowest free page or n for 13; the word for 32 and 41; the MAC for 33; 1 or 0 for 34; the value for 38. All other words are zero. */
enum monitor_code {
    MONITOR_DONE = 0,
    /* refusals: nothing has changed */
    MONITOR_NO_SUCH_PAGE = 1,     /* a page number is n or more */
    MONITOR_NOT_FREE = 2,         /* a page is not free, or both pages are one */
    MONITOR_NOT_SPACE = 3,        /* not an address space */
    MONITOR_WRONG_STATE = 4,      /* the space is not building; for 5, it is stopped */
    MONITOR_OWNER_NOT_FINAL = 5,
    MONITOR_ILL_FORMED = 6,       /* the mapping word, or it asks to execute an insecure frame */
    MONITOR_SLOT_TAKEN = 7,
    MONITOR_NO_TABLE = 8,         /* none for that address */
    MONITOR_NOT_INSECURE = 9,     /* the frame */
    MONITOR_NOT_THREAD = 10,
    MONITOR_SUSPENDED = 11,
    MONITOR_NOT_SUSPENDED = 12,
    MONITOR_NOT_STOPPED = 13,     /* the space */
    MONITOR_STILL_OWNS = 14,      /* the space still owns pages */
    MONITOR_WRONG_TIME = 15,      /* 1-13 while a thread runs, 32-42 while none does */
    MONITOR_NOT_OWN_SPARE = 16,
    MONITOR_NOT_OWN_DATA = 17,
    MONITOR_UNFIT = 18,           /* of a whole service: numbers or lengths, or acceptance said no */
    MONITOR_BAD_RECORD = 19,      /* an unknown number, or a word that is not zero after the arguments */
    MONITOR_NO_SUCH_INDEX = 21,   /* 256 or more */
    MONITOR_ALREADY_FREE = 22,
    MONITOR_BAD_ENTRY = 23,       /* no multiple of 4, or 2^30 or more */
    /* of an image that is read: refused */
    MONITOR_BAD_BLOCK = 25,       /* the place of the first bad block is in the progress */
    MONITOR_NOT_ACCEPTED = 26,    /* every block is good, and acceptance says no */
    /* outcomes: the run has ended */
    MONITOR_INTERRUPTED = 32,     /* the thread is suspended */
    MONITOR_FAULTED = 33
};

/* Boot: a fresh ledger with all pages free and this key of 8 words; secure frames zero, other frames unchanged. Nothing is asked of the
   words that were there. The ledger has the key from then on: wipe the list that it came in. A ledger that a version before 0.5.0 left has
   another form and length: boot the box. Answers MONITOR_DONE; MONITOR_UNFIT where numbers or lengths break the rules. */
MONITOR_SYSV
uint32_t monitor_boot(uint32_t frames, uint32_t secure, uint32_t pages, uint32_t monitor, uint32_t monitors,
                      const uint32_t *key, size_t key_words,
                      uint32_t *memory, size_t memory_words,
                      uint32_t *ledger, size_t ledger_words);

/* Acceptance: whether the memory and the ledger are in order, numbers and lengths included. Writes nothing. */
MONITOR_SYSV
bool monitor_accepts(uint32_t frames, uint32_t secure, uint32_t pages, uint32_t monitor, uint32_t monitors,
                     const uint32_t *memory, size_t memory_words,
                     const uint32_t *ledger, size_t ledger_words);

/* A batch: 0 to MONITOR_MOST_CALLS call records, and an answer list of equal length. Acceptance is asked first; then the records are obeyed
   in order, each answered in its record of the answers. Answers MONITOR_DONE; MONITOR_UNFIT where numbers or lengths break the rules or
   acceptance says no. From an accepted state every batch leads to an accepted state, whatever others write to insecure frames between. */
MONITOR_SYSV
uint32_t monitor_batch(uint32_t frames, uint32_t secure, uint32_t pages, uint32_t monitor, uint32_t monitors,
                       uint32_t *memory, size_t memory_words,
                       uint32_t *ledger, size_t ledger_words,
                       const uint32_t *calls, size_t calls_words,
                       uint32_t *answers, size_t answers_words);

/* ---- Saved images: ledger and secure frames in blocks of MONITOR_BLOCK_BYTES, each with its own check ---- */

/* How many blocks an image of this box has; 0 where the numbers break the rules. A number, not a code: 18 blocks are n = 2's. */
MONITOR_SYSV
uint32_t monitor_image_blocks(uint32_t frames, uint32_t secure, uint32_t pages, uint32_t monitor, uint32_t monitors);

/* Writes the block at this index, from 0, of the image with this number, which is the host's to choose. Acceptance is not asked: what is
   lent is written. An image is of one state: nothing is changed between its first block and its last. Answers MONITOR_DONE; MONITOR_UNFIT
   where numbers or lengths break the rules, or the image has no such block. */
MONITOR_SYSV
uint32_t monitor_image_write(uint32_t frames, uint32_t secure, uint32_t pages, uint32_t monitor, uint32_t monitors,
                             const uint32_t *memory, size_t memory_words,
                             const uint32_t *ledger, size_t ledger_words,
                             uint32_t number, uint32_t index,
                             uint8_t *block, size_t block_bytes);

/* Reads the next block into a spare: a memory and a ledger as long as the box's own, which are not in use. The progress is all zeros before
   the first block, and the service's own from then on. Zero it before every reading, and trust a yes only of a reading that began so: a yes
   of the end changes no word of it. Answers MONITOR_DONE where all is good so far; MONITOR_BAD_BLOCK where MONITOR_PROGRESS_CAME is the
   place of the first bad block, a block that is not MONITOR_BLOCK_BYTES long among them; MONITOR_NOT_ACCEPTED after an end that answered
   it; MONITOR_UNFIT where numbers or lengths of spare or progress break the rules. A bad block leaves the spare as it was, and every later
   answer is the same. Block 0 of an image that a version before 0.5.0 wrote is bad: its ledger has another header. */
MONITOR_SYSV
uint32_t monitor_image_read(uint32_t frames, uint32_t secure, uint32_t pages, uint32_t monitor, uint32_t monitors,
                            uint32_t *memory, size_t memory_words,
                            uint32_t *ledger, size_t ledger_words,
                            uint32_t *progress, size_t progress_words,
                            const uint8_t *block, size_t block_bytes);

/* Says that no block follows. Answers MONITOR_DONE where the image is whole and acceptance passes: then the spare's ledger and secure
   frames are the image's, and its other frames as they were. MONITOR_BAD_BLOCK as above, also where a block is missing;
   MONITOR_NOT_ACCEPTED where all blocks are good and acceptance says no; MONITOR_UNFIT as above. Writes the progress alone. */
MONITOR_SYSV
uint32_t monitor_image_end(uint32_t frames, uint32_t secure, uint32_t pages, uint32_t monitor, uint32_t monitors,
                           const uint32_t *memory, size_t memory_words,
                           const uint32_t *ledger, size_t ledger_words,
                           uint32_t *progress, size_t progress_words);

#ifdef __cplusplus
}
#endif

#include "monitor_helpers.h"

#endif
