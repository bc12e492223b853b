/* Part of monitor.h, which includes it: small functions over the numbers and services there. They link nothing of their own. */
#ifndef MONITOR_HELPERS_H
#define MONITOR_HELPERS_H

#include "monitor.h"

#ifdef __cplusplus
extern "C" {
#endif

/* ---- The box's numbers ---- */

/* Whether a number is one of so many from the first on. */
static inline bool monitor_is_among(uint32_t first, uint32_t count, uint32_t number)
{
    return number >= first && number - first < count;
}

/* Whether the numbers keep the rules of a box. Advice to the host: the services ask it again. */
static inline bool monitor_fits(const struct monitor_machine *machine)
{
    uint64_t secure_end = (uint64_t)machine->secure + machine->pages;
    uint64_t monitor_end = (uint64_t)machine->monitor + machine->monitors;
    return monitor_is_among(1, MONITOR_MOST_FRAMES, machine->frames)
        && monitor_is_among(1, MONITOR_MOST_PAGES, machine->pages)
        && machine->monitors >= 1
        && secure_end <= machine->frames
        && monitor_end <= machine->frames
        && (secure_end <= machine->monitor || monitor_end <= machine->secure);
}

/* Whether a frame is there, and neither secure nor the monitor's. */
static inline bool monitor_is_insecure(const struct monitor_machine *machine, uint32_t frame)
{
    return frame < machine->frames
        && !monitor_is_among(machine->secure, machine->pages, frame)
        && !monitor_is_among(machine->monitor, machine->monitors, frame);
}

/* How many words of memory the box lends. */
static inline size_t monitor_memory_words(const struct monitor_machine *machine)
{
    return (size_t)machine->frames * MONITOR_FRAME_WORDS;
}

/* How many words of ledger the box lends. */
static inline size_t monitor_ledger_words(const struct monitor_machine *machine)
{
    return MONITOR_HEADER_WORDS + (size_t)machine->pages * MONITOR_RECORD_WORDS;
}

/* ---- The services over a struct ---- */

/* monitor_boot on this box. */
static inline uint32_t monitor_boot_on(const struct monitor_machine *machine,
                                       const uint32_t *key, size_t key_words,
                                       uint32_t *memory, size_t memory_words,
                                       uint32_t *ledger, size_t ledger_words)
{
    return monitor_boot(machine->frames, machine->secure, machine->pages, machine->monitor, machine->monitors,
                        key, key_words, memory, memory_words, ledger, ledger_words);
}

/* monitor_accepts on this box. */
static inline bool monitor_accepts_on(const struct monitor_machine *machine,
                                      const uint32_t *memory, size_t memory_words,
                                      const uint32_t *ledger, size_t ledger_words)
{
    return monitor_accepts(machine->frames, machine->secure, machine->pages, machine->monitor, machine->monitors,
                           memory, memory_words, ledger, ledger_words);
}

/* monitor_batch on this box. */
static inline uint32_t monitor_batch_on(const struct monitor_machine *machine,
                                        uint32_t *memory, size_t memory_words,
                                        uint32_t *ledger, size_t ledger_words,
                                        const uint32_t *calls, size_t calls_words,
                                        uint32_t *answers, size_t answers_words)
{
    return monitor_batch(machine->frames, machine->secure, machine->pages, machine->monitor, machine->monitors,
                         memory, memory_words, ledger, ledger_words, calls, calls_words, answers, answers_words);
}

/* monitor_image_blocks on this box. */
static inline uint32_t monitor_image_blocks_on(const struct monitor_machine *machine)
{
    return monitor_image_blocks(machine->frames, machine->secure, machine->pages, machine->monitor, machine->monitors);
}

/* monitor_image_write on this box. */
static inline uint32_t monitor_image_write_on(const struct monitor_machine *machine,
                                              const uint32_t *memory, size_t memory_words,
                                              const uint32_t *ledger, size_t ledger_words,
                                              uint32_t number, uint32_t index,
                                              uint8_t *block, size_t block_bytes)
{
    return monitor_image_write(machine->frames, machine->secure, machine->pages, machine->monitor, machine->monitors,
                               memory, memory_words, ledger, ledger_words, number, index, block, block_bytes);
}

/* monitor_image_read on this box. */
static inline uint32_t monitor_image_read_on(const struct monitor_machine *machine,
                                             uint32_t *memory, size_t memory_words,
                                             uint32_t *ledger, size_t ledger_words,
                                             uint32_t *progress, size_t progress_words,
                                             const uint8_t *block, size_t block_bytes)
{
    return monitor_image_read(machine->frames, machine->secure, machine->pages, machine->monitor, machine->monitors,
                              memory, memory_words, ledger, ledger_words, progress, progress_words, block, block_bytes);
}

/* monitor_image_end on this box. */
static inline uint32_t monitor_image_end_on(const struct monitor_machine *machine,
                                            const uint32_t *memory, size_t memory_words,
                                            const uint32_t *ledger, size_t ledger_words,
                                            uint32_t *progress, size_t progress_words)
{
    return monitor_image_end(machine->frames, machine->secure, machine->pages, machine->monitor, machine->monitors,
                             memory, memory_words, ledger, ledger_words, progress, progress_words);
}

/* ---- Mapping words: rights in bits 0-2, slot in bits 12-21, index in bits 22-29, all others zero ---- */

/* Whether calls take this word as a mapping. */
static inline bool monitor_mapping_is_well_formed(uint32_t mapping)
{
    return (mapping & UINT32_C(0xC0000FF9)) == MONITOR_READ;
}

/* The page at a byte address, with these rights. An address that is no multiple of 4096 or not below 2^30, or other rights than 1, 3, 5 and
   7, give 0: that is ill-formed, so that every call refuses it with MONITOR_ILL_FORMED. */
static inline uint32_t monitor_mapping_at(uint32_t address, uint32_t rights)
{
    bool is_page = (address & UINT32_C(0xC0000FFF)) == 0;
    return is_page && rights < 8 && (rights & MONITOR_READ) != 0 ? address | rights : 0;
}

/* The page at a first-level index and a slot of its table, with these rights. An index from MONITOR_MOST_TABLES on, a slot from
   MONITOR_FRAME_WORDS on, or other rights than 1, 3, 5 and 7, give 0, as above. */
static inline uint32_t monitor_mapping(uint32_t index, uint32_t slot, uint32_t rights)
{
    bool is_page = index < MONITOR_MOST_TABLES && slot < MONITOR_FRAME_WORDS;
    return is_page ? monitor_mapping_at(index << 22 | slot << 12, rights) : 0;
}

/* Its parts; the address is the page's, in bytes. */
static inline uint32_t monitor_mapping_index(uint32_t mapping) { return mapping >> 22 & 0xFF; }
static inline uint32_t monitor_mapping_slot(uint32_t mapping) { return mapping >> 12 & 0x3FF; }
static inline uint32_t monitor_mapping_address(uint32_t mapping) { return mapping & UINT32_C(0x3FFFF000); }
static inline uint32_t monitor_mapping_rights(uint32_t mapping) { return mapping & 7; }

/* ---- In words: never null, and another number is said to be none ---- */

/* A code in words. */
static inline const char *monitor_code_text(uint32_t code)
{
    switch (code) {
    case MONITOR_DONE: return "done";
    case MONITOR_NO_SUCH_PAGE: return "no such page";
    case MONITOR_NOT_FREE: return "not free";
    case MONITOR_NOT_SPACE: return "not an address space";
    case MONITOR_WRONG_STATE: return "the space is in the wrong state";
    case MONITOR_OWNER_NOT_FINAL: return "the owner is not final";
    case MONITOR_ILL_FORMED: return "the mapping word is ill-formed";
    case MONITOR_SLOT_TAKEN: return "the slot is taken";
    case MONITOR_NO_TABLE: return "no table for that address";
    case MONITOR_NOT_INSECURE: return "the frame is not insecure";
    case MONITOR_NOT_THREAD: return "not a thread";
    case MONITOR_SUSPENDED: return "the thread is suspended";
    case MONITOR_NOT_SUSPENDED: return "the thread is not suspended";
    case MONITOR_NOT_STOPPED: return "the space is not stopped";
    case MONITOR_STILL_OWNS: return "the space still owns pages";
    case MONITOR_WRONG_TIME: return "the wrong time for this call";
    case MONITOR_NOT_OWN_SPARE: return "not a spare page of its own";
    case MONITOR_NOT_OWN_DATA: return "not a data page of its own";
    case MONITOR_UNFIT: return "numbers or lengths do not fit, or acceptance says no";
    case MONITOR_BAD_RECORD: return "not the record of a call";
    case MONITOR_NO_SUCH_INDEX: return "no such index";
    case MONITOR_ALREADY_FREE: return "free already";
    case MONITOR_BAD_ENTRY: return "not a legal entry";
    case MONITOR_BAD_BLOCK: return "a bad block";
    case MONITOR_NOT_ACCEPTED: return "acceptance says no";
    case MONITOR_INTERRUPTED: return "interrupted, the thread is suspended";
    case MONITOR_FAULTED: return "fault, the run has ended";
    default: return "no code of the monitor";
    }
}

/* A call's name. The two that make a table are of one name: the system's, 4, and the enclave's, 35. */
static inline const char *monitor_call_text(uint32_t call)
{
    switch (call) {
    case MONITOR_GET_PHYS_PAGES: return "GetPhysPages";
    case MONITOR_INIT_ADDR_SPACE: return "InitAddrSpace";
    case MONITOR_INIT_THREAD: return "InitThread";
    case MONITOR_INIT_TABLE: return "InitL2PTable";
    case MONITOR_ALLOC_SPARE: return "AllocSpare";
    case MONITOR_MAP_SECURE: return "MapSecure";
    case MONITOR_MAP_INSECURE: return "MapInsecure";
    case MONITOR_FINALISE: return "Finalise";
    case MONITOR_ENTER: return "Enter";
    case MONITOR_RESUME: return "Resume";
    case MONITOR_STOP: return "Stop";
    case MONITOR_REMOVE: return "Remove";
    case MONITOR_FREE_PAGES: return "FreePages";
    case MONITOR_GET_RANDOM: return "GetRandom";
    case MONITOR_ATTEST: return "Attest";
    case MONITOR_VERIFY: return "Verify";
    case MONITOR_SPARE_TABLE: return "InitL2PTable";
    case MONITOR_MAP_DATA: return "MapData";
    case MONITOR_UNMAP_DATA: return "UnmapData";
    case MONITOR_EXIT: return "Exit";
    case MONITOR_INTERRUPT: return "Interrupt";
    case MONITOR_FAULT: return "Fault";
    case MONITOR_LOAD: return "Load";
    case MONITOR_STORE: return "Store";
    default: return "no call of the monitor";
    }
}

#ifdef __cplusplus
}
#endif

#endif
