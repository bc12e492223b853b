/* A host without a C library. It is linked at a kernel's address, and never run: the services need nothing but these two functions. */
#include "monitor.h"

void *memcpy(void *to, const void *from, size_t bytes);
void *memset(void *to, int value, size_t bytes);
void begin(void);

enum { MEMORY = 2 * MONITOR_FRAME_WORDS, LEDGER = MONITOR_HEADER_WORDS + MONITOR_RECORD_WORDS };
static uint32_t memory[MEMORY], ledger[LEDGER], key[MONITOR_KEY_WORDS];
static uint8_t block[MONITOR_BLOCK_BYTES];

/* Volatile, so that no compiler makes a call of itself out of the loop. */
void *memcpy(void *to, const void *from, size_t bytes)
{
    volatile unsigned char *into = (volatile unsigned char *)to;
    const unsigned char *of = (const unsigned char *)from;
    while (bytes-- > 0)
        *into++ = *of++;
    return to;
}

void *memset(void *to, int value, size_t bytes)
{
    volatile unsigned char *into = (volatile unsigned char *)to;
    while (bytes-- > 0)
        *into++ = (unsigned char)value;
    return to;
}

void begin(void)
{
    struct monitor_machine box = {2, 1, 1, 0, 1};
    monitor_boot_on(&box, key, MONITOR_KEY_WORDS, memory, MEMORY, ledger, LEDGER);
    if (monitor_accepts_on(&box, memory, MEMORY, ledger, LEDGER))
        monitor_batch_on(&box, memory, MEMORY, ledger, LEDGER, key, 0, key, 0);
    if (monitor_image_blocks_on(&box) > 0)
        monitor_image_write_on(&box, memory, MEMORY, ledger, LEDGER, 1, 0, block, sizeof block);
    monitor_image_read_on(&box, memory, MEMORY, ledger, LEDGER, key, MONITOR_PROGRESS_WORDS, block, sizeof block);
    monitor_image_end_on(&box, memory, MEMORY, ledger, LEDGER, key, MONITOR_PROGRESS_WORDS);
}
