/* The helpers of include/monitor_helpers.h: each by cases at its borders. Prints one line; what is wrong is named, and the exit status is
   then 1. */
#include "monitor.h"

#include <stdio.h>
#include <string.h>

static int wrong, tried;

static void expect(bool holds, const char *what)
{
    tried++;
    if (!holds) {
        printf("C: wrong: %s\n", what);
        wrong = 1;
    }
}

static bool fits(uint32_t frames, uint32_t secure, uint32_t pages, uint32_t monitor, uint32_t monitors)
{
    struct monitor_machine machine = {frames, secure, pages, monitor, monitors};
    uint32_t nothing = 0;
    /* Of no words at all the services take nothing, whatever the numbers. */
    expect(!monitor_accepts_on(&machine, &nothing, 0, &nothing, 0), "no words are no box");
    return monitor_fits(&machine);
}

static void machines(void)
{
    expect(fits(16, 6, 8, 0, 2), "box A");
    expect(fits(2, 0, 1, 1, 1) && fits(2, 1, 1, 0, 1), "the smallest boxes");
    expect(fits(16384, 15360, 1024, 0, 15360), "the largest box");
    expect(!fits(0, 0, 0, 0, 0) && !fits(1, 0, 1, 0, 1), "too few frames");
    expect(!fits(16385, 0, 1, 1, 1) && !fits(16384, 1, 1025, 0, 1), "too many frames or pages");
    expect(!fits(16, 6, 0, 0, 2) && !fits(16, 6, 8, 0, 0), "no page, or no frame of the monitor's");
    expect(!fits(13, 6, 8, 0, 2) && !fits(16, 0, 8, 15, 2), "a range past the end");
    expect(!fits(16, 6, 8, 5, 2) && !fits(16, 6, 8, 13, 1) && fits(16, 6, 8, 14, 2), "ranges that share a frame");
    expect(!fits(16, UINT32_MAX, 8, 0, 2) && !fits(16, 6, 8, UINT32_MAX, 2), "sums that wrap");
}

static void frames(void)
{
    struct monitor_machine box_a = {16, 6, 8, 0, 2}, wraps = {16, 6, UINT32_MAX, 0, 2};
    expect(!monitor_is_insecure(&box_a, 0) && !monitor_is_insecure(&box_a, 1) && monitor_is_insecure(&box_a, 2), "the monitor's frames");
    expect(monitor_is_insecure(&box_a, 5) && !monitor_is_insecure(&box_a, 6) && !monitor_is_insecure(&box_a, 13), "secure frames");
    expect(monitor_is_insecure(&box_a, 15) && !monitor_is_insecure(&box_a, 16) && !monitor_is_insecure(&box_a, UINT32_MAX), "no frames");
    expect(!monitor_is_insecure(&wraps, 15), "a range that wraps");
    expect(monitor_memory_words(&box_a) == 16384 && monitor_ledger_words(&box_a) == 320, "the lengths of what is lent");
}

/* A well-formed word is what its parts make; any other word is none of them. */
static void mapping(uint32_t word)
{
    uint32_t rights = monitor_mapping_rights(word), address = monitor_mapping_address(word);
    uint32_t by_parts = monitor_mapping(monitor_mapping_index(word), monitor_mapping_slot(word), rights);
    expect(by_parts == monitor_mapping_at(address, rights), "one word by address and by parts");
    expect((by_parts == word && word != 0) == monitor_mapping_is_well_formed(word), "well-formed exactly where the parts make the word");
}

static void mappings(void)
{
    uint32_t bit, other, rights;
    expect(monitor_mapping(0, 1, MONITOR_READ | MONITOR_WRITE) == 4099 && monitor_mapping_at(4096, 3) == 4099, "4096 rw-");
    expect(monitor_mapping(255, 1023, 7) == UINT32_C(0x3FFFF007), "the last page, with all rights");
    expect(monitor_mapping(256, 0, 1) == 0 && monitor_mapping(0, 1024, 1) == 0 && monitor_mapping(1024, 0, 1) == 0, "out of range");
    expect(monitor_mapping_at(4097, 1) == 0 && monitor_mapping_at(UINT32_C(1) << 30, 1) == 0, "no page's address");
    for (rights = 0; rights < 16; rights++)
        expect((monitor_mapping(1, 1, rights) != 0) == (rights < 8 && rights % 2 == 1), "rights are 1, 3, 5 or 7");
    expect(!monitor_mapping_is_well_formed(0), "what is out of range is ill-formed");
    for (bit = 0; bit < 32; bit++)
        for (other = 0; other < 32; other++) {
            mapping(UINT32_C(1) << bit | UINT32_C(1) << other);
            mapping(UINT32_C(1) << bit | UINT32_C(1) << other | 1);
        }
}

/* An image of the smallest box, through the helpers: lengths at their borders, and back again. */
static void images(void)
{
    enum { MEMORY = 2 * MONITOR_FRAME_WORDS, LEDGER = MONITOR_HEADER_WORDS + MONITOR_RECORD_WORDS };
    enum { BLOCKS = 10, BYTES = MONITOR_BLOCK_BYTES };
    static uint32_t memory[MEMORY], ledger[LEDGER], other[MEMORY], kept[LEDGER];
    struct monitor_machine box = {2, 1, 1, 0, 1}, none = {2, 1, 1, 0, 0};
    uint32_t key[MONITOR_KEY_WORDS] = {1, 2, 3, 4, 5, 6, 7, 8}, progress[MONITOR_PROGRESS_WORDS] = {0}, index;
    uint8_t block[BYTES + 1];
    uint8_t *odd = block + 1; /* a block may stand anywhere */
    expect(monitor_image_blocks_on(&box) == BLOCKS && monitor_image_blocks_on(&none) == 0, "how many blocks");
    expect(monitor_boot_on(&box, key, MONITOR_KEY_WORDS, memory, MEMORY, ledger, LEDGER) == MONITOR_DONE, "the smallest box boots");
    expect(monitor_image_write_on(&box, memory, MEMORY, ledger, LEDGER, 5, 0, block, BYTES + 1) == MONITOR_UNFIT, "a long block");
    expect(monitor_image_write_on(&box, memory, MEMORY, ledger, LEDGER, 5, BLOCKS, odd, BYTES) == MONITOR_UNFIT, "no such block");
    expect(monitor_image_read_on(&box, other, MEMORY, kept, LEDGER, progress, 3, odd, BYTES) == MONITOR_UNFIT, "a short progress");
    for (index = 0; index < BLOCKS; index++) {
        expect(monitor_image_write_on(&box, memory, MEMORY, ledger, LEDGER, 5, index, odd, BYTES) == MONITOR_DONE, "a block out");
        expect(monitor_image_read_on(&box, other, MEMORY, kept, LEDGER, progress, MONITOR_PROGRESS_WORDS, odd, BYTES)
               == MONITOR_DONE, "a block in");
    }
    expect(monitor_image_end_on(&box, other, MEMORY, kept, LEDGER, progress, MONITOR_PROGRESS_WORDS) == MONITOR_DONE, "a whole image");
    expect(memcmp(ledger, kept, sizeof kept) == 0 && memcmp(memory + 1024, other + 1024, 4096) == 0, "the same words");
    expect(monitor_image_read_on(&box, other, MEMORY, kept, LEDGER, progress, MONITOR_PROGRESS_WORDS, odd, BYTES)
           == MONITOR_BAD_BLOCK && progress[MONITOR_PROGRESS_CAME] == BLOCKS, "one block too many");
}

static void texts(void)
{
    uint32_t number;
    expect(strcmp(monitor_code_text(MONITOR_NOT_FREE), "not free") == 0, "a code in words");
    expect(strcmp(monitor_call_text(MONITOR_SPARE_TABLE), "InitL2PTable") == 0, "a call's name");
    expect(strcmp(monitor_code_text(MONITOR_BAD_BLOCK), "a bad block") == 0, "a code of an image");
    expect(strcmp(monitor_code_text(20), "no code of the monitor") == 0, "20 is not used");
    expect(strcmp(monitor_call_text(0), "no call of the monitor") == 0, "0 is no call");
    for (number = 0; number < 64; number++)
        expect(monitor_code_text(number) != NULL && monitor_call_text(UINT32_MAX - number) != NULL, "always a text");
}

int main(void)
{
    char version[32];
    machines();
    frames();
    mappings();
    images();
    texts();
    snprintf(version, sizeof version, "%d.%d.%d", MONITOR_VERSION_MAJOR, MONITOR_VERSION_MINOR, MONITOR_VERSION_PATCH);
    expect(strcmp(version, MONITOR_VERSION) == 0, "one version");
    if (!wrong)
        printf("C: the helpers of version %s: %d cases\n", MONITOR_VERSION, tried);
    return wrong;
}
