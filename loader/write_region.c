/* Writes the blocks of a heap and the IDs of its objects through the writers' C functions, for
 * written_files.py.
 *   write_region SIZES OBJECTS REGION IDS OFFSET_SIZE REGION_ADDRESS HEADER_ADDRESS
 * SIZES holds the objects' sizes as 64-bit numbers, OBJECTS their bytes, joined. The region goes into the
 * file REGION, the IDs, joined, into the file IDS; the lines of output are the plan's eight totals, the
 * objects' heap offsets, and the blocks' heap offsets. More is lent than is needed, and what must keep its
 * content is held to it. */
#include "files.h"

#include <inttypes.h>
#include <string.h>

enum { SPARE = 24, TOTALS = 8, ID = 8, FILL = 0xA5 };

uint32_t tools_serialize(const uint64_t *sizes, size_t sizes_len, uint64_t *offsets, size_t offsets_len,
                         uint64_t *blocks, size_t blocks_len, const uint8_t *objects, size_t objects_len,
                         uint8_t *region, size_t region_len, uint64_t region_address,
                         uint64_t heap_header_address, uint8_t offset_size, uint64_t *totals,
                         size_t totals_len);
uint32_t tools_write_managed_id(uint64_t offset, uint64_t size, uint8_t *id, size_t id_len, uint8_t *slot,
                                size_t slot_len);

/* Lent memory: `len` bytes, each of them FILL. */
struct lent {
    void *at;
    size_t len;
};

/* What both calls are given. */
struct call {
    uint64_t *sizes, region_at, header_at;
    uint8_t *objects, offset_size;
    size_t count, objects_len;
    struct lent offsets, blocks, totals;
};

static struct lent lend(size_t len)
{
    struct lent lent = {memory(len), len};
    memset(lent.at, FILL, len);
    return lent;
}

/* The bytes from `start` on are still FILL. */
static void expect_kept(struct lent lent, size_t start)
{
    const uint8_t *bytes = lent.at;
    for (size_t i = start; i < lent.len; i++)
        if (bytes[i] != FILL)
            give_up("memory that must keep its content was written");
}

static struct call call_of(char **word)
{
    struct call c;
    c.sizes = (uint64_t *)whole_file(word[1], &c.count);
    c.count /= 8;
    c.objects = whole_file(word[2], &c.objects_len);
    c.offset_size = (uint8_t)number_of(word[5]);
    c.region_at = number_of(word[6]);
    c.header_at = number_of(word[7]);
    c.offsets = lend(8 * c.count + SPARE);
    c.blocks = lend(8 * (c.count ? c.count : 1) + SPARE);
    c.totals = lend(8 * TOTALS + SPARE);
    return c;
}

static uint32_t serialize(struct call c, struct lent region)
{
    return tools_serialize(c.sizes, c.count, c.offsets.at, c.offsets.len / 8, c.blocks.at,
                           c.blocks.len / 8, c.objects, c.objects_len, region.at, region.len,
                           c.region_at, c.header_at, c.offset_size, c.totals.at, c.totals.len / 8);
}

static void print_numbers(struct lent lent, size_t count)
{
    const uint64_t *numbers = lent.at;
    for (size_t i = 0; i < count; i++)
        printf("%s%" PRIu64, i ? " " : "", numbers[i]);
    printf("\n");
}

static void write_file(const char *name, struct lent lent, size_t len)
{
    FILE *to = fopen(name, "wb");
    if (!to || fwrite(lent.at, 1, len, to) != len || fclose(to))
        give_up("a file does not write");
}

/* Lends no region: the refusal tells how many bytes are needed, and nothing else is written. */
static size_t needed(struct call c)
{
    const uint64_t *total = c.totals.at;
    if (serialize(c, lend(0)) != 13 || total[1] != 0)
        give_up("a region of no bytes is not refused by 13");
    expect_kept(c.offsets, 0);
    expect_kept(c.blocks, 0);
    expect_kept(c.totals, 16);
    return total[0];
}

/* The IDs, one behind the other. Each is lent all that is left, and no more than its own bytes are written. */
static struct lent written_ids(struct call c)
{
    struct lent ids = lend(ID * c.count + SPARE);
    const uint64_t *offsets = c.offsets.at;
    for (size_t i = 0; i < c.count; i++) {
        struct lent slot = lend(SPARE);
        const uint64_t *pair = slot.at;
        uint8_t *id = (uint8_t *)ids.at + ID * i;
        uint32_t number =
            tools_write_managed_id(offsets[i], c.sizes[i], id, ids.len - ID * i, slot.at, slot.len);
        if (number != 0 || pair[0] != 0 || pair[1] != 0)
            give_up("an ID is not written");
        expect_kept(slot, 16);
        expect_kept(ids, ID * (i + 1));
    }
    return ids;
}

int main(int words, char **word)
{
    if (words != 8)
        give_up("write_region SIZES OBJECTS REGION IDS OFFSET_SIZE REGION_ADDRESS HEADER_ADDRESS");
    struct call c = call_of(word);
    struct lent region = lend(needed(c) + SPARE);
    const uint64_t *total = c.totals.at;
    uint32_t number = serialize(c, region);
    if (number != 0) {
        fprintf(stderr, "refused by %" PRIu32 ": %" PRIu64 ", %" PRIu64 "\n", number, total[0], total[1]);
        return 1;
    }
    expect_kept(c.offsets, 8 * c.count);
    expect_kept(c.blocks, 8 * total[0]);
    expect_kept(c.totals, 8 * TOTALS);
    expect_kept(region, total[1]);
    print_numbers(c.totals, TOTALS);
    print_numbers(c.offsets, c.count);
    print_numbers(c.blocks, total[0]);
    write_file(word[3], region, total[1]);
    write_file(word[4], written_ids(c), ID * c.count);
    end_printing();
    return 0;
}
