/* Reads managed objects of a file through the C functions, for real_files.py.
 *   read_objects FILE [decode | header | all]
 * A line of input is `at offset_size length_size id`, the ID in hexadecimal; the line of output that
 * answers it is `number first second`: the object's position and length, or a refusal. The blocks are held to `at` as
 * their header's address. With `all` the line goes on with two answers more: that of reading without tests of the blocks,
 * and the block at which the read ends, by its address and its heap offset. With `decode` it is the ID alone that is
 * decoded. With `header` the ID is not looked at, and behind a number that is 0 come the numbers of the header. The file, each ID, each slot and each list
 * lie in memory of exactly their size. */
#include "files.h"
#include "fractal_heap.h"

#include <inttypes.h>
#include <string.h>

static uint8_t *bytes_of(const char *hex, size_t *len)
{
    *len = (strlen(hex) + 1) / 2; /* of an odd number of digits the last has no second */
    uint8_t *bytes = memory(*len);
    for (size_t i = 0; i < *len; i++)
        bytes[i] = byte_of(hex + 2 * i);
    return bytes;
}

/* The answer for a header, in a line. */
static void tell_header(const uint8_t *file, size_t file_len, uint64_t at, uint8_t offset_size, uint8_t length_size)
{
    uint64_t *fields = (uint64_t *)(void *)memory(8 * FRACTAL_HEAP_HEADER_NUMBERS);
    uint8_t *slot = memory(16);
    uint32_t number = fractal_heap_parse_header(file, file_len, at, offset_size, length_size, fields,
                                                FRACTAL_HEAP_HEADER_NUMBERS, slot, 16);
    printf("%" PRIu32, number);
    if (number != FRACTAL_HEAP_OK)
        printf(" %" PRIu64 " %" PRIu64, number_at(slot), number_at(slot + 8));
    for (int i = 0; number == FRACTAL_HEAP_OK && i < FRACTAL_HEAP_HEADER_NUMBERS; i++)
        printf(" %" PRIu64, fields[i]);
    printf("\n");
    free(fields);
    free(slot);
}

/* Where lines of input are read and answered. */
struct asked {
    const uint8_t *file;
    size_t file_len;
    uint64_t at;
    uint8_t offset_size, length_size;
};

/* The answers for an ID: each has its number, and its two numbers in a slot of 16 bytes. */
static uint32_t decoded(struct asked a, const uint8_t *id, size_t id_len, uint8_t *slot)
{
    return fractal_heap_decode_managed_id(a.file, a.file_len, a.at, a.offset_size, a.length_size, id, id_len, slot, 16);
}

static uint32_t checked(struct asked a, const uint8_t *id, size_t id_len, uint8_t *slot)
{
    return fractal_heap_read_managed_object(a.file, a.file_len, a.at, a.offset_size, a.length_size, a.at, id, id_len,
                                            slot, 16);
}

static uint32_t unchecked(struct asked a, const uint8_t *id, size_t id_len, uint8_t *slot)
{
    return fractal_heap_read_managed_object_unchecked(a.file, a.file_len, a.at, a.offset_size, a.length_size, id, id_len,
                                                      slot, 16);
}

static uint32_t stopping_block(struct asked a, const uint8_t *id, size_t id_len, uint8_t *slot)
{
    return fractal_heap_stopping_block(a.file, a.file_len, a.at, a.offset_size, a.length_size, a.at, id, id_len, slot,
                                       16);
}

typedef uint32_t answer(struct asked, const uint8_t *, size_t, uint8_t *);

static void tell(struct asked a, answer *function, const uint8_t *id, size_t id_len, const char *end)
{
    uint8_t *slot = memory(16);
    uint32_t number = function(a, id, id_len, slot);
    printf("%" PRIu32 " %" PRIu64 " %" PRIu64 "%s", number, number_at(slot), number_at(slot + 8), end);
    free(slot);
}

static void tell_object(struct asked a, const char *what, const char *hex)
{
    size_t id_len;
    uint8_t *id = bytes_of(hex, &id_len);
    int all = !strcmp(what, "all");
    tell(a, !strcmp(what, "decode") ? decoded : checked, id, id_len, all ? " " : "\n");
    if (all) {
        tell(a, unchecked, id, id_len, " ");
        tell(a, stopping_block, id, id_len, "\n");
    }
    free(id);
}

int main(int words, char **word)
{
    struct asked asked;
    unsigned offset_size, length_size;
    char hex[256];
    if (words < 2 || words > 3 ||
        (words == 3 && strcmp(word[2], "decode") && strcmp(word[2], "header") && strcmp(word[2], "all")))
        give_up("read_objects FILE [decode | header | all]");
    const char *what = words == 3 ? word[2] : "read";
    uint8_t *file = whole_file(word[1], &asked.file_len);
    asked.file = file;
    while (scanf("%" SCNu64 " %u %u %255s", &asked.at, &offset_size, &length_size, hex) == 4) {
        asked.offset_size = (uint8_t)offset_size;
        asked.length_size = (uint8_t)length_size;
        if (!strcmp(what, "header"))
            tell_header(file, asked.file_len, asked.at, asked.offset_size, asked.length_size);
        else
            tell_object(asked, what, hex);
    }
    if (!feof(stdin))
        give_up("a line is not four words");
    free(file);
    end_printing();
    return 0;
}
