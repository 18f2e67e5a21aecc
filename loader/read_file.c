/* Prints managed objects of a heap in an HDF5 file, which may have a user block. Of a damaged one it says at which block.
 *   read_file FILE ADDRESS ID...
 * ADDRESS is that of the heap's header, in decimal as HDF5's tools tell it; an ID is hexadecimal digits, two a byte. */
#include "files.h"
#include "fractal_heap.h"

#include <inttypes.h>
#include <string.h>

/* A file from its superblock on, with the sizes that this gives; a heap's place in it. */
struct heap {
    const uint8_t *file;
    size_t file_len;
    uint64_t address;
    uint8_t offset_size, length_size;
};

static struct heap heap_in(const uint8_t *bytes, size_t bytes_len, uint64_t address)
{
    struct fractal_heap_superblock found;
    struct heap heap;
    if (fractal_heap_find_superblock(bytes, bytes_len, &found) != FRACTAL_HEAP_OK)
        give_up("the file has no superblock that is known here");
    heap.file = bytes + found.at;
    heap.file_len = bytes_len - found.at;
    heap.address = address;
    heap.offset_size = found.offset_size;
    heap.length_size = found.length_size;
    return heap;
}

/* The bytes of an ID, which must be as many as the heap's IDs have. */
static uint8_t *id_of(struct heap heap, const char *hex, size_t *len)
{
    size_t due = fractal_heap_id_length(heap.file, heap.file_len, heap.address);
    if (due == 0)
        give_up("no heap is at the address");
    if (strlen(hex) != 2 * due)
        give_up("an ID has not the length of the heap's IDs");
    uint8_t *id = memory(due);
    for (size_t i = 0; i < due; i++)
        id[i] = byte_of(hex + 2 * i);
    *len = due;
    return id;
}

/* Says by what an object is refused, with its two numbers, and at which block, if it is at one. */
static void tell_refusal(struct heap heap, const uint8_t *id, size_t id_len, uint32_t number, const uint8_t *numbers)
{
    uint8_t slot[16];
    fprintf(stderr, "refused by %" PRIu32 ": %" PRIu64 ", %" PRIu64, number, number_at(numbers), number_at(numbers + 8));
    if (fractal_heap_stopping_block(heap.file, heap.file_len, heap.address, heap.offset_size, heap.length_size,
                                    heap.address, id, id_len, slot, sizeof slot) == FRACTAL_HEAP_OK)
        fprintf(stderr, "; the block at address %" PRIu64 ", heap offset %" PRIu64, number_at(slot), number_at(slot + 8));
    fprintf(stderr, "\n");
}

static void print_object(struct heap heap, const char *hex)
{
    size_t id_len;
    uint8_t *id = id_of(heap, hex, &id_len), slot[16];
    /* The blocks of a file that is as HDF5 wrote it have the heap's address. */
    uint32_t number =
        fractal_heap_read_managed_object(heap.file, heap.file_len, heap.address, heap.offset_size,
                                         heap.length_size, heap.address, id, id_len, slot, sizeof slot);
    uint64_t first = number_at(slot), second = number_at(slot + 8);
    if (number != FRACTAL_HEAP_OK) {
        tell_refusal(heap, id, id_len, number, slot);
        exit(1);
    }
    /* The position counts from the superblock, as the address does. */
    if (fwrite(heap.file + first, 1, second, stdout) != second)
        give_up("the object does not print");
    free(id);
}

int main(int words, char **word)
{
    if (words < 4)
        give_up("read_file FILE ADDRESS ID...");
    size_t len;
    uint8_t *bytes = whole_file(word[1], &len);
    struct heap heap = heap_in(bytes, len, number_of(word[2]));
    for (int i = 3; i < words; i++)
        print_object(heap, word[i]);
    free(bytes);
    end_printing();
    return 0;
}
