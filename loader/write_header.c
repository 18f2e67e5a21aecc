/* Writes headers of heaps through the C function, for real_files.py and written_files.py.
 *   write_header
 * A line of input is the offset size, the length size and a header's 23 fields in its order; the line of output that
 * answers it is `number first second header`: the header's length and checksum, and its bytes in hexadecimal, or a
 * refusal, and none. List, bytes and slot lie in memory of exactly their size. */
#include "files.h"
#include "fractal_heap.h"

#include <inttypes.h>

int main(int words, char **word)
{
    unsigned offset_size, length_size;
    (void)word;
    if (words != 1)
        give_up("write_header");
    while (scanf("%u %u", &offset_size, &length_size) == 2) {
        uint64_t *fields = (uint64_t *)(void *)memory(8 * FRACTAL_HEAP_HEADER_FIELDS);
        for (int i = 0; i < FRACTAL_HEAP_HEADER_FIELDS; i++)
            if (scanf("%" SCNu64, fields + i) != 1)
                give_up("a line has not all fields");
        size_t len = fractal_heap_header_length((uint8_t)offset_size, (uint8_t)length_size);
        uint8_t *header = memory(len), *slot = memory(16);
        uint32_t number = fractal_heap_write_header(fields, FRACTAL_HEAP_HEADER_FIELDS, (uint8_t)offset_size,
                                                    (uint8_t)length_size, header, len, slot, 16);
        printf("%" PRIu32 " %" PRIu64 " %" PRIu64 " ", number, number_at(slot), number_at(slot + 8));
        for (size_t i = 0; number == FRACTAL_HEAP_OK && i < len; i++)
            printf("%02x", header[i]);
        printf("\n");
        free(fields);
        free(header);
        free(slot);
    }
    if (!feof(stdin))
        give_up("a line is not of numbers");
    end_printing();
    return 0;
}
