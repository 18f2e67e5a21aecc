/* Calls the library from C: builds a small heap in memory and reads an object back from it, writes headers
 * and reads them, plans heaps one object at a time, and meets the refusals. One line per check; a check that
 * fails ends the program with status 1.
 * Expected values are the format's, lookup3.c's and docs/RULES.md's. */
#include "fractal_heap.h"

#include <stdio.h>
#include <stdlib.h>
#include <string.h>

#ifdef __cplusplus
#include <type_traits>
/* C++ hands a plan over as C does, and does not copy it. */
static_assert(std::is_trivial<fractal_heap_opened_plan>::value &&
                  std::is_standard_layout<fractal_heap_opened_plan>::value,
              "it is returned as C returns it");
static_assert(!std::is_copy_constructible<fractal_heap_plan>::value &&
                  !std::is_copy_assignable<fractal_heap_plan>::value,
              "a plan is not copied");
static_assert(!std::is_copy_constructible<fractal_heap_opened_plan>::value &&
                  !std::is_copy_assignable<fractal_heap_opened_plan>::value,
              "nor with what opening hands back");
static_assert(std::is_nothrow_move_constructible<fractal_heap_plan>::value &&
                  std::is_nothrow_move_assignable<fractal_heap_plan>::value,
              "it is moved");
#endif

enum {
    WIDTH = 8,                                  /* offset and length size */
    HEADER = 26 + 12 * WIDTH + 3 * WIDTH,       /* bytes of a header without filters */
    START = 1024,                               /* starting block size */
    AT = 40,                                    /* where the header lies */
    ROOT = 200,                                 /* where the root block lies */
    BLOCK_HEADER = 14 + WIDTH,                  /* bytes of a direct block before its objects */
    FILE_LEN = ROOT + START,
    USER_BLOCK = 512                            /* bytes before a superblock */
};

static const uint8_t OBJECT[] = "the bytes of one managed object";
static const uint64_t UNDEFINED = UINT64_MAX;

static uint8_t file[FILE_LEN];
static uint64_t first, second; /* the two numbers of the last answer */
static unsigned checks;

static void check(int holds, const char *what)
{
    printf("%s: %s\n", holds ? "ok" : "FAILED", what);
    if (!holds)
        exit(1);
    checks++;
}

/* Stores the low `width` bytes of a number and returns the place after them. */
static uint8_t *put(uint8_t *to, uint64_t number, int width)
{
    for (int i = 0; i < width; i++)
        *to++ = (uint8_t)(number >> 8 * i);
    return to;
}

static uint64_t get(const uint8_t *from, int width)
{
    uint64_t number = 0;
    while (width--)
        number = number << 8 | from[width];
    return number;
}

/* Writes a header with a slot of 16 bytes, whose numbers go to `first` and `second`. */
static uint32_t write_header(const uint64_t *fields, size_t fields_len, uint8_t offset_size, uint8_t length_size,
                             uint8_t *bytes, size_t bytes_len)
{
    uint8_t slot[16];
    uint32_t number;
    memset(slot, 0xA5, sizeof slot);
    number = fractal_heap_write_header(fields, fields_len, offset_size, length_size, bytes, bytes_len, slot,
                                       sizeof slot);
    first = get(slot, 8);
    second = get(slot + 8, 8);
    return number;
}

/* The header: 8-byte IDs, no filters, width 4, blocks of 1,024 to 65,536, 40 bits, a direct root. What is not set is
 * 0. */
static void put_header(void)
{
    uint64_t fields[FRACTAL_HEAP_HEADER_FIELDS] = {0};
    fields[FRACTAL_HEAP_HEAP_ID_LENGTH] = 8;
    fields[FRACTAL_HEAP_FLAGS] = 2; /* direct blocks have checksums */
    fields[FRACTAL_HEAP_MAX_MANAGED_OBJECT_SIZE] = 65536 - BLOCK_HEADER;
    fields[FRACTAL_HEAP_BTREE_HUGE_OBJECTS_ADDRESS] = UNDEFINED;
    fields[FRACTAL_HEAP_FREE_SPACE_MANAGED_BLOCKS] = START - BLOCK_HEADER - sizeof OBJECT;
    fields[FRACTAL_HEAP_MANAGED_BLOCK_FREE_SPACE_MANAGER_ADDRESS] = UNDEFINED;
    fields[FRACTAL_HEAP_MANAGED_SPACE_IN_HEAP] = START;
    fields[FRACTAL_HEAP_ALLOCATED_MANAGED_SPACE_IN_HEAP] = START;
    fields[FRACTAL_HEAP_MANAGED_OBJECTS_COUNT] = 1;
    fields[FRACTAL_HEAP_TABLE_WIDTH] = 4;
    fields[FRACTAL_HEAP_STARTING_BLOCK_SIZE] = START;
    fields[FRACTAL_HEAP_MAX_DIRECT_BLOCK_SIZE] = 65536;
    fields[FRACTAL_HEAP_MAX_HEAP_SIZE] = 40;
    fields[FRACTAL_HEAP_START_ROOT_ROWS] = 1;
    fields[FRACTAL_HEAP_ROOT_BLOCK_ADDRESS] = ROOT;
    check(fractal_heap_header_length(WIDTH, WIDTH) == HEADER &&
              write_header(fields, FRACTAL_HEAP_HEADER_FIELDS, WIDTH, WIDTH, file + AT, FILE_LEN - AT) ==
                  FRACTAL_HEAP_OK &&
              first == HEADER && second == get(file + AT + HEADER - 4, 4) &&
              second == fractal_heap_checksum(file + AT, HEADER - 4),
          "a header is written: its length and its checksum, which is that of all before it");
}

/* The root: a direct block at heap offset 0, with one object after its header. */
static void put_root(void)
{
    uint8_t *to = file + ROOT;
    memcpy(to, "FHDB", 4);
    to = put(to + 4, 0, 1);
    to = put(to, AT, WIDTH);
    to = put(to, 0, 5);
    memcpy(to + 4, OBJECT, sizeof OBJECT);      /* past the checksum, which is 0 so far */
    put(to, fractal_heap_checksum(file + ROOT, START), 4);
}

/* A managed ID: 0, the offset in five bytes, the length in two. */
static void put_id(uint8_t *id, uint64_t offset, uint64_t length)
{
    put(put(put(id, 0, 1), offset, 5), length, 2);
}

/* What is looked at of a superblock, by the format: signature, version and the two sizes. */
static void put_superblock(uint8_t *to, uint8_t version, uint8_t offset_size, uint8_t length_size)
{
    static const uint8_t signature[8] = {0x89, 'H', 'D', 'F', '\r', '\n', 0x1A, '\n'};
    memcpy(to, signature, sizeof signature);
    to[8] = version;
    to[version < 2 ? 13 : 9] = offset_size;
    to[version < 2 ? 14 : 10] = length_size;
}

typedef uint32_t call(const uint8_t *, size_t, uint64_t, uint8_t, uint8_t, const uint8_t *, size_t,
                      uint8_t *, size_t);

/* The checked reader and what tells its stopping block, with the address that the blocks here have of their header. */
static uint32_t checked(const uint8_t *bytes, size_t bytes_len, uint64_t at, uint8_t offset_size, uint8_t length_size,
                        const uint8_t *id, size_t id_len, uint8_t *slot, size_t slot_len)
{
    return fractal_heap_read_managed_object(bytes, bytes_len, at, offset_size, length_size, AT, id, id_len, slot,
                                            slot_len);
}

static uint32_t stopping_block(const uint8_t *bytes, size_t bytes_len, uint64_t at, uint8_t offset_size,
                               uint8_t length_size, const uint8_t *id, size_t id_len, uint8_t *slot, size_t slot_len)
{
    return fractal_heap_stopping_block(bytes, bytes_len, at, offset_size, length_size, AT, id, id_len, slot, slot_len);
}

/* Calls with the first `len` bytes of the file and a slot of 16 bytes. */
static uint32_t ask(call *function, size_t len, const uint8_t *id)
{
    uint8_t slot[16];
    uint32_t number = function(file, len, AT, WIDTH, WIDTH, id, 8, slot, sizeof slot);
    first = get(slot, 8);
    second = get(slot + 8, 8);
    return number;
}

static int answers(uint32_t number, uint32_t due, uint64_t due_first, uint64_t due_second)
{
    return number == due && first == due_first && second == due_second;
}

static void checksums(void)
{
    const char *text = "Four score and seven years ago";
    check(fractal_heap_checksum(NULL, 0) == 0xDEADBEEF, "checksum of no bytes is DEADBEEF");
    check(fractal_heap_checksum((const uint8_t *)text, strlen(text)) == 0x17770551,
          "checksum of \"Four score and seven years ago\" is 17770551");
}

static void accepted(const uint8_t *id)
{
    static const uint8_t worked[8] = {0x00, 0x16, 0x20, 0x00, 0x00, 0x00, 0xEB, 0x03};
    check(answers(ask(fractal_heap_decode_managed_id, FILE_LEN, worked), FRACTAL_HEAP_OK, 8214, 1003),
          "ID 00 16 20 00 00 00 EB 03 is offset 8214, length 1003");
    check(answers(ask(fractal_heap_decode_managed_id, FILE_LEN, id), FRACTAL_HEAP_OK, BLOCK_HEADER,
                  sizeof OBJECT),
          "the object's ID is the offset after the block's header, and the object's length");
    check(answers(ask(checked, FILE_LEN, id), FRACTAL_HEAP_OK, ROOT + BLOCK_HEADER, sizeof OBJECT),
          "the object lies after the root block's header");
    check(memcmp(file + first, OBJECT, sizeof OBJECT) == 0, "its bytes are those that were put there");
    check(answers(ask(fractal_heap_read_managed_object_unchecked, FILE_LEN, id), FRACTAL_HEAP_OK, ROOT + BLOCK_HEADER,
                  sizeof OBJECT),
          "so it is read unchecked");
    check(answers(ask(stopping_block, FILE_LEN, id), FRACTAL_HEAP_OK, ROOT, 0),
          "its block is the root, at heap offset 0");
}

static void refused(const uint8_t *id)
{
    size_t end = ROOT + BLOCK_HEADER + sizeof OBJECT;
    uint8_t huge[8];
    put_id(huge, BLOCK_HEADER, sizeof OBJECT);
    huge[0] = 0x10;
    check(answers(ask(checked, end - 1, id), FRACTAL_HEAP_UNEXPECTED_EOF, FILE_LEN, end - 1),
          "a file cut in the object: 1 with its block's end and the bytes there are");
    check(answers(ask(fractal_heap_read_managed_object_unchecked, end - 1, id), FRACTAL_HEAP_UNEXPECTED_EOF, end,
                  end - 1),
          "unchecked: 1 with its own end");
    check(answers(ask(checked, AT + 3, id), FRACTAL_HEAP_UNEXPECTED_EOF, AT + 5, AT + 3) &&
              answers(ask(stopping_block, AT + 3, id), FRACTAL_HEAP_UNEXPECTED_EOF, AT + 5, AT + 3),
          "a file cut in the header's signature: 1, and no block");
    check(answers(ask(checked, FILE_LEN, huge), FRACTAL_HEAP_INVALID_HEAP_ID_TYPE, 1, 0) &&
              answers(ask(stopping_block, FILE_LEN, huge), FRACTAL_HEAP_INVALID_HEAP_ID_TYPE, 1, 0),
          "an ID of a huge object: 6 with its type, and no block");

    file[AT] ^= 1;
    check(answers(ask(checked, FILE_LEN, id), FRACTAL_HEAP_INVALID_SIGNATURE, 0, 0), "another signature: 4");
    file[AT] ^= 1;

    file[AT + 20] ^= 1;
    check(answers(ask(checked, FILE_LEN, id), FRACTAL_HEAP_CHECKSUM_MISMATCH, get(file + AT + HEADER - 4, 4),
                  fractal_heap_checksum(file + AT, HEADER - 4)),
          "a flipped byte in the header: 7 with the stored and the computed checksum");
    file[AT + 20] ^= 1;
}

/* The checksum that the root must have, its own field taken as zero. */
static uint32_t root_sum(void)
{
    static uint8_t block[START];
    memcpy(block, file + ROOT, START);
    memset(block + BLOCK_HEADER - 4, 0, 4);
    return fractal_heap_checksum(block, START);
}

/* What the checked reader answers with one bit of the root changed, and that it is the root at which it stops. A
 * refusal by 18 has the two checksums, whatever is due. */
static int is_refused(const uint8_t *id, size_t place, uint32_t number, uint64_t due_first, uint64_t due_second)
{
    int holds;
    file[ROOT + place] ^= 1;
    if (number == FRACTAL_HEAP_BLOCK_CHECKSUM_MISMATCH) {
        due_first = get(file + ROOT + BLOCK_HEADER - 4, 4);
        due_second = root_sum();
    }
    holds = answers(ask(checked, FILE_LEN, id), number, due_first, due_second) &&
            answers(ask(stopping_block, FILE_LEN, id), FRACTAL_HEAP_OK, ROOT, 0);
    file[ROOT + place] ^= 1;
    return holds;
}

/* A block is tested before anything of it is handed out. */
static void damaged(const uint8_t *id)
{
    uint8_t slot[16], past[8];
    size_t place;
    int holds = 1;
    check(is_refused(id, 3, FRACTAL_HEAP_INVALID_SIGNATURE, 0, 0), "another signature of the root: 4");
    check(is_refused(id, 4, FRACTAL_HEAP_INVALID_VERSION, 1, 0), "another version: 5");
    check(is_refused(id, 5, FRACTAL_HEAP_FOREIGN_BLOCK, AT ^ 1, AT),
          "another header's address in it: 19 with that and the one that is wanted");
    check(is_refused(id, 5 + WIDTH, FRACTAL_HEAP_FOREIGN_BLOCK, 1, 0), "another heap offset: 19");
    for (place = BLOCK_HEADER - 4; place < START; place++)
        holds = holds && is_refused(id, place, FRACTAL_HEAP_BLOCK_CHECKSUM_MISMATCH, 0, 0);
    check(holds, "a bit changed in its checksum or anywhere behind it: 18 with the stored and the computed one");
    file[ROOT + BLOCK_HEADER] ^= 1;
    check(answers(ask(fractal_heap_read_managed_object_unchecked, FILE_LEN, id), FRACTAL_HEAP_OK, ROOT + BLOCK_HEADER,
                  sizeof OBJECT) &&
              file[first] == (OBJECT[0] ^ 1),
          "unchecked, what was changed is handed out");
    file[ROOT + BLOCK_HEADER] ^= 1;
    check(fractal_heap_read_managed_object(file, FILE_LEN, AT, WIDTH, WIDTH, AT + 1, id, 8, slot, 16) ==
                  FRACTAL_HEAP_FOREIGN_BLOCK &&
              get(slot, 8) == AT && get(slot + 8, 8) == AT + 1,
          "another address handed in: 19 with the stored one and that");
    put_id(past, START - 1, 2);
    check(answers(ask(checked, FILE_LEN, past), FRACTAL_HEAP_UNEXPECTED_EOF, START + 1, START),
          "an object that ends past its block: 1 with its end in it and the block's size");
}

static void slots(call *function, const uint8_t *id, uint64_t due_first, uint64_t due_second)
{
    uint8_t slot[24], before[24];
    for (int i = 0; i < 24; i++)
        slot[i] = before[i] = (uint8_t)(0xA0 + i);
    check(function(file, FILE_LEN, AT, WIDTH, WIDTH, id, 8, slot, 15) == FRACTAL_HEAP_SLICE_TOO_SHORT &&
              memcmp(slot, before, 24) == 0,
          "a slot of 15 bytes: 13, and the slot is as it was");
    check(function(file, FILE_LEN, AT, WIDTH, WIDTH, id, 8, slot, 24) == FRACTAL_HEAP_OK &&
              get(slot, 8) == due_first && get(slot + 8, 8) == due_second && memcmp(slot + 16, before + 16, 8) == 0,
          "a slot of 24 bytes: the answer in 16, the rest as it was");
}

/* What fractal_heap_find_superblock answers for so many bytes; what it puts goes to `found`. */
static struct fractal_heap_superblock found;

static uint32_t find(const uint8_t *bytes, size_t len)
{
    memset(&found, 0xA5, sizeof found);
    return fractal_heap_find_superblock(bytes, len, &found);
}

/* A superblock of each version, at each place and at none. */
static void superblocks(void)
{
    static const size_t places[] = {0, 512, 1024, 2048, 4096}, others[] = {256, 1536, 3072, 4608};
    static uint8_t bytes[8192];
    int holds = 1;
    for (uint8_t version = 0; version < 4; version++)
        for (size_t i = 0; i < sizeof places / sizeof *places; i++) {
            memset(bytes, 0x55, sizeof bytes);
            put_superblock(bytes + places[i], version, 8, 4);
            holds = holds && find(bytes, sizeof bytes) == FRACTAL_HEAP_OK && found.at == places[i] &&
                    found.version == version && found.offset_size == 8 && found.length_size == 4;
        }
    check(holds, "superblocks of versions 0 to 3 at 0, 512, 1,024, 2,048, 4,096, with their sizes");
    for (size_t i = 0; i < sizeof others / sizeof *others; i++) {
        memset(bytes, 0x55, sizeof bytes);
        put_superblock(bytes + others[i], 2, 8, 4);
        holds = holds && find(bytes, sizeof bytes) == FRACTAL_HEAP_INVALID_SIGNATURE;
    }
    check(holds && found.version == 0xA5, "none at 256, 1,536, 3,072, 4,608: 4, and nothing is put");
    put_superblock(bytes + 2048, 0, 4, 4);
    put_superblock(bytes + 512, 3, 8, 8);
    check(find(bytes, sizeof bytes) == FRACTAL_HEAP_OK && found.at == 512, "of two superblocks the first");
    bytes[512 + 8] = 4;
    check(find(bytes, sizeof bytes) == FRACTAL_HEAP_INVALID_VERSION, "a superblock of version 4: 5");
    bytes[512 + 8] = 3;
    check(find(bytes, 512 + 11) == FRACTAL_HEAP_OK && find(bytes, 512 + 10) == FRACTAL_HEAP_UNEXPECTED_EOF &&
              find(bytes, 512 + 8) == FRACTAL_HEAP_UNEXPECTED_EOF &&
              find(bytes, 512 + 7) == FRACTAL_HEAP_INVALID_SIGNATURE,
          "a file that ends after the sizes, in them, before the version: 0, 1, 1; in the signature: 4");
    check(find(NULL, 0) == FRACTAL_HEAP_INVALID_SIGNATURE, "no file has no superblock: 4");
}

/* The same heap in a file with a user block: its addresses count from the superblock. */
static void user_block(const uint8_t *id)
{
    static uint8_t bytes[USER_BLOCK + FILE_LEN];
    uint8_t slot[16];
    memcpy(bytes + USER_BLOCK, file, FILE_LEN);
    put_superblock(bytes + USER_BLOCK, 2, WIDTH, WIDTH);
    check(find(bytes, sizeof bytes) == FRACTAL_HEAP_OK && found.at == USER_BLOCK,
          "the superblock behind a user block of 512 bytes");
    check(fractal_heap_read_managed_object(bytes + found.at, sizeof bytes - found.at, AT, found.offset_size,
                                           found.length_size, AT, id, 8, slot, sizeof slot) == FRACTAL_HEAP_OK &&
              memcmp(bytes + found.at + get(slot, 8), OBJECT, sizeof OBJECT) == 0,
          "lent from its superblock on, the file gives the object");
}

/* The length of the heap's IDs, which a caller holds an ID to. */
static void id_lengths(const uint8_t *id)
{
    uint8_t slot[16];
    check(fractal_heap_id_length(file, FILE_LEN, AT) == 8, "the heap's IDs have 8 bytes");
    check(checked(file, FILE_LEN, AT, WIDTH, WIDTH, id, 3, slot, sizeof slot) == FRACTAL_HEAP_OK &&
              get(slot + 8, 8) == 0,
          "an ID of 3 bytes is no reason for a refusal: 0, and an object of no bytes");
    check(fractal_heap_id_length(file, AT + 7, AT) == 8 && fractal_heap_id_length(file, AT + 6, AT) == 0,
          "a file that ends behind the length, or in it: 8, 0");
    check(fractal_heap_id_length(file, FILE_LEN, AT + 1) == 0 &&
              fractal_heap_id_length(file, FILE_LEN, FILE_LEN) == 0 &&
              fractal_heap_id_length(file, FILE_LEN, UINT64_MAX) == 0 && fractal_heap_id_length(NULL, 0, 0) == 0,
          "no header there: 0");
    file[AT + 4] = 1;
    check(fractal_heap_id_length(file, FILE_LEN, AT) == 0, "another version: 0");
    file[AT + 4] = 0;
    file[AT + 6] = 1;
    check(fractal_heap_id_length(file, FILE_LEN, AT) == 264, "a length has two bytes");
    file[AT + 6] = 0;
}

/* The width of each field of a header at WIDTH, in header order: the places of their numbers in the list. */
static const uint8_t FIELD_WIDTHS[FRACTAL_HEAP_HEADER_FIELDS] = {2, 2, 1, 4, 8, 8, 8, 8, 8, 8, 8, 8,
                                                                 8, 8, 8, 8, 2, 8, 8, 2, 2, 8, 2};

/* A number of its own for every field, with every byte of its width, and two behind them. */
static uint64_t due[FRACTAL_HEAP_HEADER_NUMBERS];

static void put_due(void)
{
    for (int i = 0; i < FRACTAL_HEAP_HEADER_FIELDS; i++)
        due[i] = (UINT64_C(0xF1E2D3C4B5A69788) >> 8 * (8 - FIELD_WIDTHS[i])) - (uint64_t)i;
    due[FRACTAL_HEAP_IO_FILTER_ENCODED_LENGTH] = 0;
    due[23] = due[24] = UNDEFINED;
}

/* A header that is written has each field at its place by the format. */
static void header_written(void)
{
    uint8_t header[HEADER + 3], slot[24], before[24];
    const uint8_t *at = header + 5;
    int i, holds = 1;
    put_due();
    memset(header, 0xA5, sizeof header);
    memset(slot, 0xA5, sizeof slot);
    memcpy(before, slot, sizeof before);
    check(fractal_heap_write_header(due, 25, WIDTH, WIDTH, header, sizeof header, slot, 24) == FRACTAL_HEAP_OK &&
              get(slot, 8) == HEADER && get(slot + 8, 8) == get(header + HEADER - 4, 4) &&
              memcmp(slot + 16, before + 16, 8) == 0 && memcmp(header + HEADER, before, 3) == 0,
          "a header is written: bytes behind it, and the slot's behind its two numbers, are as they were");
    for (i = 0; i < FRACTAL_HEAP_HEADER_FIELDS; at += FIELD_WIDTHS[i++])
        holds = holds && get(at, FIELD_WIDTHS[i]) == due[i];
    check(holds && at == header + HEADER - 4 && memcmp(header, "FRHP", 5) == 0 &&
              get(at, 4) == fractal_heap_checksum(header, HEADER - 4),
          "signature and version, every field at its place, the checksum");
}

/* Whether a header of these numbers is refused so, into so many bytes, and they are as they were. */
static int not_written(const uint64_t *fields, uint8_t offset_size, uint8_t length_size, size_t len, uint32_t number,
                       uint64_t due_first, uint64_t due_second)
{
    uint8_t header[HEADER], before[HEADER];
    memset(header, 0x5A, sizeof header);
    memcpy(before, header, sizeof before);
    return answers(write_header(fields, 23, offset_size, length_size, header, len), number, due_first, due_second) &&
           memcmp(header, before, sizeof header) == 0;
}

/* Headers that are not written: the order is 2, 3, 8, 17, 13. */
static void header_refused(void)
{
    static const uint64_t kept = 0xA5A5A5A5A5A5A5A5;
    static const uint8_t others[] = {0, 1, 3, 5, 7, 9, 255};
    uint64_t fields[FRACTAL_HEAP_HEADER_FIELDS];
    uint8_t header[HEADER], slot[16];
    int i, holds = 1;
    put_due();
    memcpy(fields, due, sizeof fields);
    fields[FRACTAL_HEAP_IO_FILTER_ENCODED_LENGTH] = 65536;
    fields[FRACTAL_HEAP_HEAP_ID_LENGTH] = 65536;
    for (i = 0; i < (int)sizeof others; i++)
        holds = holds && not_written(fields, others[i], 3, 0, FRACTAL_HEAP_INVALID_OFFSET_SIZE, others[i], 0) &&
                not_written(fields, 2, others[i], 0, FRACTAL_HEAP_INVALID_LENGTH_SIZE, others[i], 0);
    check(holds, "sizes that there are not: 2, 3 with them");
    check(not_written(fields, 2, 2, 0, FRACTAL_HEAP_UNSUPPORTED_FILTERED_HEAP_OBJECT, 0, 0),
          "a length of filters of 65,536 behind a field that is too large: 8, nothing is cut");
    fields[FRACTAL_HEAP_IO_FILTER_ENCODED_LENGTH] = 0;
    check(not_written(fields, 2, 2, 0, FRACTAL_HEAP_HEADER_FIELD_TOO_LARGE, 0, 65536),
          "an ID's length of 65,536 before a short slice: 17 with its place and its number");
    fields[FRACTAL_HEAP_HEAP_ID_LENGTH] = 8;
    check(not_written(fields, 4, 8, 0, FRACTAL_HEAP_HEADER_FIELD_TOO_LARGE, 5, due[5]),
          "an address of eight bytes at offset size 4: 17");
    for (i = 0, holds = 1; i < FRACTAL_HEAP_HEADER_FIELDS; i++)
        if (FIELD_WIDTHS[i] < 8 && i != FRACTAL_HEAP_IO_FILTER_ENCODED_LENGTH) {
            fields[i] = UINT64_C(1) << 8 * FIELD_WIDTHS[i];
            holds = holds && not_written(fields, 8, 8, HEADER, FRACTAL_HEAP_HEADER_FIELD_TOO_LARGE, (uint64_t)i,
                                         fields[i]);
            fields[i] = due[i];
        }
    check(holds, "each field one above its width's largest number: 17 with its place and its number");
    fields[FRACTAL_HEAP_HEAP_ID_LENGTH] = 8;
    check(not_written(fields, 8, 8, HEADER - 1, FRACTAL_HEAP_SLICE_TOO_SHORT, kept, kept) &&
              answers(write_header(fields, 23, 8, 8, NULL, 0), FRACTAL_HEAP_SLICE_TOO_SHORT, kept, kept),
          "a slice that is a byte too short, or none: 13, and neither it nor the slot is written");
    memset(header, 0x5A, sizeof header);
    check(answers(write_header(fields, 22, 3, 3, header, HEADER), FRACTAL_HEAP_SLICE_TOO_SHORT, kept, kept) &&
              answers(write_header(NULL, 0, 3, 3, NULL, 0), FRACTAL_HEAP_SLICE_TOO_SHORT, kept, kept) &&
              fractal_heap_write_header(fields, 23, 8, 8, header, HEADER, slot, 15) == FRACTAL_HEAP_SLICE_TOO_SHORT &&
              fractal_heap_write_header(NULL, 0, 3, 3, NULL, 0, NULL, 0) == FRACTAL_HEAP_SLICE_TOO_SHORT &&
              header[0] == 0x5A && header[HEADER - 1] == 0x5A,
          "a list of 22 numbers or none, a slot of 15 bytes or none: 13 before 2, and nothing is written");
}

/* What a header says, as it was written. */
static void header_fields(void)
{
    uint8_t header[HEADER], slot[24], before[24];
    uint64_t fields[FRACTAL_HEAP_HEADER_NUMBERS + 2];
    int i, holds = 1;
    put_due();
    check(write_header(due, 23, WIDTH, WIDTH, header, HEADER) == FRACTAL_HEAP_OK, "a header to be read");
    memset(slot, 0xA5, sizeof slot);
    memcpy(before, slot, sizeof before);
    for (i = 0; i < FRACTAL_HEAP_HEADER_NUMBERS + 2; i++)
        fields[i] = UNDEFINED;
    check(fractal_heap_parse_header(header, HEADER, 0, WIDTH, WIDTH, fields, 28, slot, 15) ==
                  FRACTAL_HEAP_SLICE_TOO_SHORT &&
              fractal_heap_parse_header(header, HEADER, 0, WIDTH, WIDTH, fields, 25, slot, 24) ==
                  FRACTAL_HEAP_SLICE_TOO_SHORT &&
              fractal_heap_parse_header(header, 7, 0, 3, 3, NULL, 0, slot, 24) == FRACTAL_HEAP_SLICE_TOO_SHORT &&
              fractal_heap_parse_header(header, HEADER, 0, WIDTH, WIDTH, fields, 28, NULL, 0) ==
                  FRACTAL_HEAP_SLICE_TOO_SHORT &&
              memcmp(slot, before, sizeof slot) == 0 && fields[0] == UNDEFINED && fields[25] == UNDEFINED,
          "a slot of 15 bytes or none, a list of 25 places or none: 13 before all else; both are as they were");
    check(fractal_heap_parse_header(header, HEADER, 1, WIDTH, WIDTH, fields, 28, slot, 24) ==
                  FRACTAL_HEAP_INVALID_SIGNATURE &&
              get(slot, 8) == 0 && get(slot + 8, 8) == 0 && memcmp(slot + 16, before + 16, 8) == 0 &&
              fractal_heap_parse_header(header, 40, 0, WIDTH, WIDTH, fields, 28, slot, 24) ==
                  FRACTAL_HEAP_UNEXPECTED_EOF &&
              get(slot, 8) == 70 && get(slot + 8, 8) == 40 && fields[0] == UNDEFINED && fields[1] == UNDEFINED,
          "a header that is refused: its number, two numbers in the slot; the list is as it was");
    check(fractal_heap_parse_header(header, HEADER, 0, WIDTH, WIDTH, fields, 28, slot, 24) == FRACTAL_HEAP_OK &&
              get(slot, 8) == 0 && get(slot + 8, 8) == 0 && memcmp(slot + 16, before + 16, 8) == 0 &&
              fields[26] == UNDEFINED && fields[27] == UNDEFINED,
          "a header that is accepted: two zeros in the slot; places behind its numbers as they were");
    for (i = 0; i < FRACTAL_HEAP_HEADER_FIELDS; i++)
        holds = holds && fields[i] == due[i];
    check(holds, "every field of a header at its place");
    check(fields[FRACTAL_HEAP_IO_FILTER_INFORMATION_POSITION] == 0 &&
              fields[FRACTAL_HEAP_FILTERED_ROOT_DIRECT_BLOCK_SIZE] == 0 && fields[FRACTAL_HEAP_IO_FILTER_MASK] == 0,
          "a header without filters: zeros for what it has of them");
    check(fractal_heap_parse_header(file, FILE_LEN, AT, WIDTH, WIDTH, fields, 26, slot, 16) == FRACTAL_HEAP_OK &&
              fields[FRACTAL_HEAP_HEAP_ID_LENGTH] == 8 && fields[FRACTAL_HEAP_FLAGS] == 2 &&
              fields[FRACTAL_HEAP_BTREE_HUGE_OBJECTS_ADDRESS] == UNDEFINED &&
              fields[FRACTAL_HEAP_FREE_SPACE_MANAGED_BLOCKS] == START - BLOCK_HEADER - sizeof OBJECT &&
              fields[FRACTAL_HEAP_MANAGED_SPACE_IN_HEAP] == START &&
              fields[FRACTAL_HEAP_MANAGED_OBJECTS_COUNT] == 1 && fields[FRACTAL_HEAP_TABLE_WIDTH] == 4 &&
              fields[FRACTAL_HEAP_MAX_HEAP_SIZE] == 40 && fields[FRACTAL_HEAP_ROOT_BLOCK_ADDRESS] == ROOT &&
              fields[FRACTAL_HEAP_CURRENT_ROWS_IN_ROOT_INDIRECT_BLOCK] == 0,
          "the fields of the heap's header by their names");
    check(fractal_heap_parse_header(NULL, 0, AT, WIDTH, WIDTH, fields, 26, slot, 16) == FRACTAL_HEAP_UNEXPECTED_EOF &&
              get(slot, 8) == AT + 5 && get(slot + 8, 8) == 0,
          "no file has no header: 1 with the end of signature and version");
}

/* A header with filters of five bytes, behind AT others. By the format the size of a filtered direct root, its mask and
 * the filters stand behind the fields of every header, and then comes the checksum. */
static void filtered_header(void)
{
    static const uint64_t root_size = UINT64_C(0x0123456789ABCDEF), mask = 0x89ABCDEF;
    enum { FILTERS = 5, EVERY = HEADER - 4, LEN = EVERY + WIDTH + 4 + FILTERS + 4 };
    uint8_t bytes[AT + LEN], id[8], slot[16];
    uint8_t *header = bytes + AT, *end;
    uint64_t fields[FRACTAL_HEAP_HEADER_NUMBERS];
    int i, holds = 1;
    put_due();
    memset(bytes, 0xA5, sizeof bytes);
    check(write_header(due, FRACTAL_HEAP_HEADER_FIELDS, WIDTH, WIDTH, header, HEADER) == FRACTAL_HEAP_OK,
          "a header to be filtered");
    put(header + 7, FILTERS, 2);
    end = put(put(header + EVERY, root_size, WIDTH), mask, 4) + FILTERS;
    put(end, fractal_heap_checksum(header, LEN - 4), 4);
    due[FRACTAL_HEAP_IO_FILTER_ENCODED_LENGTH] = FILTERS;
    due[FRACTAL_HEAP_IO_FILTER_INFORMATION_POSITION] = AT + EVERY + WIDTH + 4;
    due[FRACTAL_HEAP_FILTERED_ROOT_DIRECT_BLOCK_SIZE] = root_size;
    due[FRACTAL_HEAP_IO_FILTER_MASK] = mask;
    check(fractal_heap_parse_header(bytes, sizeof bytes, AT, WIDTH, WIDTH, fields, 26, slot, 16) == FRACTAL_HEAP_OK &&
              memcmp(fields, due, sizeof fields) == 0,
          "a header with filters: every field, and where in the file the filters are");
    for (i = EVERY; i < LEN; i++)
        holds = holds && fractal_heap_parse_header(bytes, (size_t)(AT + i), AT, WIDTH, WIDTH, fields, 26, slot, 16) ==
                             FRACTAL_HEAP_UNEXPECTED_EOF &&
                get(slot, 8) == AT + LEN && get(slot + 8, 8) == (uint64_t)(AT + i);
    check(holds, "cut at each byte of these: 1 with the end of its checksum");
    put_id(id, due[FRACTAL_HEAP_ROOT_BLOCK_ADDRESS], 1);
    check(checked(bytes, sizeof bytes, AT, WIDTH, WIDTH, id, 8, slot, 16) ==
                  FRACTAL_HEAP_UNSUPPORTED_FILTERED_HEAP_OBJECT &&
              stopping_block(bytes, sizeof bytes, AT, WIDTH, WIDTH, id, 8, slot, 16) ==
                  FRACTAL_HEAP_UNSUPPORTED_FILTERED_HEAP_OBJECT &&
              fractal_heap_read_managed_object_unchecked(bytes, sizeof bytes, AT, WIDTH, WIDTH, id, 8, slot, 16) ==
                  FRACTAL_HEAP_UNSUPPORTED_FILTERED_HEAP_OBJECT,
          "an object of a filtered heap: 8, and no block");
    header[LEN - 5] ^= 1;
    check(fractal_heap_parse_header(bytes, sizeof bytes, AT, WIDTH, WIDTH, fields, 26, slot, 16) ==
              FRACTAL_HEAP_CHECKSUM_MISMATCH,
          "a changed bit of the filters: 7");
}

/* In it the plan begins as many bytes behind the start as its alignment says. */
struct behind_a_byte {
    uint8_t byte;
    struct fractal_heap_plan plan;
};

/* A worked heap of docs/RULES.md: at most five sizes with their offsets, and the totals in the header's order. */
struct worked {
    size_t count;
    uint64_t sizes[5], offsets[5], totals[FRACTAL_HEAP_PLAN_TOTALS];
};

static const struct worked WORKED[] = {
    {0, {0}, {0}, {1, 1024, 0, 0, 1024, 1024, 1002, 0}},
    {1, {1002}, {22}, {1, 1024, 0, 0, 1024, 1024, 0, 0}},
    {1, {1003}, {8214}, {1, 2166, 3, 0, 16384, 2048, 15117, 10240}},
    {2, {1002, 1}, {22, 1046}, {2, 2102, 1, 0, 4096, 2048, 3005, 2048}},
    {2, {1002, 0}, {22, 1024}, {1, 1024, 0, 0, 1024, 1024, 0, 0}},
    {3, {1002, 1002, 0}, {22, 1046, 2048}, {2, 2102, 1, 0, 4096, 2048, 2004, 2048}},
    {1, {65514}, {262166}, {1, 65814, 8, 0, 524288, 65536, 458070, 327680}},
    {5, {65514, 65514, 65514, 65514, 65514}, {262166, 327702, 393238, 458774, 2359318},
     {5, 328332, 11, 278, 4194304, 327680, 3858638, 2424832}},
};

/* Adds with a slot of 16 bytes, whose numbers go to `first` and `second`. */
static uint32_t add(struct fractal_heap_plan *plan, uint64_t size)
{
    uint8_t slot[16];
    uint32_t number = fractal_heap_plan_add(plan, size, slot, sizeof slot);
    first = get(slot, 8);
    second = get(slot + 8, 8);
    return number;
}

/* Whether the plan is as it was, its bytes between the offset size and the state left out: they belong to neither. */
static int same(const struct fractal_heap_plan *plan, const uint8_t *before)
{
    size_t after = offsetof(struct fractal_heap_planner, state);
    return plan->planner.offset_size == *before &&
           memcmp((const uint8_t *)plan + after, before + after, sizeof *plan - after) == 0;
}

/* Sizes above the largest are refused with the count of accepted objects, and change nothing. */
static int refuses(struct fractal_heap_plan *plan, uint64_t count)
{
    static const uint64_t sizes[] = {65515, 65536, (uint64_t)1 << 40, UINT64_MAX};
    uint8_t before[FRACTAL_HEAP_PLAN_SIZE];
    int holds = 1;
    memcpy(before, plan, sizeof before);
    for (size_t i = 0; i < sizeof sizes / sizeof *sizes; i++)
        holds = holds && answers(add(plan, sizes[i]), FRACTAL_HEAP_OBJECT_TOO_LARGE, count, sizes[i]) &&
                same(plan, before);
    return holds;
}

/* The heap's objects one by one, with refused ones between them if that is wanted. */
static int planned(const struct worked *heap, int with_refusals)
{
    uint8_t slot[16];
    uint64_t totals[FRACTAL_HEAP_PLAN_TOTALS];
    struct fractal_heap_opened_plan opened = fractal_heap_open_plan(8, slot, sizeof slot);
    int holds = opened.number == FRACTAL_HEAP_OK && get(slot, 8) == 0 && get(slot + 8, 8) == 0;
    for (size_t i = 0; i < heap->count; i++) {
        holds = holds && (!with_refusals || refuses(&opened.plan, i));
        holds = holds && answers(add(&opened.plan, heap->sizes[i]), FRACTAL_HEAP_OK, heap->offsets[i], 0);
    }
    holds = holds && (!with_refusals || refuses(&opened.plan, heap->count));
    return holds && fractal_heap_plan_totals(&opened.plan, totals, FRACTAL_HEAP_PLAN_TOTALS) == FRACTAL_HEAP_OK &&
           memcmp(totals, heap->totals, sizeof totals) == 0;
}

/* The struct as the library was compiled: each number of a plan is at its place. Those of five blocks, the last of
 * which has room for a byte, differ from each other. */
static void layout(void)
{
    uint8_t slot[16];
    struct fractal_heap_opened_plan opened = fractal_heap_open_plan(8, slot, sizeof slot);
    const struct fractal_heap_planner *planner = &opened.plan.planner;
    check(sizeof opened.plan == FRACTAL_HEAP_PLAN_SIZE &&
              offsetof(struct behind_a_byte, plan) == FRACTAL_HEAP_PLAN_ALIGNMENT,
          "a plan has 72 bytes, and its address is a multiple of 8");
    check(planner->offset_size == 8 && planner->state.fill == 22 && opened.plan.objects == 0,
          "an empty plan: the offset size, a header that is filled, no object");
    for (int i = 0; i < 4; i++)
        add(&opened.plan, 65514);
    add(&opened.plan, 65513);
    check(planner->offset_size == 8 && planner->state.start == 2359296 && planner->state.size == 65536 &&
              planner->state.fill == 65535 && planner->state.count == 5 && planner->state.allocated == 327680 &&
              planner->state.used == 327569 && planner->state.indirect == 278 && opened.plan.objects == 5,
          "a plan of five blocks has its numbers where the header says");
    add(&opened.plan, 1);
    check(first == 2424831 && planner->state.count == 5 && opened.plan.objects == 6,
          "one byte more: in the fifth block, and blocks and objects are counted apart");
}

/* Opens a plan at this place, which holds whatever was there: the number of the refusal, or 0. Where C's ABI is System
 * V's for x86-64, a struct of this size is handed back at an address that is passed before the parameters, and so the
 * library itself writes to the place; else a copy is put there. */
static uint32_t open_at(uint8_t *place, uint8_t offset_size, uint8_t *slot, size_t slot_len)
{
#if defined __x86_64__ && !defined _WIN32
    typedef void *handed_back(void *, uint8_t, uint8_t *, size_t);
    handed_back *open = (handed_back *)(void (*)(void))fractal_heap_open_plan;
    check(open(place, offset_size, slot, slot_len) == place, "what opening hands back is at the place that was passed");
#else
    struct fractal_heap_opened_plan opened = fractal_heap_open_plan(offset_size, slot, slot_len);
    memcpy(place, &opened, sizeof opened);
#endif
    return (uint32_t)get(place, 4);
}

/* Whether the bytes in front of a place and behind so many are all the mark. */
static int marked(const uint8_t *all, size_t len, const uint8_t *place, size_t taken, uint8_t mark)
{
    int holds = 1;
    for (size_t i = 0; i < len; i++)
        holds = holds && ((all + i >= place && all + i < place + taken) || all[i] == mark);
    return holds;
}

/* The struct in the compiled library is as large as the header says: amid marked bytes all calls write to it up to its
 * last byte, and to none around it; and no larger alignment is needed, since of the two addresses one is no multiple of
 * 16. */
static void marked_bytes(void)
{
    static const uint8_t marks[] = {0xA5, 0x5A};
    static const size_t opened_size = sizeof(struct fractal_heap_opened_plan);
    static uint64_t words[51]; /* 20 before the place, or 21, and as many behind it */
    static const size_t objects_at =
            offsetof(struct fractal_heap_opened_plan, plan) + offsetof(struct fractal_heap_plan, objects);
    uint8_t *all = (uint8_t *)words, slot[16];
    check(opened_size == 8 + FRACTAL_HEAP_PLAN_SIZE && objects_at + 8 == opened_size &&
              offsetof(struct fractal_heap_opened_plan, plan) == 8,
          "what opening hands back has 80 bytes, and the last eight count the objects");
    for (size_t i = 0; i < 4; i++) {
        uint8_t mark = marks[i / 2], *place = all + 8 * (20 + i % 2);
        struct fractal_heap_plan *plan = (struct fractal_heap_plan *)(place + 8);
        uint64_t totals[FRACTAL_HEAP_PLAN_TOTALS];
        int holds;

        memset(words, mark, sizeof words);
        check(open_at(place, 3, slot, 16) == FRACTAL_HEAP_INVALID_OFFSET_SIZE && get(slot, 8) == 3 &&
                  marked(all, sizeof words, place, opened_size, mark),
              "a plan that is refused, amid marked bytes");
        memset(words, mark, sizeof words);
        check(open_at(place, 8, slot, 15) == FRACTAL_HEAP_SLICE_TOO_SHORT &&
                  marked(all, sizeof words, place, opened_size, mark),
              "one for which the slot is too short");
        memset(words, mark, sizeof words);
        check(open_at(place, 8, slot, 16) == FRACTAL_HEAP_OK && place[8] == 8 &&
                  get(place + objects_at, 8) == 0 && marked(all, sizeof words, place, opened_size, mark),
              "a plan that is opened: written to its last byte, and nothing around it");

        memset(all, mark, (size_t)(place + 8 - all)); /* the number, too */
        holds = add(plan, 1002) == FRACTAL_HEAP_OK && first == 22 &&
                add(plan, 65515) == FRACTAL_HEAP_OBJECT_TOO_LARGE && add(plan, 1) == FRACTAL_HEAP_OK && first == 1046 &&
                get(place + objects_at, 8) == 2;
        check(holds && marked(all, sizeof words, place + 8, FRACTAL_HEAP_PLAN_SIZE, mark),
              "additions write to the plan's last byte, and nothing around it");
        check(fractal_heap_plan_totals(plan, totals, FRACTAL_HEAP_PLAN_TOTALS) == FRACTAL_HEAP_OK &&
                  totals[0] == 2 && totals[6] == 3005 &&
                  marked(all, sizeof words, place + 8, FRACTAL_HEAP_PLAN_SIZE, mark),
              "nor do its totals");
    }
}

static void plans(void)
{
    for (int with_refusals = 0; with_refusals < 2; with_refusals++) {
        int holds = 1;
        for (size_t i = 0; i < sizeof WORKED / sizeof *WORKED; i++)
            holds = holds && planned(&WORKED[i], with_refusals);
        check(holds, with_refusals ? "the same with refused sizes between: 11 with the count of accepted ones"
                                   : "the worked heaps, one object at a time: offsets and totals");
    }
}

/* Offset sizes, slots and lists that are refused. */
static void plans_refused(void)
{
    uint8_t slot[24], before[24], plan_before[FRACTAL_HEAP_PLAN_SIZE];
    uint64_t totals[10];
    int holds = 1;
    for (unsigned size = 0; size < 256; size++) {
        struct fractal_heap_opened_plan opened = fractal_heap_open_plan((uint8_t)size, slot, 16);
        int is_width = size == 2 || size == 4 || size == 8;
        holds = holds && opened.number == (is_width ? FRACTAL_HEAP_OK : FRACTAL_HEAP_INVALID_OFFSET_SIZE) &&
                get(slot, 8) == (is_width ? 0 : size) && get(slot + 8, 8) == 0;
    }
    check(holds, "plans for addresses of 2, 4 and 8 bytes; of any other number: 2 with it");
    check(fractal_heap_open_plan(8, NULL, 0).number == FRACTAL_HEAP_SLICE_TOO_SHORT &&
              fractal_heap_open_plan(3, NULL, 0).number == FRACTAL_HEAP_SLICE_TOO_SHORT,
          "opening without a slot: 13, before 2");

    struct fractal_heap_opened_plan opened = fractal_heap_open_plan(8, slot, 16);
    for (int i = 0; i < 24; i++)
        slot[i] = before[i] = (uint8_t)(0xA0 + i);
    check(fractal_heap_open_plan(8, slot, 15).number == FRACTAL_HEAP_SLICE_TOO_SHORT && memcmp(slot, before, 24) == 0,
          "opening with a slot of 15 bytes: 13, and the slot is as it was");
    add(&opened.plan, 1000);
    memcpy(plan_before, &opened.plan, sizeof plan_before);
    check(fractal_heap_plan_add(&opened.plan, 2, slot, 15) == FRACTAL_HEAP_SLICE_TOO_SHORT &&
              fractal_heap_plan_add(&opened.plan, UINT64_MAX, slot, 15) == FRACTAL_HEAP_SLICE_TOO_SHORT &&
              fractal_heap_plan_add(&opened.plan, 2, NULL, 0) == FRACTAL_HEAP_SLICE_TOO_SHORT &&
              memcmp(slot, before, 24) == 0 && same(&opened.plan, plan_before),
          "adding with a slot of 15 bytes or none: 13, before 11; slot and plan are as they were");
    check(fractal_heap_plan_add(&opened.plan, 2, slot, 24) == FRACTAL_HEAP_OK && get(slot, 8) == 1022 &&
              get(slot + 8, 8) == 0 && memcmp(slot + 16, before + 16, 8) == 0,
          "a slot of 24 bytes: the heap offset in 16, the rest as it was");

    for (int i = 0; i < 10; i++)
        totals[i] = UNDEFINED;
    check(fractal_heap_plan_totals(&opened.plan, totals, 7) == FRACTAL_HEAP_SLICE_TOO_SHORT &&
              fractal_heap_plan_totals(&opened.plan, NULL, 0) == FRACTAL_HEAP_SLICE_TOO_SHORT &&
              totals[0] == UNDEFINED && totals[6] == UNDEFINED,
          "totals into seven places or none: 13, and the list is as it was");
    check(fractal_heap_plan_totals(&opened.plan, totals, 10) == FRACTAL_HEAP_OK && totals[0] == 1 &&
              totals[6] == 0 && totals[7] == 0 && totals[8] == UNDEFINED && totals[9] == UNDEFINED,
          "totals into ten places: eight are put, the rest is as it was");
}

/* Writes an ID with a slot of 16 bytes, whose numbers go to `first` and `second`. */
static uint32_t write_id(uint64_t offset, uint64_t size, uint8_t *id, size_t id_len)
{
    uint8_t slot[16];
    uint32_t number;
    memset(slot, 0xA5, sizeof slot);
    number = fractal_heap_write_managed_id(offset, size, id, id_len, slot, sizeof slot);
    first = get(slot, 8);
    second = get(slot + 8, 8);
    return number;
}

/* IDs of what was planned. */
static void planned_ids(void)
{
    static const uint8_t worked[8] = {0x00, 0x16, 0x20, 0x00, 0x00, 0x00, 0xEB, 0x03};
    static const uint64_t end = (uint64_t)1 << 40, kept = 0xA5A5A5A5A5A5A5A5;
    uint8_t id[11], before[11], slot[24], slot_before[24];
    for (int i = 0; i < 11; i++)
        id[i] = before[i] = (uint8_t)(0xC0 + i);
    check(answers(write_id(8214, 1003, id, 11), FRACTAL_HEAP_OK, 0, 0) && memcmp(id, worked, 8) == 0 &&
              memcmp(id + 8, before + 8, 3) == 0,
          "offset 8214, length 1003 is ID 00 16 20 00 00 00 EB 03, and bytes behind it are as they were");
    check(answers(write_id(end - 1, 65535, id, 8), FRACTAL_HEAP_OK, 0, 0) && get(id, 8) == UINT64_MAX - 255,
          "the largest offset and length");
    memcpy(before, id, 11);
    check(answers(write_id(end, 0, id, 8), FRACTAL_HEAP_HEAP_ID_TOO_LARGE, end, 0) &&
              answers(write_id(22, 65536, id, 8), FRACTAL_HEAP_HEAP_ID_TOO_LARGE, 22, 65536) &&
              answers(write_id(UINT64_MAX, UINT64_MAX, NULL, 0), FRACTAL_HEAP_HEAP_ID_TOO_LARGE, UINT64_MAX,
                      UINT64_MAX) &&
              memcmp(id, before, 11) == 0,
          "offset 2^40, length 2^16, and both before a short ID: 16 with them, and no ID");
    check(answers(write_id(22, 1, id, 7), FRACTAL_HEAP_SLICE_TOO_SHORT, kept, kept) &&
              answers(write_id(22, 1, NULL, 0), FRACTAL_HEAP_SLICE_TOO_SHORT, kept, kept) &&
              memcmp(id, before, 11) == 0,
          "an ID of seven bytes or none: 13, and neither ID nor slot is written");
    for (int i = 0; i < 24; i++)
        slot[i] = slot_before[i] = (uint8_t)(0xA0 + i);
    check(fractal_heap_write_managed_id(22, 1, id, 8, slot, 15) == FRACTAL_HEAP_SLICE_TOO_SHORT &&
              fractal_heap_write_managed_id(end, 0, id, 8, slot, 15) == FRACTAL_HEAP_SLICE_TOO_SHORT &&
              fractal_heap_write_managed_id(22, 1, id, 8, NULL, 0) == FRACTAL_HEAP_SLICE_TOO_SHORT &&
              memcmp(id, before, 11) == 0 && memcmp(slot, slot_before, 24) == 0,
          "a slot of 15 bytes or none: 13, before 16, and nothing is written");
    check(fractal_heap_write_managed_id(22, 1, id, 8, slot, 24) == FRACTAL_HEAP_OK && get(slot, 8) == 0 &&
              get(slot + 8, 8) == 0 && memcmp(slot + 16, slot_before + 16, 8) == 0,
          "a slot of 24 bytes: two zeros in 16, the rest as it was");
}

/* No bytes at no address: one by one, and all together. */
static void nulls(call *function, const uint8_t *id)
{
    uint8_t slot[16];
    check(function(NULL, 0, AT, WIDTH, WIDTH, id, 8, slot, sizeof slot) == FRACTAL_HEAP_UNEXPECTED_EOF &&
              get(slot, 8) == AT + 5 && get(slot + 8, 8) == 0,
          "no file: 1 with the end of signature and version");
    check(function(file, FILE_LEN, AT, WIDTH, WIDTH, NULL, 0, slot, sizeof slot) ==
                  FRACTAL_HEAP_UNEXPECTED_EOF &&
              get(slot, 8) == 1 && get(slot + 8, 8) == 0,
          "no ID: 1 with (1, 0)");
    check(function(file, FILE_LEN, AT, WIDTH, WIDTH, id, 8, NULL, 0) == FRACTAL_HEAP_SLICE_TOO_SHORT,
          "no slot: 13");
    check(function(NULL, 0, AT, WIDTH, WIDTH, NULL, 0, NULL, 0) == FRACTAL_HEAP_SLICE_TOO_SHORT,
          "no file, no ID, no slot: 13");
}

int main(void)
{
    uint8_t id[8];
    put_header();
    put_root();
    put_id(id, BLOCK_HEADER, sizeof OBJECT);
    checksums();
    accepted(id);
    refused(id);
    damaged(id);
    slots(checked, id, ROOT + BLOCK_HEADER, sizeof OBJECT);
    slots(fractal_heap_read_managed_object_unchecked, id, ROOT + BLOCK_HEADER, sizeof OBJECT);
    slots(stopping_block, id, ROOT, 0);
    id_lengths(id);
    header_written();
    header_refused();
    header_fields();
    filtered_header();
    superblocks();
    user_block(id);
    nulls(fractal_heap_decode_managed_id, id);
    nulls(checked, id);
    nulls(fractal_heap_read_managed_object_unchecked, id);
    nulls(stopping_block, id);
    layout();
    marked_bytes();
    plans();
    plans_refused();
    planned_ids();
    printf("example.c: %u checks\n", checks);
    return 0;
}
