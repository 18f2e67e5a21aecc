/* The loader's interface to the fractal heap: the eleven functions of the library fractal_heap_c
 * (loader/static_libraries fractal_heap_c, target/staticlib/libfractal_heap_c.a), and three short ones that stand
 * here whole: where a file's superblock is, how long a heap's IDs are, and how long a header is.
 *
 * A file that is lent begins at its superblock. HDF5's addresses count from there: in a file with a user block
 * that is 512, 1,024, 2,048 .. bytes after the file's start. Lent from its start, such a file gives other bytes
 * with 0, since the library has no way to see it. So:
 *
 *     struct fractal_heap_superblock found;
 *     if (fractal_heap_find_superblock(bytes, bytes_len, &found) != FRACTAL_HEAP_OK)
 *         ... it is no HDF5 file ...
 *     const uint8_t *file = bytes + found.at;
 *     size_t file_len = bytes_len - found.at;
 *     if (id_len != fractal_heap_id_length(file, file_len, address))
 *         ... it is no ID of this heap ...
 *     if (fractal_heap_read_managed_object(file, file_len, address, found.offset_size, found.length_size,
 *                                          address, id, id_len, slot, 16) == FRACTAL_HEAP_OK)
 *         ... the object begins at file + the first number in the slot ...
 *
 * The address stands there twice: it is where the header is, and what each block says that it is.
 *
 * loader/read_file.c is a whole program. */
#ifndef FRACTAL_HEAP_H
#define FRACTAL_HEAP_H

#include <stddef.h>
#include <stdint.h>
#include <string.h>

#ifdef __cplusplus
extern "C" {
#endif

/* What the functions answer, but for the checksum and the length of IDs: 0, or why they refuse. Behind each number are
 * its two values, which go into the slot where a function takes one. Those that read give 0 to 10 and 13, the one that
 * tests blocks never 9, but 18 and 19; an open plan gives 0, 2 and 11 to 13, the writer of IDs 0, 13 and 16, that of
 * headers 0, 2, 3, 8, 13 and 17; 14 and 15 are those of writing a region, 20 is that of finding and counting slots, in
 * the same table. */
enum fractal_heap_number {
    FRACTAL_HEAP_OK = 0,                                /* the answer's own */
    FRACTAL_HEAP_UNEXPECTED_EOF = 1,                    /* expected end (at most 2^64 - 1), available */
    FRACTAL_HEAP_INVALID_OFFSET_SIZE = 2,               /* size, 0 */
    FRACTAL_HEAP_INVALID_LENGTH_SIZE = 3,               /* size, 0 */
    FRACTAL_HEAP_INVALID_SIGNATURE = 4,                 /* 0, 0 */
    FRACTAL_HEAP_INVALID_VERSION = 5,                   /* version, 0 */
    FRACTAL_HEAP_INVALID_HEAP_ID_TYPE = 6,              /* type, 0 */
    FRACTAL_HEAP_CHECKSUM_MISMATCH = 7,                 /* stored, computed */
    FRACTAL_HEAP_UNSUPPORTED_FILTERED_HEAP_OBJECT = 8,  /* 0, 0 */
    FRACTAL_HEAP_OFFSET_OVERFLOW = 9,                   /* block address, distance */
    FRACTAL_HEAP_DEPTH_EXCEEDED = 10,                   /* 64, 0 */
    FRACTAL_HEAP_OBJECT_TOO_LARGE = 11,                 /* index, size */
    FRACTAL_HEAP_HEAP_SPACE_EXHAUSTED = 12,             /* index, 0 */
    FRACTAL_HEAP_SLICE_TOO_SHORT = 13,                  /* of a slot, a list, an ID or a header: nothing is put */
    FRACTAL_HEAP_OBJECT_BYTES_MISMATCH = 14,            /* sum of the sizes, bytes given */
    FRACTAL_HEAP_ADDRESS_TOO_LARGE = 15,                /* header address, 0; or region address, region size */
    FRACTAL_HEAP_HEAP_ID_TOO_LARGE = 16,                /* offset, length */
    FRACTAL_HEAP_HEADER_FIELD_TOO_LARGE = 17,           /* the field's place in header order, its value */
    FRACTAL_HEAP_BLOCK_CHECKSUM_MISMATCH = 18,          /* stored, computed */
    FRACTAL_HEAP_FOREIGN_BLOCK = 19,                    /* stored, wanted: the header's address, or the heap offset */
    FRACTAL_HEAP_OUTSIDE_HEAP = 20                      /* heap offset or number of rows, 0 */
};

/* A pointer whose length is 0 is not touched and may be NULL. That was seen in the compiled library;
 * example.c calls every function so. A plan has no length behind it, and may not be NULL. */

/* Where a file's superblock is, and what it says of sizes. */
struct fractal_heap_superblock {
    size_t at;              /* its place in the file, from which on the file is lent and addresses count */
    uint8_t version;        /* 0 to 3 */
    uint8_t offset_size;    /* bytes of an address */
    uint8_t length_size;    /* bytes of a length */
};

/* Finds the superblock of a whole file: the first signature at 0, 512, 1,024, 2,048 .. (HDF5 File Format
 * Specification, II.A). Returns 0, or why nothing is put: 4 where no signature is at these places, 5 where the
 * version is none that is known here, 1 where the file ends before the sizes. */
static inline uint32_t fractal_heap_find_superblock(const uint8_t *bytes, size_t bytes_len,
                                                    struct fractal_heap_superblock *found)
{
    static const uint8_t signature[8] = {0x89, 'H', 'D', 'F', '\r', '\n', 0x1A, '\n'};
    size_t at = 0, sizes;
    while (at <= bytes_len && bytes_len - at >= sizeof signature &&
           memcmp(bytes + at, signature, sizeof signature) != 0)
        at = at == 0 ? 512 : at <= SIZE_MAX / 2 ? 2 * at : SIZE_MAX;
    if (at > bytes_len || bytes_len - at < sizeof signature)
        return FRACTAL_HEAP_INVALID_SIGNATURE;
    if (bytes_len - at < 9)
        return FRACTAL_HEAP_UNEXPECTED_EOF;
    if (bytes[at + 8] > 3)
        return FRACTAL_HEAP_INVALID_VERSION;
    sizes = bytes[at + 8] < 2 ? 13 : 9;
    if (bytes_len - at < sizes + 2)
        return FRACTAL_HEAP_UNEXPECTED_EOF;
    found->at = at;
    found->version = bytes[at + 8];
    found->offset_size = bytes[at + sizes];
    found->length_size = bytes[at + sizes + 1];
    return FRACTAL_HEAP_OK;
}

/* How many bytes each ID of a heap has, by the heap header at `at` in the file; 0 where no header begins there.
 * Its checksum is not tested here. The functions below take an ID of any length: what a short one lacks counts as
 * zeros, so that three bytes may be answered by an object of no bytes, with 0. */
static inline size_t fractal_heap_id_length(const uint8_t *file, size_t file_len, uint64_t at)
{
    static const uint8_t begin[5] = {'F', 'R', 'H', 'P', 0}; /* signature and version */
    size_t length;
    if (at > file_len || file_len - at < 7 || memcmp(file + at, begin, sizeof begin) != 0)
        return 0;
    length = file[at + 6];
    return 256 * length + file[at + 5];
}

/* Jenkins' lookup3 (hashlittle, initial value 0), the checksum of HDF5's metadata. */
uint32_t fractal_heap_checksum(const uint8_t *bytes, size_t bytes_len);

/* The four functions below parse the heap header at `at` in the file first: that is the heap's address in HDF5,
 * where the file that is lent begins at its superblock. offset_size and length_size are the superblock's
 * (2, 4 or 8). They return 0, or the number of a refusal.
 *
 * Accepted or refused, two 64-bit numbers go little-endian into the first 16 bytes of the slot: those
 * of the answer, or those of the refusal. Bytes past 16 keep their content. A slot of fewer than 16
 * bytes gives 13 before all else and is not written.
 *
 * The slot must not overlap the file or the ID: it is written while they are lent for reading. */

/* The answer is the object's offset in the heap and its length. The length has as many bytes of the ID as the smaller
 * of the header's largest direct block and largest managed object needs; what the ID has behind them is not looked at.
 * Only the first eight bytes after byte 0 count: of what they lack the bits are 0. */
uint32_t fractal_heap_decode_managed_id(const uint8_t *file, size_t file_len, uint64_t at,
                                        uint8_t offset_size, uint8_t length_size,
                                        const uint8_t *id, size_t id_len,
                                        uint8_t *slot, size_t slot_len);

/* CHANGED: heap_header_address is new, before the ID. A program that was compiled when this function had nine arguments
 * links all the same, and then lends its ID's pointer as the address, the ID's length as the ID, and so on: compile
 * every caller anew. Whoever wants what this function did then calls fractal_heap_read_managed_object_unchecked, which
 * has those nine arguments.
 *
 * Reads by an ID, and tests every block on the way. The answer is the object's position in the file that is lent and
 * its length; all of it lies in its block, and the block in that file. heap_header_address is what each block says of
 * where its header is: `at`, in a file that is lent from its superblock on; another number where blocks and header were
 * carried elsewhere since they were written.
 *
 * Refused are, in this order, a header, a filtered heap (8), an ID (1 where it is empty, 6), a heap without a root
 * block (1), and then each block from the root down, before it is read:
 *    1  a direct block smaller than its own header: the header's length, the block's size; a block that ends past the
 *       file: the block's end, the file's length
 *    4  a block that does not begin with FHIB or FHDB, whichever is due
 *    5  a block of another version than 0: the version
 *   19  a block of another header, then one of another place in the heap: the number that is stored, the one wanted
 *   18  a block with a bit changed: the checksum that is stored, and that of its bytes. A direct block has a checksum
 *       where the bit of value 2 is set in the header's flags; without it only its header is tested, and nobody sees
 *       what was changed behind that
 *    1  behind a direct block, an object that ends past it: where it ends in the block, the block's size; behind an
 *       indirect one that has no block at the ID's place: the object's end in the heap, the file's length
 *   10  behind 64 indirect blocks, an indirect one more: it is not tested
 * An object that begins in its block's header, or has no bytes, is not refused for that. */
uint32_t fractal_heap_read_managed_object(const uint8_t *file, size_t file_len, uint64_t at,
                                          uint8_t offset_size, uint8_t length_size,
                                          uint64_t heap_header_address,
                                          const uint8_t *id, size_t id_len,
                                          uint8_t *slot, size_t slot_len);

/* Reads by an ID, and of the blocks tests nothing but an indirect one's signature: what is handed out may be wrong bytes
 * where the file is damaged, and lies in the file, but perhaps in no block. For whoever repairs such a file, and for blocks
 * whose checksums were never put in. The answer is the object's position in the file that is lent and its length. */
uint32_t fractal_heap_read_managed_object_unchecked(const uint8_t *file, size_t file_len, uint64_t at,
                                                    uint8_t offset_size, uint8_t length_size,
                                                    const uint8_t *id, size_t id_len,
                                                    uint8_t *slot, size_t slot_len);

/* The block at which fractal_heap_read_managed_object stops that is lent the same: the one that it refuses; the direct
 * block, where it finds the object or refuses it; the indirect block that has no block at the ID's place; and of a read
 * that is refused for its depth (10) the 64th block, the last that was tested. Returns 0, with the block's address and
 * its heap offset in the slot; or what the read is refused by, with its two numbers, where that is before any block. */
uint32_t fractal_heap_stopping_block(const uint8_t *file, size_t file_len, uint64_t at,
                                     uint8_t offset_size, uint8_t length_size,
                                     uint64_t heap_header_address,
                                     const uint8_t *id, size_t id_len,
                                     uint8_t *slot, size_t slot_len);

enum {
    FRACTAL_HEAP_HEADER_FIELDS = 23,    /* 64-bit numbers that the fields of every header are */
    FRACTAL_HEAP_HEADER_NUMBERS = 26    /* with the three that are told of the filters */
};

/* What the heap header at `at` in the file says, as the four functions above find it. The fields that every header has
 * between version and checksum go into the first 23 places of the list, in header order, and into the next three what
 * is told of the filters; the order is that of enum fractal_heap_field below. Places behind these 26 keep their content,
 * and two zeros go into the slot. An address is told as it is stored, undefined where all its offset_size bytes are
 * 0xFF. Where the length of the filters is 0 the last three are 0; else the bytes of their information, a Filter
 * Pipeline message, which is not read, lie in the file from the position that is told on, and the checksum is behind
 * them. Refused, the slot gets the refusal's two numbers, and the list keeps its content; where the file ends in front
 * of the checksum's end, but behind the root's rows, these are the checksum's end and the file's length. fields_len
 * counts numbers: a slot of fewer than 16 bytes, and then a list of fewer than 26 numbers, gives 13 before all else;
 * neither is written. A list of 23, which was enough before headers with filters were read, gives 13. The list overlaps
 * nothing else that is lent. */
uint32_t fractal_heap_parse_header(const uint8_t *file, size_t file_len, uint64_t at,
                                   uint8_t offset_size, uint8_t length_size,
                                   uint64_t *fields, size_t fields_len,
                                   uint8_t *slot, size_t slot_len);

/* The place of each field in the list. */
enum fractal_heap_field {
    FRACTAL_HEAP_HEAP_ID_LENGTH,                            /* bytes of an ID */
    FRACTAL_HEAP_IO_FILTER_ENCODED_LENGTH,                  /* bytes of the filters; 0: there are none */
    FRACTAL_HEAP_FLAGS,                                     /* 1: huge IDs have wrapped; 2: direct blocks have checksums */
    FRACTAL_HEAP_MAX_MANAGED_OBJECT_SIZE,                   /* bytes */
    FRACTAL_HEAP_NEXT_HUGE_OBJECT_ID,                       /* a number */
    FRACTAL_HEAP_BTREE_HUGE_OBJECTS_ADDRESS,                /* address of the index of huge objects */
    FRACTAL_HEAP_FREE_SPACE_MANAGED_BLOCKS,                 /* bytes */
    FRACTAL_HEAP_MANAGED_BLOCK_FREE_SPACE_MANAGER_ADDRESS,  /* address */
    FRACTAL_HEAP_MANAGED_SPACE_IN_HEAP,                     /* bytes */
    FRACTAL_HEAP_ALLOCATED_MANAGED_SPACE_IN_HEAP,           /* bytes */
    FRACTAL_HEAP_DIRECT_BLOCK_ALLOCATION_ITERATOR_OFFSET,   /* a heap offset, in bytes */
    FRACTAL_HEAP_MANAGED_OBJECTS_COUNT,                     /* objects */
    FRACTAL_HEAP_HUGE_OBJECTS_SIZE,                         /* bytes */
    FRACTAL_HEAP_HUGE_OBJECTS_COUNT,                        /* objects */
    FRACTAL_HEAP_TINY_OBJECTS_SIZE,                         /* bytes */
    FRACTAL_HEAP_TINY_OBJECTS_COUNT,                        /* objects */
    FRACTAL_HEAP_TABLE_WIDTH,                               /* blocks in a row */
    FRACTAL_HEAP_STARTING_BLOCK_SIZE,                       /* bytes */
    FRACTAL_HEAP_MAX_DIRECT_BLOCK_SIZE,                     /* bytes */
    FRACTAL_HEAP_MAX_HEAP_SIZE,                             /* bits of a heap offset */
    FRACTAL_HEAP_START_ROOT_ROWS,                           /* rows of a new root; 0: as many as there can be */
    FRACTAL_HEAP_ROOT_BLOCK_ADDRESS,                        /* address */
    FRACTAL_HEAP_CURRENT_ROWS_IN_ROOT_INDIRECT_BLOCK,       /* rows; 0: the root is a direct block */
    FRACTAL_HEAP_IO_FILTER_INFORMATION_POSITION,            /* where it begins, in bytes from the start of `file` */
    FRACTAL_HEAP_FILTERED_ROOT_DIRECT_BLOCK_SIZE,           /* bytes of a direct root, once filtered */
    FRACTAL_HEAP_IO_FILTER_MASK                             /* bits: the filters that a direct root was not put through */
};

/* How many bytes a header without filters has in a file with these two sizes. */
static inline size_t fractal_heap_header_length(uint8_t offset_size, uint8_t length_size)
{
    return 26 + 12 * (size_t)length_size + 3 * (size_t)offset_size;
}

/* Writes the header of a heap without filters: its fields are the first 23 numbers of the list, in the order of enum
 * fractal_heap_field, and numbers behind them are not read. The header, from its signature to its checksum, goes into
 * the first bytes of `bytes`; bytes behind it keep their content. Returns 0, with the header's length and its checksum
 * in the slot. What it writes is what fractal_heap_parse_header reads: every accepted list comes back number by number,
 * the three behind it as 0, and every header without filters that parses is written byte for byte as it was.
 *
 * A slot of fewer than 16 bytes, and then a list of fewer than 23 numbers, gives 13 before all else. Then come 2 and 3,
 * the two sizes; 8 where the length of the filters is not 0; 17, the first field that its width cannot hold, with its
 * place in the list and its number; and 13 where bytes_len is below the header's length. The numbers are tested as they
 * are: an undefined address is all ones in offset_size bytes, so that 2^64 - 1 gives 17 at 2 and 4. Refused, the bytes
 * keep their content, and after 13 the slot, too. fields_len counts numbers. Bytes, slot and list overlap nothing. */
uint32_t fractal_heap_write_header(const uint64_t *fields, size_t fields_len,
                                   uint8_t offset_size, uint8_t length_size,
                                   uint8_t *bytes, size_t bytes_len,
                                   uint8_t *slot, size_t slot_len);

/* An open plan: objects are added to it one by one, in the order in which they will be written, and each has its
 * heap offset, and so its ID, at once. It is at any time the plan of the sizes that were accepted so far, and these
 * need not be kept: an offset that was given stays the object's in every longer list, and so does its ID.
 *
 *     struct fractal_heap_opened_plan opened = fractal_heap_open_plan(8, slot, 16);
 *     if (opened.number != FRACTAL_HEAP_OK)
 *         ... no plan is opened ...
 *     if (fractal_heap_plan_add(&opened.plan, size, slot, 16) == FRACTAL_HEAP_OK)
 *         ... the object's heap offset is the first number in the slot ...
 *
 * A plan is lent to the library only as opening and additions have left it: none of its members is set by the
 * caller, it is not lent before it was opened, nor after opening was refused, nor to two calls at once, and it
 * overlaps neither the slot nor the list. The library's promise rests on that: it tests nothing of the plan. A plan
 * holds no memory of its own, and is given up by forgetting it.
 *
 * It may be moved to another place, and is then added to there alone. Two copies that are both added to would give
 * one heap offset to two objects. C cannot forbid that; in C++ a plan is not copied, and moved only by
 * std::move. */
enum {
    FRACTAL_HEAP_PLAN_SIZE = 72,        /* bytes of a struct fractal_heap_plan */
    FRACTAL_HEAP_PLAN_ALIGNMENT = 8,    /* its address is a multiple of this */
    FRACTAL_HEAP_PLAN_TOTALS = 8        /* 64-bit numbers that fractal_heap_plan_totals puts */
};

/* Where planning stands: bytes, but for one count. */
struct fractal_heap_state {
    uint64_t start;                     /* the current block's heap offset */
    uint64_t size;                      /* its size */
    uint64_t fill;                      /* how far it is filled, its header counted */
    uint64_t count;                     /* blocks that are placed */
    uint64_t allocated;                 /* their sizes together */
    uint64_t used;                      /* the objects' sizes together */
    uint64_t indirect;                  /* the indirect blocks below the root together */
};

struct fractal_heap_planner {
    uint8_t offset_size;                /* bytes of an address */
    struct fractal_heap_state state;
};

struct fractal_heap_plan {
    struct fractal_heap_planner planner;
    uint64_t objects;                   /* how many were accepted */
#ifdef __cplusplus
    /* All of them trivial: so C++ hands the struct over and back as C does. */
    fractal_heap_plan() = default;
    fractal_heap_plan(fractal_heap_plan &&) = default;
    fractal_heap_plan &operator=(fractal_heap_plan &&) = default;
    fractal_heap_plan(const fractal_heap_plan &) = delete;
    fractal_heap_plan &operator=(const fractal_heap_plan &) = delete;
#endif
};

/* What opening hands back: 0 and a plan, or the number of a refusal and a plan that is of no use. */
struct fractal_heap_opened_plan {
    uint32_t number;
    struct fractal_heap_plan plan;
};

/* The slot of the two functions below is as above: 16 bytes get the two numbers of the answer or of the refusal; a
 * shorter one gives 13 before all else, is not written, and no plan is opened or added to. */

/* The plan of no objects, for addresses of offset_size bytes. It is handed back by value, so that no place is lent
 * that holds no plan yet. Its number is 0, with 0 and 0 in the slot; 2 where offset_size is not 2, 4 or 8; or 13. */
struct fractal_heap_opened_plan fractal_heap_open_plan(uint8_t offset_size, uint8_t *slot, size_t slot_len);

/* Adds an object of `size` bytes. The answer is its heap offset, and 0. It is refused by 11 where it is larger than
 * 65,536 - (14 + offset size), by 12 where no slot of the heap space is left for it, or the plan has 2^64 - 1
 * objects; both have the count of accepted objects as the index. 11 goes before 12. A refusal, 13 too, leaves the
 * plan as it was, and a smaller object may still be accepted. */
uint32_t fractal_heap_plan_add(struct fractal_heap_plan *plan, uint64_t size, uint8_t *slot, size_t slot_len);

/* What the heap header says of the objects that were accepted so far. Eight numbers go into the first places of the
 * list, in this order: how many blocks, the region's size, the root's rows (0: the root is a direct block), the
 * root's place in the region, managed space, allocated space, free space, the allocation iterator. Places behind
 * them keep their content. totals_len counts numbers; a list of fewer than eight gives 13 and is not written. */
uint32_t fractal_heap_plan_totals(const struct fractal_heap_plan *plan, uint64_t *totals, size_t totals_len);

/* Writes the ID of an object of `size` bytes at a heap offset into the first eight bytes of `id`: 0, the offset in
 * five bytes, the size in two; bytes behind them keep their content. Returns 0, with 0 and 0 in the slot; 16 where the
 * offset is not below 2^40 or the size not below 2^16, with both in the slot; or 13 where id_len is below 8, and then
 * nothing is put into the slot. A slot of fewer than 16 bytes gives 13 before all else and is not written. Refused, the
 * ID's bytes stay as they are. ID and slot must not overlap.
 * Adding accepts an object without bytes at heap offset 2^40, the end of the heap space: that one has no ID. */
uint32_t fractal_heap_write_managed_id(uint64_t offset, uint64_t size, uint8_t *id, size_t id_len,
                                       uint8_t *slot, size_t slot_len);

#ifdef __cplusplus
}
#endif

#endif
