/* What the programs of the tests on real files share: memory, whole files, numbers as words and as bytes, printing to
 * the end, and giving up. What not each of them calls is inline. */
#ifndef FILES_H
#define FILES_H

#include <ctype.h>
#include <errno.h>
#include <stdint.h>
#include <stdio.h>
#include <stdlib.h>

static void give_up(const char *what)
{
    fprintf(stderr, "loader: %s\n", what);
    exit(1);
}

static uint8_t *memory(size_t len)
{
    uint8_t *bytes = (uint8_t *)malloc(len ? len : 1); /* the cast is for C++ */
    if (!bytes)
        give_up("no memory");
    return bytes;
}

static inline uint8_t *whole_file(const char *name, size_t *len)
{
    FILE *from = fopen(name, "rb");
    if (!from || fseek(from, 0, SEEK_END))
        give_up("the file does not open");
    long end = ftell(from);
    if (end < 0)
        give_up("the file has no length");
    *len = (size_t)end;
    uint8_t *bytes = memory(*len);
    rewind(from);
    if (fread(bytes, 1, *len, from) != *len)
        give_up("the file does not read");
    fclose(from);
    return bytes;
}

/* The number in decimal digits; strtoull by itself passes over blanks and takes a sign. */
static inline uint64_t number_of(const char *digits)
{
    char *end;
    errno = 0;
    unsigned long long number = strtoull(digits, &end, 10);
    if (!isdigit((unsigned char)digits[0]) || *end || errno)
        give_up("a number is not decimal, or too large");
    return number;
}

/* The byte in the two hexadecimal digits that come first; sscanf by itself takes a blank, a sign or a prefix for one. */
static inline uint8_t byte_of(const char *digits)
{
    unsigned byte = 0;
    if (!isxdigit((unsigned char)digits[0]) || !isxdigit((unsigned char)digits[1]) ||
        sscanf(digits, "%2x", &byte) != 1)
        give_up("an ID is not hexadecimal");
    return (uint8_t)byte;
}

/* The number in eight little-endian bytes, as the library puts it into a slot. */
static inline uint64_t number_at(const uint8_t *bytes)
{
    uint64_t number = 0;
    for (int i = 8; i--;)
        number = number << 8 | bytes[i];
    return number;
}

/* Ends what is printed, which is kept until then: on a full disk it is here that it fails. */
static inline void end_printing(void)
{
    int failed = ferror(stdout);
    if (fclose(stdout) || failed)
        give_up("not all is printed");
}

#endif
