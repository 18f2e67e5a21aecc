/* Holds our checksums, the loader's and the tests', to H5_checksum_lookup3 of HDF5's own library, which is loaded from
 * the file that is named: the two texts that lookup3.c publishes, every length from 0 to 600 at 16 places in memory,
 * long ones, and a million random lengths. Says how many there were; the first that differs ends the program.
 *   hdf5_checksum LIBRARY */
#include "fractal_heap.h"

#include <dlfcn.h>
#include <stdio.h>
#include <stdlib.h>
#include <string.h>

uint32_t tools_jenkins_lookup3(const uint8_t *bytes, size_t bytes_len);

typedef uint32_t checksum(const void *key, size_t length, uint32_t initval);
typedef int version(unsigned *major, unsigned *minor, unsigned *release);

enum { LARGE = 3 << 20, RANDOM = 1000000 };

static checksum *theirs;
static size_t count;

static uint64_t draw(void) {
    static uint64_t x = 0x9e3779b97f4a7c15;
    x ^= x << 13;
    x ^= x >> 7;
    x ^= x << 17;
    return x;
}

static void fail(const char *what) {
    fprintf(stderr, "hdf5 checksum: %s\n", what);
    exit(1);
}

/* POSIX lets a function's address be read out of an object's. */
static void find(void *library, const char *name, void *function, size_t size) {
    void *found = dlsym(library, name);
    if (found == NULL)
        fail(dlerror());
    memcpy(function, &found, size);
}

static uint32_t same(const uint8_t *bytes, size_t length) {
    uint32_t due = theirs(bytes, length, 0);
    if (fractal_heap_checksum(bytes, length) != due || tools_jenkins_lookup3(bytes, length) != due) {
        fprintf(stderr, "hdf5 checksum: %zu bytes differ\n", length);
        exit(1);
    }
    count++;
    return due;
}

static void published(const char *text, uint32_t due) {
    if (same((const uint8_t *)text, strlen(text)) != due)
        fail("HDF5's is not what lookup3.c publishes");
}

int main(int argc, char **argv) {
    static const size_t LONG[] = {4095, 4096, 4097, 65535, 65536, 1 << 20, (1 << 20) + 1, LARGE};
    static uint8_t bytes[LARGE];
    unsigned major, minor, release;
    version *told;
    void *library = argc == 2 ? dlopen(argv[1], RTLD_NOW) : NULL;
    if (library == NULL)
        fail(argc == 2 ? dlerror() : "usage: hdf5_checksum LIBRARY");
    find(library, "H5_checksum_lookup3", &theirs, sizeof theirs);
    find(library, "H5get_libversion", &told, sizeof told);
    if (told(&major, &minor, &release) < 0)
        fail("HDF5 does not say which version it is");

    for (size_t i = 0; i < LARGE; i++)
        bytes[i] = (uint8_t)(draw() >> 32);
    published("", 0xdeadbeef);
    published("Four score and seven years ago", 0x17770551);
    for (size_t at = 0; at < 16; at++)
        for (size_t length = 0; length <= 600; length++)
            same(bytes + at, length);
    for (size_t i = 0; i < sizeof LONG / sizeof *LONG; i++)
        same(bytes, LONG[i]);
    for (size_t i = 0; i < RANDOM; i++) {
        size_t length = (size_t)(draw() >> 32) % 300;
        same(bytes + (size_t)(draw() >> 32) % (LARGE - length), length);
    }
    printf("hdf5 checksum: %zu checksums are those of HDF5 %u.%u.%u\n", count, major, minor, release);
    return 0;
}
