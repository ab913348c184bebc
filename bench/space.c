/* Plain C bodies of taking chunks and of applying a pass of bulkfree, for bench/space. The words of the
   command line and the printed line are those of the crate h2_space_bench.

   A take scans the map's bytes from the first chunk on, a word of 32 codes at a time, for a code that is
   0. Applying a pass goes over a segment code by code, by the table of bulkfree. */
#include <stdint.h>
#include <stdio.h>
#include <stdlib.h>
#include <string.h>

#include <time.h>

enum { ZONES = 512, ZONE_SEGMENTS = 8, SEGMENTS = ZONES * ZONE_SEGMENTS, SEGMENT_BYTES = 64, SEGMENT_CHUNKS = 256 };

static const uint64_t CHUNK_BYTES = 16384, LOWER = 0x5555555555555555ull;

static uint8_t map[SEGMENTS][SEGMENT_BYTES];
static uint64_t count, joined;

static void add(uint64_t answer) {
    count++;
    joined = (joined << 5 | joined >> 59) ^ answer;
}

static void fill_map(void) {
    for (int s = 0; s < SEGMENTS; s++) memset(map[s], s % ZONE_SEGMENTS == 0 ? 0x55 : 0xff, SEGMENT_BYTES);
    memset(map[SEGMENTS - 1], 0, SEGMENT_BYTES);
}

/* The place of the lowest free chunk, whose code becomes 3; 0 where no chunk is free. */
static uint64_t take(void) {
    uint8_t *bytes = &map[0][0];
    for (size_t at = 0; at < sizeof map; at += 8) {
        uint64_t word;
        memcpy(&word, bytes + at, 8);
        uint64_t free = ~(word | word >> 1) & LOWER;
        if (free != 0) {
            int bit = __builtin_ctzll(free);
            word |= 3ull << bit;
            memcpy(bytes + at, &word, 8);
            return CHUNK_BYTES * (4 * (uint64_t)at + (uint64_t)bit / 2);
        }
    }
    return 0;
}

static void apply(uint8_t codes[SEGMENT_BYTES], const uint8_t seen[SEGMENT_CHUNKS]) {
    uint64_t staged = 0, freed = 0;
    for (int c = 0; c < SEGMENT_CHUNKS; c++) {
        int shift = 2 * (c & 3), code = codes[c / 4] >> shift & 3, after = code;
        if (code >= 2) after = seen[c] ? 3 : code == 3 ? 2 : 0;
        staged += code == 3 && after == 2;
        freed += code == 2 && after == 0;
        codes[c / 4] = (uint8_t)((codes[c / 4] & ~(3 << shift)) | after << shift);
    }
    add(staged);
    add(freed);
}

static uint64_t nanoseconds_now(void) {
    struct timespec now;
    clock_gettime(CLOCK_MONOTONIC, &now);
    return (uint64_t)now.tv_sec * 1000000000ull + (uint64_t)now.tv_nsec;
}

int main(int argc, char **argv) {
    if (argc != 4 || strcmp(argv[1], "time") != 0) {
        fputs("usage: space time take|apply PASSES\n", stderr);
        return 2;
    }
    int takes = strcmp(argv[2], "take") == 0;
    unsigned passes = (unsigned)strtoul(argv[3], NULL, 10);
    uint8_t none[SEGMENT_CHUNKS] = {0}, third[SEGMENT_CHUNKS];
    for (int c = 0; c < SEGMENT_CHUNKS; c++) third[c] = c % 3 == 0;
    fill_map();
    uint64_t start = nanoseconds_now();
    for (unsigned pass = 0; pass < passes; pass++) {
        if (takes) {
            for (uint64_t place = take(); place != 0; place = take()) add(place);
            apply(map[SEGMENTS - 1], none);
            apply(map[SEGMENTS - 1], none);
        } else {
            for (int s = 0; s < SEGMENTS; s++) apply(map[s], third);
        }
    }
    printf("%llu %llu %016llx\n", (unsigned long long)(nanoseconds_now() - start), (unsigned long long)count, (unsigned long long)joined);
    return 0;
}
