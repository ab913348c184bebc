/* Plain C bodies of the two checks, for bench/checks: XXH64 as in the xxHash specification, and
   CRC-32C. The words of the command line and the printed line are those of the crate h2_check_bench. */
#include "crc32c.h"
#include <stdint.h>
#include <stdio.h>
#include <stdlib.h>
#include <string.h>
#include <time.h>

static const size_t BUFFER_BYTES = 67108864;
static const size_t SMALL_BUFFER_BYTES = 200000;
static const size_t PIECE_SIZES[] = {65536, 1024, 63, 7};

static uint64_t read64(const uint8_t *p) {
    uint64_t v;
    memcpy(&v, p, 8);
    return v;
}

static const uint64_t P1 = 11400714785074694791ull, P2 = 14029467366897019727ull,
                      P3 = 1609587929392839161ull, P4 = 9650029242287828579ull,
                      P5 = 2870177450012600261ull;

static uint64_t rotl(uint64_t x, int n) { return x << n | x >> (64 - n); }

static uint64_t xxh_round(uint64_t a, uint64_t x) { return rotl(a + x * P2, 31) * P1; }

static uint64_t xxh_merge(uint64_t h, uint64_t v) { return (h ^ xxh_round(0, v)) * P1 + P4; }

static uint64_t xxh64(const uint8_t *p, size_t n) {
    uint64_t h;
    size_t left = n;
    if (n >= 32) {
        uint64_t v1 = P1 + P2, v2 = P2, v3 = 0, v4 = 0 - P1;
        for (; left >= 32; p += 32, left -= 32) {
            v1 = xxh_round(v1, read64(p));
            v2 = xxh_round(v2, read64(p + 8));
            v3 = xxh_round(v3, read64(p + 16));
            v4 = xxh_round(v4, read64(p + 24));
        }
        h = rotl(v1, 1) + rotl(v2, 7) + rotl(v3, 12) + rotl(v4, 18);
        h = xxh_merge(h, v1);
        h = xxh_merge(h, v2);
        h = xxh_merge(h, v3);
        h = xxh_merge(h, v4);
    } else {
        h = P5;
    }
    h += n;
    for (; left >= 8; p += 8, left -= 8) h = rotl(h ^ xxh_round(0, read64(p)), 27) * P1 + P4;
    if (left >= 4) {
        h = rotl(h ^ read32(p) * P1, 23) * P2 + P3;
        p += 4;
        left -= 4;
    }
    for (; left > 0; p++, left--) h = rotl(h ^ *p * P5, 11) * P1;
    h = (h ^ h >> 33) * P2;
    h = (h ^ h >> 29) * P3;
    return h ^ h >> 32;
}

static uint8_t *sample_bytes(size_t count) {
    uint8_t *bytes = malloc(count);
    if (bytes == NULL) {
        fputs("out of memory\n", stderr);
        exit(1);
    }
    uint64_t state = 1;
    for (size_t i = 0; i < count; i++) {
        state = state * 6364136223846793005ull + 1442695040888963407ull;
        bytes[i] = (uint8_t)(state >> 56);
    }
    return bytes;
}

static uint64_t crc32c_of_pieces(const uint8_t *bytes, size_t count, size_t piece, uint64_t joined) {
    for (size_t at = 0; at + piece <= count; at += piece) joined = rotl(joined, 5) ^ crc32c(bytes + at, piece);
    return joined;
}

static uint64_t xxh64_of_pieces(const uint8_t *bytes, size_t count, size_t piece, uint64_t joined) {
    for (size_t at = 0; at + piece <= count; at += piece) joined = rotl(joined, 5) ^ xxh64(bytes + at, piece);
    return joined;
}

static uint64_t nanoseconds_now(void) {
    struct timespec now;
    clock_gettime(CLOCK_MONOTONIC, &now);
    return (uint64_t)now.tv_sec * 1000000000ull + (uint64_t)now.tv_nsec;
}

static int print_checks(void) {
    uint8_t *bytes = sample_bytes(SMALL_BUFFER_BYTES);
    for (size_t i = 0; i < sizeof PIECE_SIZES / sizeof PIECE_SIZES[0]; i++) {
        size_t piece = PIECE_SIZES[i];
        uint64_t crc = crc32c_of_pieces(bytes, SMALL_BUFFER_BYTES, piece, 0);
        uint64_t xxh = xxh64_of_pieces(bytes, SMALL_BUFFER_BYTES, piece, 0);
        printf("%zu crc32c %016llx xxh64 %016llx\n", piece, (unsigned long long)crc, (unsigned long long)xxh);
    }
    free(bytes);
    return 0;
}

static int print_time(int is_crc, size_t piece, unsigned passes) {
    uint8_t *bytes = sample_bytes(BUFFER_BYTES);
    uint64_t start = nanoseconds_now(), joined = 0;
    for (unsigned pass = 0; pass < passes; pass++)
        joined = is_crc ? crc32c_of_pieces(bytes, BUFFER_BYTES, piece, joined)
                        : xxh64_of_pieces(bytes, BUFFER_BYTES, piece, joined);
    uint64_t taken = nanoseconds_now() - start;
    printf("%llu %016llx\n", (unsigned long long)taken, (unsigned long long)joined);
    free(bytes);
    return 0;
}

int main(int argc, char **argv) {
    fill_table();
    if (argc == 2 && strcmp(argv[1], "check") == 0) return print_checks();
    if (argc == 5 && strcmp(argv[1], "time") == 0) {
        size_t piece = strtoull(argv[3], NULL, 10);
        if (piece > 0) return print_time(strcmp(argv[2], "crc32c") == 0, piece, (unsigned)strtoul(argv[4], NULL, 10));
    }
    fputs("usage: checks check | time crc32c|xxh64 PIECE PASSES\n", stderr);
    return 1;
}
