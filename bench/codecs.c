/* Plain C bodies of the codecs, for bench/codecs: references, volume headers with their CRC-32C (slicing-by-8,
   as in h2_check) and inodes, by the tables of docs/FORMAT.md. The decoders refuse what the format refuses, and
   return 1 or 0. The words of the command line and the printed lines are those of the crate h2_codec_bench. */
#include "crc32c.h"
#include <stdint.h>
#include <stdio.h>
#include <stdlib.h>
#include <string.h>
#include <time.h>

enum { EMPTY, INODE, INDIRECT, CONTENT, DIRENT, MAP_NODE, MAP_LEAF };
enum { NO_CHECK = 0, XX = 3, CRC = 5 };
enum { DIRECTORY = 1, FILE_INODE = 2, PFS = 3 };

struct ref {
    uint8_t kind, keybits, radix, method, has_entry, target;
    uint16_t len;
    uint64_t key, place, id, check, number;
    uint8_t name[64];
};

struct header {
    uint64_t number, map_number, next_pfs;
    uint32_t zones;
    struct ref root[4], map[8];
};

struct set {
    uint8_t capacity, len;
    struct ref refs[32];
};

struct inode {
    uint8_t kind, has_bytes, name_len;
    uint32_t links;
    uint64_t number, size, next;
    uint8_t name[64];
    union {
        struct set set;
        uint8_t bytes[512];
    } body;
};

/* a row of the table of references; the second row of an entry stands last */
static const struct row {
    uint8_t method, flags, radix, least_keybits, last_keybits, least_len, last_len;
    uint64_t least_key, last_key, least_id, last_id;
} rows[] = {
    {0, 0, 0, 0, 0, 0, 0, 0, 0, 0, 0},
    {3, 0, 10, 0, 0, 0, 0, 1, (1ull << 62) - 1, 1, 1ull << 62},
    {3, 0, 12, 1, 62, 0, 0, 0, UINT64_MAX, 1, 1ull << 62},
    {3, 0, 14, 14, 14, 0, 0, 0, (1ull << 40) - 1, 1, 1ull << 62},
    {0, 1, 0, 0, 0, 1, 64, 1ull << 63, UINT64_MAX, 1, 1ull << 62},
    {5, 0, 10, 28, 31, 0, 0, 0, (1ull << 34) - 1, 1, 1ull << 62},
    {5, 0, 10, 25, 25, 0, 0, 0, (1ull << 34) - 1, 1, 1ull << 62},
    {3, 0, 10, 0, 0, 65, 255, 1ull << 63, UINT64_MAX, 1, 1ull << 62},
};

static const struct row *row_of(uint8_t kind, uint8_t method) {
    return &rows[kind == DIRENT && method != 0 ? 7 : kind];
}

static uint64_t get64(const uint8_t *p) { uint64_t v; memcpy(&v, p, 8); return v; }
static uint32_t get32(const uint8_t *p) { uint32_t v; memcpy(&v, p, 4); return v; }
static uint16_t get16(const uint8_t *p) { uint16_t v; memcpy(&v, p, 2); return v; }
static void put64(uint8_t *p, uint64_t v) { memcpy(p, &v, 8); }
static void put32(uint8_t *p, uint32_t v) { memcpy(p, &v, 4); }
static void put16(uint8_t *p, uint16_t v) { memcpy(p, &v, 2); }

static int are_zeros(const uint8_t *b, size_t from, size_t to) {
    for (size_t at = from; at < to; at++)
        if (b[at] != 0) return 0;
    return 1;
}

static const uint64_t SPREAD = 0x9e3779b97f4a7c15ull;

static uint64_t join(uint64_t joined, uint64_t word) { return (joined << 5 | joined >> 59) * SPREAD ^ word; }

static void encode_ref(const struct ref *r, uint8_t *b) {
    const struct row *w = row_of(r->kind, r->method);
    memset(b, 0, 128);
    b[0] = r->kind;
    b[1] = r->method;
    b[2] = r->keybits;
    b[3] = w->flags;
    put64(b + 8, r->key);
    put64(b + 16, r->place + r->radix);
    put64(b + 24, r->id);
    if (r->has_entry) {
        put64(b + 32, r->number);
        put16(b + 40, r->len);
        b[42] = r->target;
    }
    if (w->flags) memcpy(b + 64, r->name, 64);
    else if (r->method == XX) put64(b + 64, r->check);
    else if (r->method == CRC) put32(b + 64, (uint32_t)r->check);
}

static int fits(const struct row *w, const uint8_t *b) {
    uint64_t key = get64(b + 8), place = get64(b + 16) & ~63ull, id = get64(b + 24), number = get64(b + 32);
    uint8_t keybits = b[2], radix = b[16] & 63;
    if (b[1] != w->method || b[3] != w->flags || radix != w->radix) return 0;
    if (radix == 0 ? place != 0 : place == 0 || place >= 1ull << 34 || place & ((1ull << radix) - 1)) return 0;
    if (keybits < w->least_keybits || keybits > w->last_keybits) return 0;
    if (b[0] == MAP_NODE && keybits != 28 && keybits != 31) return 0;
    if (key < w->least_key || key > w->last_key || key & ((1ull << keybits) - 1)) return 0;
    if (id < w->least_id || id > w->last_id) return 0;
    if (w->last_len != 0) {
        uint16_t len = get16(b + 40);
        if (len < w->least_len || len > w->last_len || (b[42] != 1 && b[42] != 2)) return 0;
        if (number == 0 || number >= 1ull << 62) return 0;
    }
    return 1;
}

static int has_padding(const struct row *w, const uint8_t *b) {
    size_t fields_end = w->last_len != 0 ? 43 : 32;
    size_t area = w->flags ? get16(b + 40) : w->method == XX ? 8 : w->method == CRC ? 4 : 0;
    return are_zeros(b, 4, 8) && are_zeros(b, fields_end, 64) && are_zeros(b, 64 + area, 128);
}

static int decode_ref(const uint8_t *b, struct ref *r) {
    if (b[0] > MAP_LEAF) return 0;
    const struct row *w = row_of(b[0], b[1]);
    if (!fits(w, b) || !has_padding(w, b)) return 0;
    r->kind = b[0];
    r->method = b[1];
    r->keybits = b[2];
    r->radix = b[16] & 63;
    r->key = get64(b + 8);
    r->place = get64(b + 16) & ~63ull;
    r->id = get64(b + 24);
    r->check = w->method == XX ? get64(b + 64) : w->method == CRC ? get32(b + 64) : 0;
    r->has_entry = w->last_len != 0;
    if (r->has_entry) {
        r->number = get64(b + 32);
        r->len = get16(b + 40);
        r->target = b[42];
        if (w->flags) memcpy(r->name, b + 64, 64);
        else memset(r->name, 0, 64);
    }
    return 1;
}

static int may_follow(const struct ref *q, const struct ref *r) {
    if (r->kind == EMPTY) return 1;
    return q->kind != EMPTY && q->key <= r->key && r->key - q->key >= 1ull << q->keybits;
}

/* Volume headers */

static const size_t HEADER_BYTES = 65536, CHECK_AT = 65532;
static const uint64_t ZONE_BYTES = 33554432;

static void write_header(const struct header *h, uint8_t *out) {
    memset(out, 0, HEADER_BYTES);
    memcpy(out, "H2VOLUME", 8);
    put32(out + 8, 1);
    put32(out + 12, h->zones);
    put64(out + 16, h->number);
    put64(out + 24, h->map_number);
    put64(out + 32, h->next_pfs);
    for (int i = 0; i < 4; i++) encode_ref(&h->root[i], out + 512 + 128 * i);
    for (int i = 0; i < 8; i++) encode_ref(&h->map[i], out + 1024 + 128 * i);
    put32(out + CHECK_AT, crc32c(out, CHECK_AT));
}

static int is_map_slot(const struct header *h, uint32_t i, const struct ref *r) {
    uint32_t level = h->zones <= 8 ? 0 : h->zones <= 64 ? 1 : 2;
    uint32_t zone = i << 3 * level;
    if (zone >= h->zones) return r->kind == EMPTY;
    uint64_t place = ZONE_BYTES * zone + 65536 + 16384 * ((h->number - 1) % 4) + 1024 * level;
    return r->kind == (level == 0 ? MAP_LEAF : MAP_NODE) && r->key == ZONE_BYTES * zone
        && r->keybits == 25 + 3 * level && r->place == place && r->id == h->number;
}

static int read_header(const uint8_t *b, uint32_t slot, struct header *h) {
    if (memcmp(b, "H2VOLUME", 8) != 0 || get32(b + 8) != 1) return 0;
    if (get32(b + CHECK_AT) != crc32c(b, CHECK_AT)) return 0;
    h->zones = get32(b + 12);
    h->number = get64(b + 16);
    h->map_number = get64(b + 24);
    h->next_pfs = get64(b + 32);
    if (h->zones < 4 || h->zones > 512 || h->number == 0 || h->number > 1ull << 62) return 0;
    if ((h->number - 1) % 4 != slot || h->map_number != h->number) return 0;
    if (h->next_pfs < 2 || h->next_pfs > 1ull << 62 || !are_zeros(b, 40, 512)) return 0;
    for (int i = 0; i < 4; i++) {
        struct ref *r = &h->root[i];
        if (!decode_ref(b + 512 + 128 * i, r) || r->kind > INDIRECT || r->key >= 1ull << 62) return 0;
        if (i > 0 && !may_follow(r - 1, r)) return 0;
    }
    for (int i = 0; i < 8; i++)
        if (!decode_ref(b + 1024 + 128 * i, &h->map[i]) || !is_map_slot(h, i, &h->map[i])) return 0;
    return are_zeros(b, 2048, CHECK_AT);
}

/* Inodes */

static void encode_inode(const struct inode *n, uint8_t *b) {
    memset(b, 0, 1024);
    b[0] = n->kind;
    b[1] = n->has_bytes;
    put32(b + 4, n->links);
    put64(b + 8, n->number);
    put64(b + 16, n->size);
    put64(b + 24, n->next);
    put16(b + 32, n->name_len);
    memcpy(b + 48, n->name, n->name_len);
    if (n->has_bytes) memcpy(b + 512, n->body.bytes, 512);
    else
        for (int i = 0; i < n->body.set.len; i++) encode_ref(&n->body.set.refs[i], b + 512 + 128 * i);
}

static int is_name(const uint8_t *name, size_t len) {
    if (len == 0 || len > 64) return 0;
    for (size_t i = 0; i < len; i++) {
        uint8_t c = name[i];
        if (!((c >= 'a' && c <= 'z') || (c >= 'A' && c <= 'Z') || (c >= '0' && c <= '9') || c == '.' || c == '_' || c == '-'))
            return 0;
    }
    return 1;
}

static int is_part_of(const struct inode *n, const struct ref *r) {
    if (n->kind == DIRECTORY ? r->key < 1ull << 63 : r->key >= 1ull << 62) return 0;
    if (r->kind == INDIRECT) return 1;
    if (n->kind == DIRECTORY) return r->kind == DIRENT;
    if (n->kind == FILE_INODE) return r->kind == CONTENT && r->key < n->size;
    return r->kind == INODE;
}

static int decode_set(const uint8_t *b, uint8_t capacity, struct set *set) {
    set->capacity = capacity;
    set->len = 0;
    for (int i = 0; i < capacity; i++) {
        struct ref *r = &set->refs[set->len];
        if (!decode_ref(b + 128 * i, r)) return 0;
        if (r->kind == EMPTY) continue;
        if (set->len != i || (i > 0 && !may_follow(r - 1, r))) return 0;
        set->len++;
    }
    return 1;
}

static int decode_head(const uint8_t *b, struct inode *n) {
    n->kind = b[0];
    n->has_bytes = b[1];
    n->links = get32(b + 4);
    n->number = get64(b + 8);
    n->size = get64(b + 16);
    n->next = get64(b + 24);
    uint16_t len = get16(b + 32);
    if (n->kind < DIRECTORY || n->kind > PFS || n->has_bytes != (n->kind == FILE_INODE && n->size <= 512)) return 0;
    if (n->kind == FILE_INODE ? n->links > 65535 : n->links != 1) return 0;
    if (n->number == 0 || n->number >= 1ull << 62) return 0;
    if (n->size > (n->kind == DIRECTORY ? 4096 : n->kind == FILE_INODE ? 1ull << 40 : 0)) return 0;
    if (n->kind == PFS ? n->next < 2 || n->next > 1ull << 62 : n->next != 0) return 0;
    if (n->kind == PFS ? !is_name(b + 48, len) : len != 0) return 0;
    n->name_len = (uint8_t)len;
    memcpy(n->name, b + 48, len);
    return are_zeros(b, 2, 4) && are_zeros(b, 34, 48) && are_zeros(b, 48 + len, 512);
}

static int decode_inode(const uint8_t *b, struct inode *n) {
    if (!decode_head(b, n)) return 0;
    if (n->has_bytes) {
        memcpy(n->body.bytes, b + 512, 512);
        return are_zeros(b, 512 + n->size, 1024);
    }
    if (!decode_set(b + 512, 4, &n->body.set)) return 0;
    for (int i = 0; i < n->body.set.len; i++)
        if (!is_part_of(n, &n->body.set.refs[i])) return 0;
    return 1;
}

/* Samples */

static struct ref block_ref(uint8_t kind, uint8_t radix, unsigned i) {
    struct ref r = {0};
    r.kind = kind;
    r.key = 1 + i;
    r.place = 4194304 + 16384ull * i;
    r.radix = radix;
    r.id = 1 + i;
    r.method = XX;
    r.check = (i + 1ull) * SPREAD;
    return r;
}

static struct ref inode_ref(unsigned i) { return block_ref(INODE, 10, i); }

static struct ref content_ref(unsigned i) {
    struct ref r = block_ref(CONTENT, 14, i);
    r.key = 16384ull * i;
    r.keybits = 14;
    return r;
}

static struct ref indirect_ref(unsigned i) {
    struct ref r = block_ref(INDIRECT, 12, i);
    r.key = (uint64_t)i << 20;
    r.keybits = 20;
    return r;
}

static struct ref entry(unsigned i, uint8_t radix, uint16_t len, uint8_t target) {
    struct ref r = block_ref(DIRENT, radix, i);
    r.key = (1ull << 63) + 65536ull * i;
    r.has_entry = 1;
    r.number = 1 + i;
    r.len = len;
    r.target = target;
    return r;
}

static struct ref short_entry(unsigned i) {
    struct ref r = entry(i, 0, 18, 2);
    r.place = 0;
    r.method = NO_CHECK;
    r.check = 0;
    memcpy(r.name, "_read_me_first.txt", 18);
    r.name[0] = (uint8_t)('a' + i % 26);
    return r;
}

static struct ref long_entry(unsigned i) { return entry(i, 10, 255, 1); }

static struct ref leaf_ref(unsigned zone) {
    struct ref r = block_ref(MAP_LEAF, 10, 0);
    r.key = ZONE_BYTES * zone;
    r.keybits = 25;
    r.place = r.key + 65536 + 16384;
    r.id = 6;
    r.method = CRC;
    r.check = 0xa0b0c0d0u + zone;
    return r;
}

enum { REFERENCES = 60, INODES = 12 };

static struct ref sample_ref(unsigned i) {
    switch (i % 5) {
    case 0: return inode_ref(i);
    case 1: return indirect_ref(i);
    case 2: return content_ref(i);
    case 3: return short_entry(i);
    default: return long_entry(i);
    }
}

static struct header sample_header(void) {
    struct header h = {0};
    h.number = h.map_number = 6;
    h.zones = 8;
    h.next_pfs = 4;
    h.root[0] = inode_ref(0);
    h.root[1] = inode_ref(2);
    for (unsigned zone = 0; zone < 8; zone++) h.map[zone] = leaf_ref(zone);
    return h;
}

static void put_sample_inode(unsigned i, struct inode *n) {
    unsigned first = i % 32 * 4;
    memset(n, 0, sizeof *n);
    n->kind = (uint8_t)(1 + i % 3);
    n->number = 1 + i;
    n->links = 1;
    n->body.set.capacity = n->body.set.len = 4;
    for (unsigned k = 0; k < 4; k++)
        n->body.set.refs[k] = n->kind == FILE_INODE ? content_ref(first + k)
                              : n->kind == PFS      ? inode_ref(first + k)
                              : k % 2 == 0          ? short_entry(first + k)
                                                    : long_entry(first + k);
    if (n->kind == DIRECTORY) n->size = 4;
    if (n->kind == FILE_INODE) n->size = 1ull << 39;
    if (n->kind == PFS) {
        n->next = 200;
        n->name_len = 9;
        memcpy(n->name, "A_name.90", 9);
    }
}

/* The work */

static uint64_t number_of(const struct ref *r) {
    uint64_t entry = r->has_entry ? r->number ^ get64(r->name) : 0;
    return r->key ^ r->place ^ r->id ^ r->check ^ entry;
}

static struct ref refs[REFERENCES];
static uint8_t spellings[REFERENCES][128];
static struct header sample;
static uint8_t block[65536], out[65536];
static struct inode inodes[INODES];
static uint8_t inode_blocks[INODES][1024];

static void make_samples(void) {
    for (unsigned i = 0; i < REFERENCES; i++) {
        refs[i] = sample_ref(i);
        encode_ref(&refs[i], spellings[i]);
    }
    sample = sample_header();
    write_header(&sample, block);
    for (unsigned i = 0; i < INODES; i++) {
        put_sample_inode(i, &inodes[i]);
        encode_inode(&inodes[i], inode_blocks[i]);
    }
}

static uint64_t encode_refs(uint64_t joined) {
    for (int i = 0; i < REFERENCES; i++) {
        uint8_t b[128];
        encode_ref(&refs[i], b);
        joined = join(joined, get64(b + 8 * (joined % 16)));
    }
    return joined;
}

static uint64_t decode_refs(uint64_t joined) {
    for (int i = 0; i < REFERENCES; i++) {
        struct ref r;
        uint64_t number = decode_ref(spellings[i], &r) ? number_of(&r) : 1;
        joined = join(joined, number);
    }
    return joined;
}

static uint64_t encode_header(uint64_t joined) {
    write_header(&sample, out);
    return join(joined, get64(out + 8 * (joined % 256)) ^ get32(out + CHECK_AT));
}

static uint64_t decode_header(uint64_t joined) {
    struct header h;
    uint64_t number = 1;
    if (read_header(block, 1, &h)) number = h.number ^ h.next_pfs ^ number_of(&h.root[1]) ^ number_of(&h.map[7]);
    return join(joined, number);
}

static uint64_t encode_inodes(uint64_t joined) {
    for (int i = 0; i < INODES; i++) {
        uint8_t b[1024];
        encode_inode(&inodes[i], b);
        joined = join(joined, get64(b + 8 * (joined % 128)));
    }
    return joined;
}

static uint64_t decode_inodes(uint64_t joined) {
    for (int i = 0; i < INODES; i++) {
        struct inode n;
        uint64_t number = 1;
        if (decode_inode(inode_blocks[i], &n)) {
            uint64_t held = n.has_bytes          ? get64(n.body.bytes)
                            : n.body.set.len > 0 ? number_of(&n.body.set.refs[n.body.set.len - 1])
                                                 : 0;
            number = n.number ^ n.size ^ n.next ^ n.links ^ held;
        }
        joined = join(joined, number);
    }
    return joined;
}

static const struct work {
    const char *codec;
    uint64_t (*encode)(uint64_t), (*decode)(uint64_t);
} works[] = {
    {"references", encode_refs, decode_refs},
    {"headers", encode_header, decode_header},
    {"inodes", encode_inodes, decode_inodes},
};

static uint64_t passes_of(uint64_t (*pass)(uint64_t), unsigned passes) {
    uint64_t joined = 0;
    for (unsigned i = 0; i < passes; i++) joined = pass(joined);
    return joined;
}

static uint64_t nanoseconds_now(void) {
    struct timespec now;
    clock_gettime(CLOCK_MONOTONIC, &now);
    return (uint64_t)now.tv_sec * 1000000000ull + (uint64_t)now.tv_nsec;
}

static int print_checks(void) {
    for (int i = 0; i < 3; i++) {
        unsigned long long encoded = passes_of(works[i].encode, 3), decoded = passes_of(works[i].decode, 3);
        printf("%s encode %016llx decode %016llx\n", works[i].codec, encoded, decoded);
    }
    return 0;
}

static int print_time(const struct work *w, int is_encode, unsigned passes) {
    uint64_t start = nanoseconds_now();
    uint64_t joined = passes_of(is_encode ? w->encode : w->decode, passes);
    uint64_t taken = nanoseconds_now() - start;
    printf("%llu %016llx\n", (unsigned long long)taken, (unsigned long long)joined);
    return 0;
}

int main(int argc, char **argv) {
    fill_table();
    make_samples();
    if (argc == 2 && strcmp(argv[1], "check") == 0) return print_checks();
    if (argc == 5 && strcmp(argv[1], "time") == 0)
        for (int i = 0; i < 3; i++)
            if (strcmp(argv[2], works[i].codec) == 0)
                return print_time(&works[i], strcmp(argv[3], "encode") == 0, (unsigned)strtoul(argv[4], NULL, 10));
    fputs("usage: codecs check | time references|headers|inodes encode|decode PASSES\n", stderr);
    return 2;
}
