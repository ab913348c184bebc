/* A plain C body of trees of sets of references, for bench/tree: 4 references in the root and 32 in each block below,
   in order of their keys, of 128 bytes each. A full set is split by the least aligned range of keys that holds at least
   half of its references and the new one, the lowest of several. The words of the command line and the printed lines
   are those of the crate h2_tree_bench. */
#include <stdint.h>
#include <stdio.h>
#include <stdlib.h>
#include <string.h>
#include <time.h>

enum { INDIRECT = 2, DIRENT = 4 };
enum { ROOT_CAPACITY = 4, BLOCK_CAPACITY = 32 };

struct ref {
    uint64_t key, place, id, check, number;
    uint16_t len;
    uint8_t kind, keybits, radix, method, target;
    uint8_t name[64], spare[17];
};

_Static_assert(sizeof(struct ref) == 128, "a reference has 128 bytes");

struct node {
    int capacity, len;
    struct ref refs[BLOCK_CAPACITY];
    struct node *below[BLOCK_CAPACITY];
};

static uint64_t blocks;

static struct node *new_node(int capacity) {
    struct node *n = malloc(sizeof *n);
    if (n == NULL) {
        puts("memory is wanting");
        exit(0);
    }
    n->capacity = capacity;
    n->len = 0;
    return n;
}

/* how many references have keys up to this one */
static int place_of(const struct node *n, uint64_t key) {
    int low = 0, high = n->len;
    while (low < high) {
        int middle = (low + high) / 2;
        if (n->refs[middle].key <= key) low = middle + 1;
        else high = middle;
    }
    return low;
}

/* the reference whose range holds the key, or -1 */
static int find(const struct node *n, uint64_t key) {
    int i = place_of(n, key) - 1;
    return i >= 0 && (key - n->refs[i].key) >> n->refs[i].keybits == 0 ? i : -1;
}

static void put(struct node *n, const struct ref *r, struct node *below) {
    int i = place_of(n, r->key);
    memmove(n->refs + i + 1, n->refs + i, (n->len - i) * sizeof n->refs[0]);
    memmove(n->below + i + 1, n->below + i, (n->len - i) * sizeof n->below[0]);
    n->refs[i] = *r;
    n->below[i] = below;
    n->len++;
}

/* the least aligned range that holds at least half of the keys, which are in order */
static uint64_t half_range(const uint64_t *first, const uint64_t *last, int count, int *keybits) {
    int half = (count + 1) / 2;
    uint64_t key = 0;
    *keybits = 64;
    for (int i = 0; i + half <= count; i++) {
        uint64_t differs = first[i] ^ last[i + half - 1];
        int bits = differs == 0 ? 0 : 64 - __builtin_clzll(differs);
        if (bits < *keybits) {
            *keybits = bits;
            key = first[i] >> bits << bits;
        }
    }
    return key;
}

static void split(struct node *n, const struct ref *r) {
    uint64_t first[BLOCK_CAPACITY + 1], last[BLOCK_CAPACITY + 1];
    int at = place_of(n, r->key), count = n->len + 1, keybits;
    for (int i = 0; i < count; i++) {
        const struct ref *q = i < at ? &n->refs[i] : i == at ? r : &n->refs[i - 1];
        first[i] = q->key;
        last[i] = q->key + ((1ull << q->keybits) - 1);
    }
    uint64_t key = half_range(first, last, count, &keybits);
    struct node *part = new_node(BLOCK_CAPACITY);
    int from = 0, kept;
    while (from < n->len && n->refs[from].key < key) from++;
    int to = from;
    while (to < n->len && (n->refs[to].key - key) >> keybits == 0) to++;
    part->len = to - from;
    memcpy(part->refs, n->refs + from, part->len * sizeof n->refs[0]);
    memcpy(part->below, n->below + from, part->len * sizeof n->below[0]);
    kept = n->len - to;
    memmove(n->refs + from, n->refs + to, kept * sizeof n->refs[0]);
    memmove(n->below + from, n->below + to, kept * sizeof n->below[0]);
    n->len = from + kept;
    if ((r->key - key) >> keybits == 0) put(part, r, NULL);
    else put(n, r, NULL);
    struct ref above = {.key = key, .keybits = keybits, .kind = INDIRECT, .place = 0x400000, .radix = 12, .id = r->id};
    put(n, &above, part);
    blocks++;
}

static void insert(struct node *n, const struct ref *r) {
    for (;;) {
        int i = find(n, r->key);
        if (i < 0) {
            if (n->len == n->capacity) split(n, r);
            else put(n, r, NULL);
            return;
        }
        if (n->refs[i].kind != INDIRECT) {
            n->refs[i] = *r;
            return;
        }
        n = n->below[i];
    }
}

static uint64_t lookup(const struct node *n, uint64_t key) {
    for (;;) {
        int i = find(n, key);
        if (i < 0) return 0;
        if (n->refs[i].kind != INDIRECT) return n->refs[i].number;
        n = n->below[i];
    }
}

static const uint64_t SPREAD = 0x9e3779b97f4a7c15ull;

static uint64_t join(uint64_t joined, uint64_t word) { return (joined << 5 | joined >> 59) * SPREAD ^ word; }

/* the key of entry number i, by number i + 1 of SplitMix64 from zero on */
static uint64_t key_of(uint32_t i) {
    uint64_t z = ((uint64_t)i + 1) * SPREAD;
    z = (z ^ z >> 30) * 0xbf58476d1ce4e5b9ull;
    z = (z ^ z >> 27) * 0x94d049bb133111ebull;
    return 1ull << 63 | (z ^ z >> 31) >> 1;
}

static struct ref entry(uint32_t i) {
    struct ref r = {.key = key_of(i), .kind = DIRENT, .id = 5, .number = (uint64_t)i + 1, .len = 1, .target = 2, .name = "x"};
    return r;
}

static uint64_t now(void) {
    struct timespec t;
    clock_gettime(CLOCK_MONOTONIC, &t);
    return (uint64_t)t.tv_sec * 1000000000u + (uint64_t)t.tv_nsec;
}

int main(int argc, char **argv) {
    int check = argc == 2 && strcmp(argv[1], "check") == 0;
    if (!check && !(argc == 3 && strcmp(argv[1], "time") == 0)) return 2;
    uint32_t count = check ? 1000 : (uint32_t)strtoul(argv[2], NULL, 10);
    struct node *root = new_node(ROOT_CAPACITY);
    uint64_t start = now(), joined = 0;
    for (uint32_t i = 0; i < count; i++) {
        struct ref r = entry(i);
        insert(root, &r);
    }
    uint64_t middle = now();
    for (uint32_t i = 0; i < count; i++) joined = join(joined, lookup(root, key_of(i)));
    uint64_t end = now();
    if (check) printf("%u entries %llu blocks %016llx\n", count, (unsigned long long)blocks, (unsigned long long)joined);
    else printf("%llu %llu %llu %016llx\n", (unsigned long long)(middle - start), (unsigned long long)(end - middle), (unsigned long long)blocks, (unsigned long long)joined);
    return 0;
}
