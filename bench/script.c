/* Plain C bodies of reading a script and of telling its history, for bench/script. The words of the
   command line and the printed line are those of the crate h2_script_bench.

   Reading cuts the bytes into lines and words, and keeps names and data in memory of their own, as the
   proved body does. Telling sorts the entries by phase, client and index, and appends their lines. */
#include <stdint.h>
#include <stdio.h>
#include <stdlib.h>
#include <string.h>
#include <time.h>

typedef struct { uint8_t *bytes; uint32_t len; } Bytes;
typedef struct { Bytes pfs; Bytes *names; uint32_t count; } Path;

enum Kind { MKDIR, CREATE, LINK, RM, RMDIR, MV, LS, STAT, OPEN, CLOSE, READ, WRITE, CUT, SYNC, BULKFREE, SNAPSHOT, PFS_CREATE, PFS_DELETE, PFS_LIST, KINDS };
enum Form { ENTRY, ENTRIES, ANY, HANDLE, RANGE, DATA, SIZE, NONE, NAMES, NAME };

static const struct { const char *word; enum Form form; int words; } VERBS[KINDS] = {
    {"mkdir", ENTRY, 1}, {"create", ENTRY, 1}, {"link", ENTRIES, 2}, {"rm", ENTRY, 1}, {"rmdir", ENTRY, 1}, {"mv", ENTRIES, 2}, {"ls", ANY, 1},
    {"stat", ANY, 1}, {"open", ANY, 1}, {"close", HANDLE, 1}, {"read", RANGE, 3}, {"write", DATA, 3}, {"cut", SIZE, 2}, {"sync", NONE, 0},
    {"bulkfree", NONE, 0}, {"snapshot", NAMES, 2}, {"pfs-create", NAME, 1}, {"pfs-delete", NAME, 1}, {"pfs-list", NONE, 0}};

typedef struct {
    uint32_t phase, client, handle, len;
    enum Kind kind;
    uint64_t off;
    Path a, b;
    Bytes data;
    int repeat, byte;
} Command;

typedef struct { Command *commands; size_t count, room; uint32_t phases; } Script;
typedef struct { const uint8_t *at; size_t len; } Word;

static uint64_t count, joined;

static void add(uint64_t value) { joined = (joined << 5 | joined >> 59) ^ value; }

static int is_utf8(const uint8_t *s, size_t n) {
    size_t i = 0;
    while (i < n) {
        uint8_t b = s[i];
        size_t more = b < 0x80 ? 0 : b >= 0xc2 && b < 0xe0 ? 1 : b >= 0xe0 && b < 0xf0 ? 2 : b >= 0xf0 && b < 0xf5 ? 3 : 9;
        if (more == 9 || i + more >= n) return 0;
        if ((b == 0xe0 && s[i + 1] < 0xa0) || (b == 0xed && s[i + 1] > 0x9f) || (b == 0xf0 && s[i + 1] < 0x90) || (b == 0xf4 && s[i + 1] > 0x8f)) return 0;
        for (size_t k = 1; k <= more; k++) if ((s[i + k] & 0xc0) != 0x80) return 0;
        i += more + 1;
    }
    return 1;
}

static int number(Word w, uint64_t *out) {
    uint64_t n = 0;
    if (w.len == 0 || (w.len > 1 && w.at[0] == '0')) return 0;
    for (size_t i = 0; i < w.len; i++) {
        if (w.at[i] < '0' || w.at[i] > '9') return 0;
        if (__builtin_mul_overflow(n, 10, &n) || __builtin_add_overflow(n, w.at[i] - '0', &n)) return 0;
    }
    *out = n;
    return 1;
}

static Bytes copy(const uint8_t *at, size_t len) {
    Bytes b = {malloc(len), (uint32_t)len};
    memcpy(b.bytes, at, len);
    return b;
}

static int is_pfs_name(Word w) {
    if (w.len < 1 || w.len > 64) return 0;
    for (size_t i = 0; i < w.len; i++) {
        uint8_t b = w.at[i];
        if (!((b >= '0' && b <= '9') || (b >= 'A' && b <= 'Z') || (b >= 'a' && b <= 'z') || b == '.' || b == '_' || b == '-')) return 0;
    }
    return 1;
}

static int is_name(const uint8_t *s, size_t n) {
    if (n < 1 || n > 255 || (n == 1 && s[0] == '.') || (n == 2 && s[0] == '.' && s[1] == '.')) return 0;
    for (size_t i = 0; i < n; i++) if (s[i] <= 32 || s[i] == 127) return 0;
    return 1;
}

static int path(Word w, Path *p, int entry) {
    const uint8_t *colon = memchr(w.at, ':', w.len);
    if (colon == NULL) return 0;
    Word pfs = {w.at, (size_t)(colon - w.at)};
    const uint8_t *at = colon + 1, *end = w.at + w.len;
    if (at == end || *at != '/' || !is_pfs_name(pfs)) return 0;
    at++;
    p->pfs = copy(pfs.at, pfs.len);
    p->names = NULL, p->count = 0;
    uint32_t room = 0;
    while (at != end || p->count > 0) {
        const uint8_t *slash = memchr(at, '/', (size_t)(end - at));
        const uint8_t *stop = slash == NULL ? end : slash;
        if (!is_name(at, (size_t)(stop - at))) return 0;
        if (p->count == room) room = room == 0 ? 4 : 2 * room, p->names = realloc(p->names, room * sizeof(Bytes));
        p->names[p->count++] = copy(at, (size_t)(stop - at));
        if (slash == NULL) break;
        at = slash + 1;
    }
    return !entry || p->count > 0;
}

static int digit(uint8_t b) {
    return b >= '0' && b <= '9' ? b - '0' : b >= 'a' && b <= 'f' ? b - 'a' + 10 : b >= 'A' && b <= 'F' ? b - 'A' + 10 : -1;
}

static int data(Word w, Command *c) {
    if (w.len < 2 || w.at[1] != ':') return 0;
    if (w.at[0] == 'x') {
        size_t n = w.len - 2;
        if (n % 2 != 0) return 0;
        c->data = (Bytes){malloc(n / 2), (uint32_t)(n / 2)};
        for (size_t i = 0; i < n / 2; i++) {
            int high = digit(w.at[2 + 2 * i]), low = digit(w.at[3 + 2 * i]);
            if (high < 0 || low < 0) return 0;
            c->data.bytes[i] = (uint8_t)(high << 4 | low);
        }
        return n / 2 <= 1048576;
    }
    if (w.at[0] != 'r') return 0;
    const uint8_t *colon = memchr(w.at + 2, ':', w.len - 2);
    if (colon == NULL) return 0;
    uint64_t times, byte;
    if (!number((Word){w.at + 2, (size_t)(colon - w.at) - 2}, &times) || !number((Word){colon + 1, (size_t)(w.at + w.len - colon) - 1}, &byte)) return 0;
    c->repeat = 1, c->len = (uint32_t)times, c->byte = (int)byte;
    return byte <= 255 && times <= 1048576;
}

static int handle(Word w, uint32_t *out) {
    uint64_t n;
    if (!number(w, &n) || n > UINT32_MAX) return 0;
    *out = (uint32_t)n;
    return 1;
}

static int arguments(const Word *w, Command *c) {
    uint64_t n;
    switch (VERBS[c->kind].form) {
    case ENTRY: return path(w[0], &c->a, 1);
    case ENTRIES: return path(w[0], &c->a, 1) && path(w[1], &c->b, 1) && c->a.pfs.len == c->b.pfs.len && memcmp(c->a.pfs.bytes, c->b.pfs.bytes, c->a.pfs.len) == 0;
    case ANY: return path(w[0], &c->a, 0);
    case HANDLE: return handle(w[0], &c->handle);
    case RANGE: if (!handle(w[0], &c->handle) || !number(w[1], &c->off) || !number(w[2], &n) || n > 1048576) return 0; c->len = (uint32_t)n; return 1;
    case DATA: return handle(w[0], &c->handle) && number(w[1], &c->off) && data(w[2], c);
    case SIZE: return handle(w[0], &c->handle) && number(w[1], &c->off);
    case NONE: return 1;
    case NAMES: if (!is_pfs_name(w[0]) || !is_pfs_name(w[1])) return 0; c->a.pfs = copy(w[0].at, w[0].len), c->b.pfs = copy(w[1].at, w[1].len); return 1;
    default: if (!is_pfs_name(w[0])) return 0; c->a.pfs = copy(w[0].at, w[0].len); return 1;
    }
}

static int line(const uint8_t *at, size_t len, Script *s, uint32_t counts[3], uint64_t *asked) {
    if (len > 0 && at[len - 1] == '\r') len--;
    if (!is_utf8(at, len)) return 0;
    if (len == 0 || at[0] == '#') return 1;
    if (len == 3 && memcmp(at, "---", 3) == 0) { s->phases++; return 1; }
    Word words[6];
    int n = 0;
    for (size_t from = 0, i = 0; i <= len && n < 6; i++) {
        if (i == len || at[i] == ' ') words[n++] = (Word){at + from, i - from}, from = i + 1;
    }
    if (words[0].len != 1 || words[0].at[0] < '0' || words[0].at[0] > '7' || n < 2) return 0;
    Command c;
    memset(&c, 0, sizeof c);
    c.phase = s->phases, c.client = (uint32_t)(words[0].at[0] - '0');
    int kind = 0;
    while (kind < KINDS && !(strlen(VERBS[kind].word) == words[1].len && memcmp(VERBS[kind].word, words[1].at, words[1].len) == 0)) kind++;
    if (kind == KINDS || n != 2 + VERBS[kind].words) return 0;
    c.kind = (enum Kind)kind;
    if (!arguments(words + 2, &c)) return 0;
    counts[0]++, counts[1] += kind == LS, counts[2] += kind == BULKFREE, *asked += kind == READ ? c.len : 0;
    if (counts[0] > 65536 || counts[1] > 256 || counts[2] > 1024 || *asked > 67108864) return 0;
    if (s->count == s->room) s->room = s->room == 0 ? 4 : 2 * s->room, s->commands = realloc(s->commands, s->room * sizeof(Command));
    s->commands[s->count++] = c;
    return 1;
}

static int parse(const uint8_t *bytes, size_t len, Script *s) {
    uint32_t counts[3] = {0, 0, 0};
    uint64_t asked = 0;
    memset(s, 0, sizeof *s);
    if (len > 4194304) return 0;
    for (const uint8_t *at = bytes, *end = bytes + len;;) {
        const uint8_t *stop = memchr(at, '\n', (size_t)(end - at));
        if (!line(at, (size_t)((stop == NULL ? end : stop) - at), s, counts, &asked)) return 0;
        if (stop == NULL) return 1;
        at = stop + 1;
    }
}

static void free_path(Path *p) {
    free(p->pfs.bytes);
    for (uint32_t i = 0; i < p->count; i++) free(p->names[i].bytes);
    free(p->names);
}

static void free_script(Script *s) {
    for (size_t i = 0; i < s->count; i++) free_path(&s->commands[i].a), free_path(&s->commands[i].b), free(s->commands[i].data.bytes);
    free(s->commands);
}

static void add_bytes(Bytes b) { for (uint32_t i = 0; i < b.len; i++) add(b.bytes[i]); }

static void add_path(const Path *p) {
    add_bytes(p->pfs);
    for (uint32_t i = 0; i < p->count; i++) add_bytes(p->names[i]);
}

static void add_command(const Command *c) {
    add(c->client), count++;
    switch (c->kind) {
    case CREATE: case LS: add_path(&c->a); return;
    case MV: add_path(&c->a), add_path(&c->b); return;
    case READ: add(c->handle), add(c->off), add(c->len); return;
    case WRITE:
        add(c->handle), add(c->off);
        if (c->repeat) add(c->len), add((uint64_t)c->byte); else add_bytes(c->data);
        return;
    default: add(1);
    }
}

/* A command with its reply: so many bytes, or the names of `ls`. */
typedef struct { uint32_t phase, client, index, number; enum Kind kind; uint8_t *bytes; char (*names)[24]; } Entry;

enum { LISTED = 64 };

static Entry *history_of(const Script *s) {
    Entry *entries = calloc(s->count, sizeof *entries);
    uint32_t next[8] = {0};
    for (size_t i = 0; i < s->count; i++) {
        const Command *c = &s->commands[i];
        Entry e = {c->phase, c->client, next[c->client]++, 0, c->kind, NULL, NULL};
        if (c->kind == READ) {
            e.number = c->len, e.bytes = malloc(c->len);
            for (uint32_t k = 0; k < c->len; k++) e.bytes[k] = (uint8_t)k;
        } else if (c->kind == WRITE) {
            e.number = c->repeat ? c->len : c->data.len;
        } else if (c->kind == LS) {
            e.number = LISTED, e.names = malloc(LISTED * sizeof *e.names);
            for (int k = 0; k < LISTED; k++) sprintf(e.names[k], "file-number-%d", k);
        }
        entries[i] = e;
    }
    return entries;
}

static int by_place(const void *x, const void *y) {
    const Entry *a = *(Entry *const *)x, *b = *(Entry *const *)y;
    if (a->phase != b->phase) return a->phase < b->phase ? -1 : 1;
    if (a->client != b->client) return a->client < b->client ? -1 : 1;
    return a->index < b->index ? -1 : a->index > b->index;
}

typedef struct { uint8_t *bytes; size_t len, room; } Text;

static void put(Text *t, const void *bytes, size_t len) {
    if (t->len + len > t->room) {
        t->room = 2 * t->room > t->len + len ? 2 * t->room : t->len + len;
        t->bytes = realloc(t->bytes, t->room);
    }
    memcpy(t->bytes + t->len, bytes, len);
    t->len += len;
}

static void put_entry(Text *t, const Entry *e) {
    char line[96];
    static const char DIGITS[] = "0123456789abcdef";
    put(t, line, (size_t)sprintf(line, "%u %u ", e->client, e->index));
    switch (e->kind) {
    case READ: {
        put(t, line, (size_t)sprintf(line, "data %u", e->number));
        if (e->number == 0) break;
        uint8_t *digits = malloc(2 * (size_t)e->number + 1);
        digits[0] = ' ';
        for (uint32_t i = 0; i < e->number; i++) digits[1 + 2 * i] = (uint8_t)DIGITS[e->bytes[i] >> 4], digits[2 + 2 * i] = (uint8_t)DIGITS[e->bytes[i] & 15];
        put(t, digits, 2 * (size_t)e->number + 1);
        free(digits);
        break;
    }
    case WRITE: put(t, line, (size_t)sprintf(line, "wrote %u", e->number)); break;
    case LS:
        put(t, line, (size_t)sprintf(line, "list %u", e->number));
        for (uint32_t i = 0; i < e->number; i++) put(t, " ", 1), put(t, e->names[i], strlen(e->names[i]));
        break;
    case BULKFREE: put(t, line, (size_t)sprintf(line, "bulk seen %d staged %d freed %d", 2, 1, 0)); break;
    default: put(t, "ok", 2);
    }
    put(t, "\n", 1);
}

static Text text(Entry *entries, size_t n) {
    Entry **sorted = malloc(n * sizeof *sorted);
    Text t = {NULL, 0, 0};
    for (size_t i = 0; i < n; i++) sorted[i] = &entries[i];
    qsort(sorted, n, sizeof *sorted, by_place);
    for (size_t i = 0; i < n; i++) put_entry(&t, sorted[i]);
    free(sorted);
    return t;
}

static uint64_t nanoseconds_now(void) {
    struct timespec now;
    clock_gettime(CLOCK_MONOTONIC, &now);
    return (uint64_t)now.tv_sec * 1000000000ull + (uint64_t)now.tv_nsec;
}

int main(int argc, char **argv) {
    if (argc != 5 || strcmp(argv[1], "time") != 0) {
        fputs("usage: script time parse|text FILE PASSES\n", stderr);
        return 2;
    }
    static uint8_t bytes[4194305];
    FILE *file = fopen(argv[3], "rb");
    if (file == NULL) return 1;
    size_t len = fread(bytes, 1, sizeof bytes, file);
    fclose(file);
    unsigned passes = (unsigned)strtoul(argv[4], NULL, 10);
    Script script;
    uint64_t start = nanoseconds_now(), spent;
    if (strcmp(argv[2], "parse") == 0) {
        for (unsigned pass = 0; pass < passes; pass++) {
            if (pass > 0) free_script(&script);
            if (!parse(bytes, len, &script)) return 3;
        }
        spent = nanoseconds_now() - start;
        for (size_t i = 0; i < script.count; i++) add_command(&script.commands[i]);
    } else {
        Text told = {NULL, 0, 0};
        if (!parse(bytes, len, &script)) return 3;
        Entry *entries = history_of(&script);
        start = nanoseconds_now();
        for (unsigned pass = 0; pass < passes; pass++) {
            free(told.bytes);
            told = text(entries, script.count);
        }
        spent = nanoseconds_now() - start;
        for (size_t i = 0; i < told.len; i++) add(told.bytes[i]);
        count = told.len;
    }
    printf("%llu %llu %016llx\n", (unsigned long long)spent, (unsigned long long)count, (unsigned long long)joined);
    return 0;
}
