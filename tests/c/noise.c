/* Damages lines and dumps in every single way, and holds ihex_read_record and ihex_load to what they promise of noise: one character
 * changed, lost or added, two neighbours swapped, one slip in each line, a dump cut off. Loaders with a fault of their own must be found.
 * The last line is 'N passed, M failed'. */
#include <ihex.h>
#include <stdio.h>
#include <string.h>

#define MOST 640     /* bytes of a text */
#define PLACES 53    /* of a window, whose marks have unused bits */
#define POOL 300     /* bytes of a pool */
#define AT 7         /* the position in it */
#define TRIES 4000   /* texts with a slip in each line */
#define BYTES 256    /* how many bytes there are */
#define NO_DIGIT 16  /* for a byte that is not a digit */
#define TYPES 6      /* of records */
#define FRAME 5      /* bytes of a record beside its payload */
#define TYPE 3       /* where its type stands */
#define OLD 0x5C

static int passed, failed;

static void check(int holds, const char *what, const char *of)
{
    if (holds)
        passed++;
    else
        failed++, printf("FAILED %s: %s\n", what, of);
}

/* ---- lines */

static const char *const lines[] = {
    ":0B0010006164647265737320676170A7", ":0000000000", ":01ABCD00EF98", ":00000001FF", ":00123401B9",
    ":020000021200EA", ":0400000300003800C1", ":02000004FFFFFC", ":04000005000000CD2A", ":0b0010006164647265737320676170a7",
};

struct answer {
    uint32_t code;
    uint64_t a, b, c;
    uint8_t pool[POOL];
};

static struct answer read_line(const uint8_t *line, size_t n)
{
    struct answer r;
    memset(&r, 0, sizeof r);
    memset(r.pool, OLD, sizeof r.pool);
    r.code = ihex_read_record(line, n, r.pool, sizeof r.pool, AT, &r.a, &r.b, &r.c);
    return r;
}

/* the value of a hexadecimal digit, and NO_DIGIT for any other byte */
static int value_of(int c)
{
    if (c >= '0' && c <= '9') return c - '0';
    if (c >= 'A' && c <= 'F') return c - 'A' + 10;
    return c >= 'a' && c <= 'f' ? c - 'a' + 10 : NO_DIGIT;
}

static int byte_at(const uint8_t *line, size_t i)
{
    return value_of(line[i]) * 16 + value_of(line[i + 1]);
}

/* the checksum that the bytes of a line ask for, but for the last */
static unsigned sum_of(const uint8_t *line, size_t n)
{
    unsigned sum = 0;
    for (size_t i = 1; i + 2 < n; i += 2)
        sum += (unsigned)byte_at(line, i);
    return (BYTES - sum % BYTES) % BYTES;
}

/* what is to be answered where the byte at a position, of a line that gave `was`, became another */
static struct answer expected(struct answer was, const uint8_t *line, size_t n, size_t at, int old)
{
    struct answer r;
    if (at > 0 && value_of(line[at]) == value_of(old))
        return was;
    memset(&r, 0, sizeof r);
    memset(r.pool, OLD, sizeof r.pool);
    if (at == 0) {
        r.code = IHEX_REFUSED + IHEX_MISSING_START_CODE;
    } else if (value_of(line[at]) == NO_DIGIT) {
        r.code = IHEX_REFUSED + IHEX_CONTAINS_INVALID_CHARACTERS;
        r.a = at;
    } else {
        r.code = IHEX_REFUSED + IHEX_CHECKSUM_MISMATCH;
        r.a = sum_of(line, n);
        r.b = (uint64_t)byte_at(line, n - 2);
    }
    return r;
}

static int same_answer(struct answer x, struct answer y)
{
    return x.code == y.code && x.a == y.a && x.b == y.b && x.c == y.c && memcmp(x.pool, y.pool, sizeof x.pool) == 0;
}

/* every other byte at every position of a line that gives a record: how many are answered as promised */
static size_t wrong_characters(const uint8_t *line, size_t n)
{
    struct answer was = read_line(line, n);
    uint8_t other[MOST];
    size_t right = 0;
    memcpy(other, line, n);
    for (size_t k = 0; k < n * BYTES; k++) {
        size_t at = k / BYTES;
        other[at] = (uint8_t)(k % BYTES);
        if (other[at] != line[at])
            right += same_answer(read_line(other, n), expected(was, other, n, at, line[at]));
        other[at] = line[at];
    }
    return was.code < IHEX_REFUSED ? right : 0;
}

/* the longest line: a data record of 255 bytes */
static size_t longest(uint8_t *line)
{
    static const char digits[] = "0123456789ABCDEF";
    uint8_t bytes[IHEX_MAX_PAYLOAD + FRAME] = {IHEX_MAX_PAYLOAD, 0x12, 0x34, IHEX_DATA};
    line[0] = ':';
    for (size_t i = 0; i < sizeof bytes; i++) {
        if (i >= FRAME - 1)
            bytes[i] = i + 1 < sizeof bytes ? (uint8_t)(i * 7) : ihex_checksum(bytes, i);
        line[1 + 2 * i] = (uint8_t)digits[bytes[i] / 16];
        line[2 + 2 * i] = (uint8_t)digits[bytes[i] % 16];
    }
    return IHEX_MAX_LINE;
}

static void wrong_lines(void)
{
    size_t all = 0, right = 0;
    for (size_t k = 0; k <= sizeof lines / sizeof *lines; k++) {
        uint8_t line[MOST];
        int last = k == sizeof lines / sizeof *lines;
        size_t n = last ? longest(line) : strlen(lines[k]);
        if (!last)
            memcpy(line, lines[k], n);
        size_t seen = wrong_characters(line, n);
        check(seen == n * (BYTES - 1), "one wrong character of a line", last ? "the longest line" : lines[k]);
        all += n * (BYTES - 1), right += seen;
    }
    printf("-- one wrong character in a line: %lu of %lu lines answered as promised\n", (unsigned long)right, (unsigned long)all);
}

/* ---- loads */

struct load {
    uint32_t code;
    size_t line;
    uint8_t start;
    uint64_t a, b, c;
    uint8_t page[PLACES], marks[IHEX_MARKS(PLACES)];
};

typedef struct load loader(const uint8_t *text, size_t n, uint32_t first);

/* an empty answer, with page and marks as every load finds them */
static struct load unloaded(void)
{
    struct load r;
    memset(&r, 0, sizeof r);
    memset(r.page, OLD, sizeof r.page);
    memset(r.marks, OLD, sizeof r.marks);
    return r;
}

static struct load load(const uint8_t *text, size_t n, uint32_t first)
{
    struct load r = unloaded();
    r.code = ihex_load(text, n, first, r.page, PLACES, r.marks, sizeof r.marks, &r.line, &r.start, &r.a, &r.b, &r.c);
    return r;
}

static int same_load(const struct load *x, const struct load *y)
{
    return x->code == y->code && x->line == y->line && x->start == y->start && x->a == y->a && x->b == y->b && x->c == y->c &&
           memcmp(x->page, y->page, PLACES) == 0 && memcmp(x->marks, y->marks, sizeof x->marks) == 0;
}

static int untouched(const struct load *x)
{
    struct load none = unloaded();
    return memcmp(x->page, none.page, PLACES) == 0 && memcmp(x->marks, none.marks, sizeof x->marks) == 0;
}

/* what became of the loads of damaged texts: refused with every byte kept, the very same load, or neither */
struct tally {
    unsigned long refused, same, other;
};

static void count(struct tally *t, const struct load *was, loader *by, const uint8_t *text, size_t n, uint32_t first)
{
    struct load is = by(text, n, first);
    if (same_load(was, &is))
        t->same++;
    else if (is.code != IHEX_OK && untouched(&is))
        t->refused++;
    else
        t->other++;
}

/* ---- dumps */

static const struct dump {
    const char *name;
    uint32_t first;
    const char *text;
} dumps[] = {
    {"data, some of it twice", 0, ":030000004F7B0A29\n:01000400C03B\n:010002009964\n:00000001FF\n"},
    {"a type 02", 0x12000, ":020000021200EA\n:0200050077ABD7\n:00000001FF\n"},
    {"two of type 04", 0x08000000, ":020000040800F2\n:02000100D5E642\n:020000040800F2\n:00000001FF\n"},
    {"a type 03", 0, ":040000030000FA00FF\n:01002F001CB4\n:00000001FF"},
    {"a type 05", 0, ":01000000EE11\n:04000005080000CD22\n:00000001FF\n"},
    {"the same start twice", 0, ":04000005ABCDEF127E\n:0100000011EE\n:04000005abcdef127e\n:00000001FF\n"},
    {"empty lines, small letters", 0, "\n\n:02000300abcd83\n\n:00123401B9\n"},
    {"an old dump after the end record", 0, ":0100000011EE\n:00000001FF\n:0100000022DD\n:00000001FF\n"},
};

/* the dump's text, with LF or with CR LF: its length */
static size_t spelled(const struct dump *d, int with_cr, uint8_t *text)
{
    size_t n = 0;
    for (const char *c = d->text; *c; c++) {
        if (with_cr && *c == '\n')
            text[n++] = '\r';
        text[n++] = (uint8_t)*c;
    }
    return n;
}

/* ---- damage: each takes the text as it was, and counts the loads of all texts that it can become */

typedef void damage(struct tally *, const struct load *was, loader *by, const uint8_t *text, size_t n, uint32_t first);

static void changed(struct tally *t, const struct load *was, loader *by, const uint8_t *text, size_t n, uint32_t first)
{
    uint8_t other[MOST];
    memcpy(other, text, n);
    for (size_t k = 0; k < n * BYTES; k++) {
        size_t at = k / BYTES;
        other[at] = (uint8_t)(k % BYTES);
        if (other[at] != text[at])
            count(t, was, by, other, n, first);
        other[at] = text[at];
    }
}

static void lost(struct tally *t, const struct load *was, loader *by, const uint8_t *text, size_t n, uint32_t first)
{
    uint8_t other[MOST];
    for (size_t at = 0; at < n; at++) {
        memcpy(other, text, at);
        memcpy(other + at, text + at + 1, n - at - 1);
        count(t, was, by, other, n - 1, first);
    }
}

static void added(struct tally *t, const struct load *was, loader *by, const uint8_t *text, size_t n, uint32_t first)
{
    uint8_t other[MOST];
    for (size_t k = 0; k < (n + 1) * BYTES; k++) {
        size_t at = k / BYTES;
        memcpy(other, text, at);
        other[at] = (uint8_t)(k % BYTES);
        memcpy(other + at + 1, text + at, n - at);
        count(t, was, by, other, n + 1, first);
    }
}

static void swapped(struct tally *t, const struct load *was, loader *by, const uint8_t *text, size_t n, uint32_t first)
{
    uint8_t other[MOST];
    for (size_t at = 0; at + 1 < n; at++) {
        memcpy(other, text, n);
        other[at] = text[at + 1];
        other[at + 1] = text[at];
        count(t, was, by, other, n, first);
    }
}

static void cut_off(struct tally *t, const struct load *was, loader *by, const uint8_t *text, size_t n, uint32_t first)
{
    for (size_t length = 0; length < n; length++)
        count(t, was, by, text, length, first);
}

/* numbers by a fixed sequence */
static uint32_t chance_state;

static unsigned chance(unsigned under)
{
    chance_state = chance_state * 1664525u + 1013904223u;
    return (chance_state >> 8) % under;
}

/* a byte that is not an LF, and often one that a line may have */
static uint8_t any_character(void)
{
    static const char likely[] = "0123456789ABCDEFabcdef:\r";
    uint8_t c = chance(4) ? (uint8_t)likely[chance(sizeof likely - 1)] : (uint8_t)chance(BYTES);
    return c == '\n' ? ' ' : c;
}

/* one line with at most one slip, at `to`: its length */
static size_t slip(const uint8_t *line, size_t n, uint8_t *to)
{
    unsigned kind = chance(8);
    size_t at = chance((unsigned)n + 1);
    memcpy(to, line, n);
    if (kind == 0 && at < n)
        to[at] = any_character();
    if (kind == 1 && at + 1 < n)
        to[at] = line[at + 1], to[at + 1] = line[at];
    if (kind == 2 && at < n) {
        memmove(to + at, to + at + 1, n - at - 1);
        return n - 1;
    }
    if (kind == 3) {
        memmove(to + at + 1, to + at, n - at);
        to[at] = any_character();
        return n + 1;
    }
    return n;
}

/* every line with at most one slip, the LFs as they are: the length of what became of the text */
static size_t slips(const uint8_t *text, size_t n, uint8_t *other)
{
    size_t begins = 0, m = 0;
    for (size_t at = 0; at <= n; at++) {
        if (at < n && text[at] != '\n')
            continue;
        m += slip(text + begins, at - begins, other + m);
        if (at < n)
            other[m++] = '\n';
        begins = at + 1;
    }
    return m;
}

static void in_each_line(struct tally *t, const struct load *was, loader *by, const uint8_t *text, size_t n, uint32_t first)
{
    uint8_t other[MOST];
    chance_state = 6;
    for (int i = 0; i < TRIES; i++)
        count(t, was, by, other, slips(text, n, other), first);
}

static const struct kind {
    const char *name;
    damage *all;
} kinds[] = {
    {"one byte changed", changed},        {"one byte lost", lost},
    {"one byte added", added},            {"two neighbours swapped", swapped},
    {"cut off", cut_off},                 {"a slip in each line", in_each_line},
};

#define KINDS (sizeof kinds / sizeof *kinds)
#define DUMPS (sizeof dumps / sizeof *dumps)

/* one kind of damage to one dump, with LF and with CR LF */
static struct tally damaged(const struct kind *kind, const struct dump *d, loader *by)
{
    struct tally t = {0, 0, 0};
    for (int with_cr = 0; with_cr < 2; with_cr++) {
        uint8_t text[MOST];
        size_t n = spelled(d, with_cr, text);
        struct load was = by(text, n, d->first);
        if (was.code != IHEX_OK)
            t.other++;
        kind->all(&t, &was, by, text, n, d->first);
    }
    return t;
}

/* one kind of damage to every dump: both ways out are to be seen, and no other */
static void damaged_dumps(const struct kind *kind)
{
    struct tally all = {0, 0, 0};
    for (size_t k = 0; k < DUMPS; k++) {
        struct tally t = damaged(kind, &dumps[k], load);
        check(t.other == 0 && t.refused > 0, kind->name, dumps[k].name);
        all.refused += t.refused, all.same += t.same, all.other += t.other;
    }
    check(all.same > 0, kind->name, "none left the load as it was");
    printf("-- %s: %lu dumps refused, %lu loaded the same, %lu otherwise\n", kind->name, all.refused, all.same, all.other);
}

/* ---- loaders with a fault, which the damage must show */

enum fault { NO_FAULT, NO_SUM, SKIPS_BAD_LINES, NEEDS_NO_END, KEEPS_WHAT_IT_READ };

static enum fault fault;

/* the bytes of one line: how many, or -1 where it is not a good record */
static int bytes_of(const uint8_t *line, size_t n, uint8_t *bytes)
{
    unsigned sum = 0;
    if (n < 1 + 2 * FRAME || n > IHEX_MAX_LINE || n % 2 == 0 || line[0] != ':')
        return -1;
    for (size_t i = 1; i < n; i += 2) {
        if (value_of(line[i]) == NO_DIGIT || value_of(line[i + 1]) == NO_DIGIT)
            return -1;
        sum += bytes[i / 2] = (uint8_t)byte_at(line, i);
    }
    return (sum % BYTES == 0 || fault == NO_SUM) && bytes[0] == n / 2 - FRAME && bytes[TYPE] < TYPES ? bytes[0] : -1;
}

/* a start: whether none before it differs */
static int take_start(struct load *r, int type, uint32_t high, uint32_t low)
{
    uint64_t b = type == IHEX_START_SEGMENT_ADDRESS ? high : high << 16 | low;
    uint64_t c = type == IHEX_START_SEGMENT_ADDRESS ? low : 0;
    int same = r->start == IHEX_NO_START || (r->start == type && r->b == b && r->c == c);
    r->start = (uint8_t)type;
    r->b = b;
    r->c = c;
    return same;
}

/* one good record: 1 at the end of the dump, 0 where it goes on, -1 where a byte lies outside or a start differs from the first */
static int take_record(struct load *r, const uint8_t *bytes, int size, uint32_t first, uint32_t *base)
{
    int type = bytes[TYPE];
    uint32_t number = (uint32_t)(bytes[TYPE + 1] * 256 + bytes[TYPE + 2]);
    if ((type == IHEX_START_SEGMENT_ADDRESS || type == IHEX_START_LINEAR_ADDRESS) &&
        !take_start(r, type, number, (uint32_t)(bytes[TYPE + 3] * 256 + bytes[TYPE + 4])))
        return -1;
    if (type == IHEX_EXTENDED_SEGMENT_ADDRESS || type == IHEX_EXTENDED_LINEAR_ADDRESS)
        *base = type == IHEX_EXTENDED_SEGMENT_ADDRESS ? number * 16 : number << 16;
    for (int i = 0; type == IHEX_DATA && i < size; i++) {
        uint32_t place = *base + (uint32_t)(bytes[1] * 256 + bytes[2] + i) - first;
        if (place >= PLACES)
            return -1;
        r->page[place] = bytes[TYPE + 1 + i];
        r->marks[place / 8] |= (uint8_t)(1 << place % 8);
    }
    r->a += type == IHEX_DATA;
    return type == IHEX_END_OF_FILE;
}

static struct load refuse(const struct load *r)
{
    struct load none = fault == KEEPS_WHAT_IT_READ ? *r : unloaded();
    none.code = IHEX_REFUSED;
    none.start = IHEX_NO_START;
    none.b = none.c = 0;
    return none;
}

/* a whole text, by a plain loop with the fault */
static struct load faulty(const uint8_t *text, size_t n, uint32_t first)
{
    struct load r = unloaded();
    uint32_t base = 0;
    uint8_t bytes[MOST] = {0};
    memset(r.marks, 0, sizeof r.marks);
    for (size_t begins = 0, at = 0; at <= n; at++) {
        if (at < n && text[at] != '\n')
            continue;
        size_t length = at - begins - (at < n && at > begins && text[at - 1] == '\r');
        int size = length ? bytes_of(text + begins, length, bytes) : 0;
        if (size < 0 && fault != SKIPS_BAD_LINES)
            return refuse(&r);
        int end = length && size >= 0 ? take_record(&r, bytes, size, first, &base) : 0;
        if (end)
            return end < 0 ? refuse(&r) : r;
        begins = at + 1;
    }
    return fault == NEEDS_NO_END ? r : refuse(&r);
}

/* how many damaged dumps the faulty loader takes wrongly */
static unsigned long shown(enum fault by)
{
    unsigned long other = 0;
    fault = by;
    for (size_t k = 0; k < KINDS * DUMPS; k++)
        other += damaged(&kinds[k / DUMPS], &dumps[k % DUMPS], faulty).other;
    return other;
}

int main(void)
{
    wrong_lines();
    for (size_t k = 0; k < KINDS; k++)
        damaged_dumps(&kinds[k]);
    check(shown(NO_FAULT) == 0, "a loader without a fault", "is said to have one");
    check(shown(NO_SUM) > 0, "a loader that does not look at the sum", "is not found");
    check(shown(SKIPS_BAD_LINES) > 0, "a loader that passes over bad lines", "is not found");
    check(shown(NEEDS_NO_END) > 0, "a loader that needs no end record", "is not found");
    check(shown(KEEPS_WHAT_IT_READ) > 0, "a loader that writes before it refuses", "is not found");
    printf("%d passed, %d failed\n", passed, failed);
    return failed != 0;
}
