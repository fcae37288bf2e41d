/* Included once, by joined.c: texts, windows, and dumps that are made by chance, with what each of them states. */
#include <ihex.h>
#include <stdio.h>
#include <stdlib.h>
#include <string.h>

#define MOST 20000    /* bytes of a text */
#define LINES 12      /* a dump has fewer, beside its end record and empty lines */
#define FRAME 5       /* bytes of a record beside its payload */
#define SEGMENT 65536 /* places of a segment, and of the longest page */
#define NONE (-1)     /* where a dump states no byte */

static const char end_record[] = ":00000001FF";

/* numbers by a fixed sequence */
static uint64_t chance_state;

static unsigned chance(unsigned under)
{
    chance_state = chance_state * 6364136223846793005u + 1442695040888963407u;
    return (unsigned)(chance_state >> 33) % under;
}

/* ---- texts */

struct text {
    size_t n;
    uint8_t bytes[MOST];
};

static void put(struct text *t, const void *bytes, size_t n)
{
    if (n > sizeof t->bytes - t->n) {
        fprintf(stderr, "joined: a text is too long\n");
        exit(2);
    }
    memcpy(t->bytes + t->n, bytes, n);
    t->n += n;
}

static void put_string(struct text *t, const char *string)
{
    put(t, string, strlen(string));
}

static int same_text(const struct text *x, const struct text *y)
{
    return x->n == y->n && memcmp(x->bytes, y->bytes, x->n) == 0;
}

static size_t line_feeds(const struct text *t, size_t n)
{
    size_t found = 0;
    for (size_t i = 0; i < n; i++)
        found += t->bytes[i] == '\n';
    return found;
}

/* ---- dumps, made with what they state */

/* what a dump has, a bit each */
enum {
    WITH_CR = 1,           /* lines that end in CR LF */
    EMPTY_LINES = 2,       /* before the end record */
    OTHER_END = 4,         /* an end record that is not spelled :00000001FF */
    NO_LAST_LF = 8,        /* the end record ends the text, without an LF */
    OLD_TAIL = 16,         /* text after the end record */
    SEGMENT_LEFT = 32,     /* a base that is not 0 in force at its end: of a type 02 */
    LINEAR_LEFT = 64,      /* of a type 04 */
    UNBASED = 128,         /* bytes before any extension record */
    UNBASED_ACROSS = 256,  /* a record across offset FFFF before any */
    SEGMENT_ACROSS = 512,  /* in a segment */
    LINEAR_ACROSS = 1024,  /* after a type 04 */
    TOP_ACROSS = 2048      /* across 2^32 */
};

/* a start: what a load says of it; the kind is IHEX_NO_START for none */
struct start {
    uint8_t kind;
    uint64_t x, y;
};

struct window {
    uint32_t first;
    size_t places;
};

/* the latest extension record, and its base */
struct base {
    int type; /* 0 before any */
    uint64_t address;
};

struct dump {
    struct text text;
    size_t head;               /* bytes before the end record's line */
    uint64_t records;          /* data records */
    unsigned refusal;          /* the refusal that it is made for; 0 for none */
    size_t bad_line;           /* the number of the line that is refused; 0 for none */
    uint64_t bad_a, bad_b;     /* the refusal's values; 0 where there is none */
    unsigned has;              /* bits, above */
    struct start wants;        /* the start that its start records state, but for one of refusal 21 */
    struct start start;        /* the first start that it states before any line that is refused, and that line */
    size_t start_line;
    unsigned ends;             /* its line ends: 0 LF, 1 CR LF, 2 both */
    struct base base;          /* in force after the lines so far */
    int16_t states[SEGMENT];   /* the byte at each place of the window, or NONE */
};

static uint64_t address_of(const struct base *base, size_t offset, size_t i)
{
    if (base->type == IHEX_EXTENDED_LINEAR_ADDRESS)
        return (base->address + offset + i) & 0xFFFFFFFF;
    return base->address + (offset + i) % SEGMENT;
}

static int is_inside(const struct window *w, uint64_t address)
{
    return address >= w->first && address - w->first < w->places;
}

/* how many bytes of a record lie inside before the first that does not */
static size_t inside(const struct dump *d, const struct window *w, size_t offset, size_t size)
{
    size_t i = 0;
    while (i < size && is_inside(w, address_of(&d->base, offset, i)))
        i++;
    return i;
}

static void put_line_end(struct dump *d)
{
    if (d->ends == 1 || (d->ends == 2 && chance(2))) {
        put_string(&d->text, "\r");
        d->has |= WITH_CR;
    }
    put_string(&d->text, "\n");
}

/* a record's line, without its end, in capital or small letters */
static void put_record(struct dump *d, unsigned type, size_t offset, const uint8_t *payload, size_t size)
{
    const char *digits = chance(3) ? "0123456789ABCDEF" : "0123456789abcdef";
    uint8_t bytes[IHEX_MAX_PAYLOAD + FRAME] = {(uint8_t)size, (uint8_t)(offset >> 8), (uint8_t)offset, (uint8_t)type};
    uint8_t line[IHEX_MAX_LINE] = {':'};
    memcpy(bytes + FRAME - 1, payload, size);
    bytes[FRAME - 1 + size] = ihex_checksum(bytes, FRAME - 1 + size);
    for (size_t i = 0; i < FRAME + size; i++) {
        line[1 + 2 * i] = (uint8_t)digits[bytes[i] / 16];
        line[2 + 2 * i] = (uint8_t)digits[bytes[i] % 16];
    }
    put(&d->text, line, 1 + 2 * (FRAME + size));
}

static void put_base(struct dump *d, int type, unsigned number)
{
    uint8_t payload[] = {(uint8_t)(number >> 8), (uint8_t)number};
    put_record(d, (unsigned)type, chance(16) ? 0 : chance(SEGMENT), payload, sizeof payload);
    d->base.type = type;
    d->base.address = (uint64_t)(number % SEGMENT) * (type == IHEX_EXTENDED_LINEAR_ADDRESS ? SEGMENT : 16);
}

/* a base from which the window's beginning or, at times, a later part of it can be reached */
static void put_fit_base(struct dump *d, const struct window *w)
{
    uint64_t later = w->first + (uint64_t)chance((unsigned)w->places + 1);
    if (w->first < 0x100000 && chance(2))
        put_base(d, IHEX_EXTENDED_SEGMENT_ADDRESS, w->first / 16);
    else
        put_base(d, IHEX_EXTENDED_LINEAR_ADDRESS, (unsigned)((chance(2) ? w->first : later) >> 16));
}

static void put_any_base(struct dump *d)
{
    unsigned number = chance(SEGMENT);
    put_base(d, chance(2) ? IHEX_EXTENDED_SEGMENT_ADDRESS : IHEX_EXTENDED_LINEAR_ADDRESS, number);
}

/* whether the window's beginning can be reached from the base in force */
static int is_in_reach(const struct dump *d, const struct window *w)
{
    return address_of(&d->base, (size_t)((w->first - d->base.address) % SEGMENT), 0) == w->first;
}

/* notes what a data record crosses */
static void note_across(struct dump *d, size_t offset, size_t size)
{
    if (d->base.type == 0 && size > 0)
        d->has |= UNBASED;
    if (offset + size <= SEGMENT)
        return;
    if (d->base.type == IHEX_EXTENDED_LINEAR_ADDRESS)
        d->has |= d->base.address + SEGMENT > 0xFFFFFFFF ? TOP_ACROSS : LINEAR_ACROSS;
    else
        d->has |= d->base.type ? SEGMENT_ACROSS : UNBASED_ACROSS;
}

/* an offset from the base in force: of a place of the window, or short of a segment's end */
static size_t some_offset(const struct dump *d, const struct window *w)
{
    size_t place = w->places ? chance((unsigned)w->places) : 0;
    return chance(3) ? (size_t)((w->first + place - d->base.address) % SEGMENT) : SEGMENT - 1 - chance(9);
}

/* a data record that lies inside: it has no byte where none would */
static void put_data(struct dump *d, const struct window *w)
{
    uint8_t payload[IHEX_MAX_PAYLOAD];
    size_t offset = some_offset(d, w);
    size_t size = inside(d, w, offset, chance(chance(30) ? 20 : IHEX_MAX_PAYLOAD + 1));
    for (size_t i = 0; i < size; i++) {
        payload[i] = (uint8_t)chance(256);
        d->states[address_of(&d->base, offset, i) - w->first] = payload[i];
    }
    put_record(d, IHEX_DATA, offset, payload, size);
    d->records++;
    note_across(d, offset, size);
}

/* a data record with a byte outside, after a base from which there is one; at times across 2^32 */
static void put_outside(struct dump *d, const struct window *w)
{
    static const uint8_t payload[20] = {0xAA, 0xBB};
    size_t size = 2 + chance(sizeof payload - 1), offset = some_offset(d, w);
    if (chance(4) == 0) {
        offset = SEGMENT - 1 - chance((unsigned)size - 1);
        put_base(d, IHEX_EXTENDED_LINEAR_ADDRESS, SEGMENT - 1);
        put_line_end(d);
    } else if (inside(d, w, offset, size) == size) {
        put_base(d, IHEX_EXTENDED_LINEAR_ADDRESS, (w->first >> 16) + 2);
        put_line_end(d);
    }
    d->bad_line = line_feeds(&d->text, d->text.n) + 1;
    d->bad_a = address_of(&d->base, offset, inside(d, w, offset, size));
    put_record(d, IHEX_DATA, offset, payload, size);
    note_across(d, offset, size);
}

/* ---- starts */

static int same_start(const struct start *x, const struct start *y)
{
    return x->kind == y->kind && x->x == y->x && x->y == y->y;
}

/* whether both are stated, and are not the same */
static int starts_differ(const struct start *x, const struct start *y)
{
    return x->kind && y->kind && !same_start(x, y);
}

/* a start of a kind, from the 32 bits of its payload */
static struct start start_of(unsigned kind, uint32_t payload)
{
    struct start s = {(uint8_t)kind, payload, 0};
    if (kind == IHEX_START_SEGMENT_ADDRESS)
        s.x = payload >> 16, s.y = payload & 0xFFFF;
    return s;
}

static uint32_t payload_of(const struct start *s)
{
    return s->kind == IHEX_START_SEGMENT_ADDRESS ? (uint32_t)(s->x << 16 | s->y) : (uint32_t)s->x;
}

static struct start some_start(void)
{
    static const uint32_t payloads[] = {0, 0x10000000, 0x0FFF0010, 0x10000, 0xABCDEF12, 0xFFFFFFFF};
    unsigned kind = chance(2) ? IHEX_START_SEGMENT_ADDRESS : IHEX_START_LINEAR_ADDRESS;
    return start_of(kind, payloads[chance(sizeof payloads / sizeof *payloads)]);
}

/* a start that differs: in one digit, in its type alone, or, of a type 03, in the segment and not in the address */
static struct start other_start(const struct start *s)
{
    unsigned other = IHEX_START_SEGMENT_ADDRESS + IHEX_START_LINEAR_ADDRESS - s->kind, way = chance(4);
    uint32_t payload = payload_of(s);
    if (way == 0)
        return start_of(other, payload);
    if (way == 1)
        return start_of(s->kind, payload - 0x10000 + 0x10);
    return start_of(s->kind, payload ^ (uint32_t)(1 + chance(15)) << 4 * chance(8));
}

static void put_start_record(struct dump *d, const struct start *s)
{
    uint32_t payload = payload_of(s);
    uint8_t bytes[] = {(uint8_t)(payload >> 24), (uint8_t)(payload >> 16), (uint8_t)(payload >> 8), (uint8_t)payload};
    put_record(d, s->kind, chance(64) ? 0 : chance(SEGMENT), bytes, sizeof bytes);
}

/* the start that the dump wants, once more or for the first time */
static void put_start(struct dump *d)
{
    if (!d->start.kind && !d->bad_line) {
        d->start = d->wants;
        d->start_line = line_feeds(&d->text, d->text.n) + 1;
    }
    put_start_record(d, &d->wants);
}

/* a start that differs from one before it */
static void put_conflict(struct dump *d)
{
    struct start other = other_start(&d->wants);
    if (!d->start.kind) {
        put_start(d);
        put_line_end(d);
    }
    d->bad_line = line_feeds(&d->text, d->text.n) + 1;
    put_start_record(d, &other);
}

/* lines with a refusal from 1 to 9, each in three forms, and the refusal's values */
static const struct {
    const char *line;
    uint64_t a, b;
} bad_lines[][3] = {
    {{"", 0, 0}, {"", 0, 0}, {"", 0, 0}},
    {{"00000001FF", 0, 0}, {" :00000001FF", 0, 0}, {"\r\r", 0, 0}},
    {{":0000000G FF", 8, 0}, {":00000001FF ", 11, 0}, {":0000\r0001FF", 5, 0}},
    {{":", 0, 0}, {":0000", 0, 0}, {":0100000", 0, 0}},
    {{":00000001FF", 0, 0}, {":01000000AA55", 0, 0}, {":0", 0, 0}},
    {{":00000001FF0", 0, 0}, {":000000000000000", 0, 0}, {":0100000000F00", 0, 0}},
    {{":00000001FE", 0xFF, 0xFE}, {":0000000100", 0xFF, 0}, {":01000000AA54", 0x55, 0x54}},
    {{":01000000FF", 0, 0}, {":01000006F9", 0, 0}, {":0000000000000000", 0, 0}},
    {{":00000006FA", 6, 0}, {":000000FF01", 0xFF, 0}, {":01000006AA4F", 6, 0}},
    {{":0100000100FE", 0, 0}, {":00000002FE", 0, 0}, {":020000050000F9", 0, 0}},
};

/* a line with a refusal from 1 to 9 */
static void put_bad(struct dump *d)
{
    char zeros[2 * IHEX_MAX_LINE];
    unsigned form = chance(3);
    d->bad_line = line_feeds(&d->text, d->text.n) + 1;
    d->bad_a = bad_lines[d->refusal][form].a;
    d->bad_b = bad_lines[d->refusal][form].b;
    put_string(&d->text, bad_lines[d->refusal][form].line);
    if (d->refusal == IHEX_RECORD_TOO_LONG) {
        memset(zeros, '0', sizeof zeros);
        put(&d->text, zeros, IHEX_MAX_LINE + chance(IHEX_MAX_LINE));
    }
}

/* the line of a refusal that a line has */
static void put_refused(struct dump *d, const struct window *w)
{
    if (d->refusal == IHEX_OUTSIDE_WINDOW)
        put_outside(d, w);
    else if (d->refusal == IHEX_START_CONFLICT)
        put_conflict(d);
    else
        put_bad(d);
    put_line_end(d);
}

/* one line: an extension record, data, or a start record if the dump wants one */
static void put_some(struct dump *d, const struct window *w)
{
    unsigned kind = chance(10);
    if (kind == 0)
        put_any_base(d);
    else if (kind == 1 || (!is_in_reach(d, w) && chance(8)))
        put_fit_base(d, w);
    else if (kind <= 3 && d->wants.kind)
        put_start(d);
    else
        put_data(d, w);
    put_line_end(d);
    if (chance(8) == 0) {
        put_line_end(d);
        d->has |= EMPTY_LINES;
    }
}

/* an end record, with or without an LF, and what an older dump may have left after it */
static void put_end(struct dump *d)
{
    static const char *const tails[] = {"", "", ":0100000011EE\n:00000001FF\n", "old", ":00000001FF", "\n:00000001fe\r\n",
                                        ":0400000500001234B1\n"};
    const char *tail = tails[chance(sizeof tails / sizeof *tails)];
    d->head = d->text.n;
    if (d->base.address)
        d->has |= d->base.type == IHEX_EXTENDED_LINEAR_ADDRESS ? LINEAR_LEFT : SEGMENT_LEFT;
    put_record(d, IHEX_END_OF_FILE, chance(2) ? 0 : chance(SEGMENT), (const uint8_t *)"", 0);
    if (memcmp(d->text.bytes + d->head, end_record, strlen(end_record)) != 0)
        d->has |= OTHER_END;
    if (chance(3) == 0) {
        d->has |= NO_LAST_LF;
        return;
    }
    put_line_end(d);
    put_string(&d->text, tail);
    if (*tail)
        d->has |= OLD_TAIL;
}

/* a dump for a window, with this refusal, 0 for none, and with start records of this start, if it is one */
static void make(struct dump *d, const struct window *w, unsigned refusal, const struct start *wants)
{
    unsigned lines = chance(LINES), bad = chance(lines + 1);
    memset(d, 0, offsetof(struct dump, states));
    d->wants = *wants;
    for (size_t p = 0; p < w->places; p++)
        d->states[p] = NONE;
    d->refusal = refusal;
    d->ends = chance(3);
    for (unsigned i = 0; i <= lines; i++) {
        if (i == bad && refusal && refusal != IHEX_MISSING_END_OF_FILE_RECORD)
            put_refused(d, w);
        if (i < lines)
            put_some(d, w);
    }
    if (refusal != IHEX_MISSING_END_OF_FILE_RECORD)
        put_end(d);
}

/* an address of 32 bits */
static uint32_t some_address(void)
{
    uint32_t high = chance(SEGMENT), low = chance(SEGMENT);
    return high << 16 | low;
}

/* a window: a long one, one at an edge (no place, one place, offset FFFF, the end of 2^32), or one by chance */
static struct window some_window(void)
{
    static const struct window full[] = {{0, SEGMENT}, {0, SEGMENT}, {0x12340, SEGMENT}, {0xFFFF0000, SEGMENT}, {1, SEGMENT - 1}};
    static const struct window edges[] = {
        {0, 0}, {0, 1}, {0xFFF0, 33}, {0xFFFF, 1}, {0xFFFF, 2}, {0x1FFF8, 61}, {0xFFFFFFE0, 32}, {0xFFFFFFE1, 31},
    };
    struct window w;
    uint64_t room;
    if (chance(12) == 0)
        return full[chance(sizeof full / sizeof *full)];
    if (chance(4) == 0)
        return edges[chance(sizeof edges / sizeof *edges)];
    w.first = chance(2) ? chance(300) : chance(2) ? chance(2 * SEGMENT) : some_address();
    w.places = 1 + chance(300);
    room = ((uint64_t)1 << 32) - w.first;
    if (w.places > room)
        w.places = (size_t)room;
    return w;
}
