/* Included by the programs that call each function: the count of what passed and failed, and what is lent to a function, buffers and
 * numbers between guards. */
#include <ihex.h>
#include <stdio.h>
#include <string.h>

static int passed, failed;

/* whether a case is on, whose checks count as one test, and whether one of them failed */
static int in_case, broken;

static void check(int holds, const char *file, int line, const char *what)
{
    if (!holds)
        printf("%s:%d: %s\n", file, line, what);
    if (in_case)
        broken |= !holds;
    else if (holds)
        passed++;
    else
        failed++;
}

#define CHECK(holds) check((holds), __FILE__, __LINE__, #holds)

#define COUNT(rows) (sizeof rows / sizeof rows[0])
#define R(number) (IHEX_REFUSED + (number))

static void begin_case(void)
{
    in_case = 1;
    broken = 0;
}

static void end_case(void)
{
    in_case = 0;
    if (broken)
        failed++;
    else
        passed++;
}

/* ---- what is lent, between guards */

#define MOST 71000
#define EDGE 64
#define GUARD 0xA5
#define OLD 0x5C

struct lent {
    size_t len, room;
    uint8_t *all;
};

#define LENT(name, most)                             \
    static uint8_t name##room[EDGE + (most) + EDGE]; \
    static struct lent name = {0, sizeof name##room, name##room}

LENT(page_, MOST);
LENT(marks_, MOST);
LENT(text_, MOST);

/* the place of `len` bytes, each OLD; null where there is none */
static uint8_t *lend(struct lent *l, size_t len)
{
    memset(l->all, GUARD, l->room);
    memset(l->all + EDGE, OLD, len);
    l->len = len;
    return len ? l->all + EDGE : NULL;
}

/* bytes that are only read, which end where the guards begin */
static const uint8_t *given(struct lent *l, const void *bytes, size_t len)
{
    uint8_t *place = lend(l, len);
    if (len)
        memcpy(place, bytes, len);
    return place;
}

/* whether each of the bytes is this one */
static int all_are(uint8_t byte, const uint8_t *bytes, size_t n)
{
    return n == 0 || (bytes[0] == byte && memcmp(bytes, bytes + 1, n - 1) == 0);
}

static int guarded(const struct lent *l)
{
    size_t end = EDGE + l->len;
    return all_are(GUARD, l->all, EDGE) && all_are(GUARD, l->all + end, l->room - end);
}

/* the guards stand, and all bytes are as they were but `n` from `at` on, which are these */
static int holds(const struct lent *l, size_t at, const void *bytes, size_t n)
{
    const uint8_t *place = l->all + EDGE;
    size_t end = at + n;
    if (!guarded(l) || end > l->len || !all_are(OLD, place, at) || !all_are(OLD, place + end, l->len - end))
        return 0;
    return n == 0 || memcmp(place + at, bytes, n) == 0;
}

static int untouched(const struct lent *l)
{
    return holds(l, 0, NULL, 0);
}

/* the same bytes that were given */
static int same(const struct lent *l, const void *bytes)
{
    return holds(l, 0, bytes, l->len);
}

struct number {
    uint64_t before, value, after;
};

struct size {
    uint64_t before;
    size_t value;
    uint64_t after;
};

struct byte {
    uint8_t before, value, after;
};

struct word {
    uint16_t before, value, after;
};

#define EDGES 0xA5A5A5A5A5A5A5A5u
#define WORD_EDGE 0xA5A5u
#define WITHIN(n, edge) ((n).before == (edge) && (n).after == (edge))

static struct number a, b, c;
static struct size position, line, empties, used, from, len, start;
static struct byte flags, lies, started;
static struct word skipped;

static void fresh(void)
{
    struct size *sizes[] = {&position, &line, &empties, &used, &from, &len, &start};
    size_t i;
    a.before = a.value = a.after = EDGES;
    b = c = a;
    for (i = 0; i < sizeof sizes / sizeof sizes[0]; i++)
        sizes[i]->before = sizes[i]->after = EDGES;
    flags.before = flags.after = lies.before = lies.after = started.before = started.after = GUARD;
    skipped.before = skipped.after = WORD_EDGE;
}

static int fenced(void)
{
    return WITHIN(a, EDGES) && WITHIN(b, EDGES) && WITHIN(c, EDGES) && WITHIN(position, EDGES) &&
           WITHIN(line, EDGES) && WITHIN(empties, EDGES) && WITHIN(used, EDGES) && WITHIN(from, EDGES) &&
           WITHIN(len, EDGES) && WITHIN(start, EDGES) && WITHIN(flags, GUARD) && WITHIN(lies, GUARD) &&
           WITHIN(started, GUARD) && WITHIN(skipped, WORD_EDGE);
}

static int values(uint64_t x, uint64_t y, uint64_t z)
{
    return a.value == x && b.value == y && c.value == z && fenced();
}

/* a number below the limit, from a fixed sequence */
static uint32_t draw(uint32_t limit)
{
    static uint32_t drawn = 4;
    drawn = drawn * 1664525u + 1013904223u;
    return (uint32_t)((uint64_t)drawn * limit >> 32);
}

/* ---- packed marks: place p is bit p modulo 8 of byte p / 8, lowest bit first */

static size_t packed_len(size_t places)
{
    return (places + 7) / 8;
}

static int unpacked(const uint8_t *marks, size_t place)
{
    return marks[place / 8] / (1 << place % 8) % 2;
}

/* ---- a load */

/* what loads: ihex_load, or ihex_load_srecords */
static uint32_t (*loader)(const uint8_t *text, size_t text_len, uint32_t first, uint8_t *page, size_t page_len, uint8_t *marks,
                          size_t marks_len, size_t *line, uint8_t *start, uint64_t *a, uint64_t *b, uint64_t *c);

/* the kind of start, with the value 0, that an accepted load is to return where a test names no other */
static uint8_t usual_start = IHEX_NO_START;

/* a load with the marks_len bytes of marks that marks_ has */
static uint32_t load_upon(const char *text, uint32_t first, size_t page_len, size_t marks_len)
{
    size_t n = strlen(text);
    const uint8_t *bytes = given(&text_, text, n);
    uint8_t *page = lend(&page_, page_len), *marks = marks_len ? marks_.all + EDGE : NULL;
    uint32_t r;
    fresh();
    line.value = 77;
    started.value = 77;
    r = loader(bytes, n, first, page, page_len, marks, marks_len, &line.value, &started.value, &a.value, &b.value, &c.value);
    CHECK(same(&text_, text) && fenced());
    return r;
}

/* a load with so many bytes of marks, each OLD */
static uint32_t load_with(const char *text, uint32_t first, size_t page_len, size_t marks_len)
{
    lend(&marks_, marks_len);
    return load_upon(text, first, page_len, marks_len);
}

static uint32_t load(const char *text, uint32_t first, size_t places)
{
    return load_with(text, first, places, packed_len(places));
}

/* whether the marks are those of so many places, one character a place, '0' or '1' */
static int marks_are(const char *marks, size_t places)
{
    size_t p;
    if (marks_.len != packed_len(places) || !guarded(&marks_))
        return 0;
    for (p = 0; p < 8 * marks_.len; p++)
        if (unpacked(marks_.all + EDGE, p) != (p < places && marks[p] == '1'))
            return 0;
    return 1;
}

/* the kind of start of an accepted load, and its values */
static int starts(uint8_t kind, uint64_t x, uint64_t y)
{
    return started.value == kind && b.value == x && c.value == y && line.value == 0;
}

/* the count, the marks whole, and the bytes of the page from a place on, whatever the start is */
static int placed(uint64_t count, const char *marks, size_t at, const char *bytes)
{
    return a.value == count && marks_are(marks, strlen(marks)) && holds(&page_, at, bytes, strlen(bytes));
}

/* the same, with the usual start */
static int loaded(uint64_t count, const char *marks, size_t at, const char *bytes)
{
    return placed(count, marks, at, bytes) && starts(usual_start, 0, 0);
}

static int not_loaded(uint64_t x, uint64_t y, size_t l)
{
    return a.value == x && b.value == y && c.value == 0 && started.value == IHEX_NO_START && line.value == l && untouched(&page_) &&
           untouched(&marks_);
}
