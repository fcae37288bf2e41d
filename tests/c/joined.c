/* Joins dumps that are made by chance, and holds ihex_load to what it promises of one dump upon another. The joined text of A and B is
 * the bytes of A before the line of its end record, the line :020000020000FC with one LF, and B. What each dump states is kept while it
 * is made, so loads are compared with that too, and not only with each other. Joiners with a fault of their own must be found.
 *   joined          the last line is 'N passed, M failed'
 *   joined NUMBER   writes the pair of this number: a line with the first address (hexadecimal), the places and the lengths of three
 *                   texts; then A, B and the joined text. B of an even number is accepted, and so is the joined text, unless the number is
 *                   6 modulo 8: only then and of odd numbers B may state another start than A. */
#include "dumps.h"

#define PAIRS 20000 /* of dumps by chance */
#define TRIPLES 4000

static const char reset_line[] = ":020000020000FC\n", linear_line[] = ":020000040000FA\n";

static int passed, failed;

static void check(int holds, const char *what, const char *of)
{
    if (holds)
        passed++;
    else
        failed++, printf("FAILED %s: %s\n", what, of);
}

/* ---- the joined text, by a joiner that may have a fault */

enum fault {
    NO_FAULT, NO_LINE, LINEAR_LINE, CUTS_AT_SPELLING, KEEPS_END, KEEPS_TAIL, LATER_MARKS, LINE_LESS_ONE, SKIPS_EMPTY_LINES, LATER_START,
    NO_EARLIER_START, ADDRESSES_ALIKE, LINE_OF_A, FAULTS
};

static const char *const faults[FAULTS] = {
    [NO_FAULT] = "none",
    [NO_LINE] = "the line between is left out",
    [LINEAR_LINE] = "a type 04 in place of the line between",
    [CUTS_AT_SPELLING] = "A is cut at the first :00000001FF",
    [KEEPS_END] = "A's end record is kept",
    [KEEPS_TAIL] = "text after A's end record is kept",
    [LATER_MARKS] = "marks of the later load alone",
    [LINE_LESS_ONE] = "a line number less by one",
    [SKIPS_EMPTY_LINES] = "empty lines are not counted",
    [LATER_START] = "B's start wins",
    [NO_EARLIER_START] = "the start of B alone",
    [ADDRESSES_ALIKE] = "starts of one address are taken for the same",
    [LINE_OF_A] = "refusal 21 at the line of A's start",
};

static enum fault fault;

/* the number of the line that the reader takes for the end record; 0 where there is none */
static size_t end_line(const struct text *t)
{
    size_t position = 0, line = 0;
    uint8_t flags = IHEX_STOP_AFTER_FIRST_ERROR | IHEX_STOP_AFTER_EOF, pool[IHEX_MAX_PAYLOAD];
    uint64_t a, b, c;
    uint32_t code;
    do
        code = ihex_next(t->bytes, t->n, pool, sizeof pool, 0, &position, &line, &flags, &a, &b, &c);
    while (code < IHEX_REFUSED && code != IHEX_END_OF_FILE);
    return code == IHEX_END_OF_FILE ? line : 0;
}

/* where a line begins, which is one of the text */
static size_t begin_of(const struct text *t, size_t line)
{
    size_t at = 0;
    for (size_t number = 1; at < t->n && number < line; at++)
        number += t->bytes[at] == '\n';
    return at;
}

/* where the first :00000001FF begins; the text's end where there is none */
static size_t first_spelling(const struct text *t)
{
    size_t size = strlen(end_record), at = 0;
    while (at + size <= t->n && memcmp(t->bytes + at, end_record, size) != 0)
        at++;
    return at + size <= t->n ? at : t->n;
}

static size_t head_of(const struct text *t)
{
    return fault == CUTS_AT_SPELLING ? first_spelling(t) : begin_of(t, end_line(t));
}

static void join(const struct text *a, const struct text *b, struct text *joined)
{
    size_t head = head_of(a), rest = begin_of(a, end_line(a) + 1);
    joined->n = 0;
    put(joined, a->bytes, fault == KEEPS_END ? rest : head);
    if (fault == KEEPS_TAIL)
        put(joined, a->bytes + rest, a->n - rest);
    if (joined->n && joined->bytes[joined->n - 1] != '\n')
        put_string(joined, "\n"); /* only after a wrong cut */
    if (fault != NO_LINE)
        put_string(joined, fault == LINEAR_LINE ? linear_line : reset_line);
    put(joined, b->bytes, b->n);
}

/* by how much the joined text moves the lines of B */
static size_t moved_by(const struct text *a)
{
    size_t head = head_of(a), lines = line_feeds(a, head), empty = 0;
    for (size_t i = 0; i < head; i++)
        empty += a->bytes[i] == '\n' && (i == 0 || a->bytes[i - 1] == '\n');
    if (fault == SKIPS_EMPTY_LINES)
        lines -= empty;
    return fault == LINE_LESS_ONE || fault == NO_LINE ? lines : lines + 1;
}

/* ---- loads */

struct load {
    uint32_t code;
    size_t line;
    uint8_t start;
    uint64_t a, b, c;
    uint8_t page[IHEX_MAX_PAGE], marks[IHEX_MAX_MARKS];
};

/* the load of a text over the page and the marks of another */
static void load(struct load *r, const struct text *t, const struct window *w, const struct load *over)
{
    size_t row = IHEX_MARKS(w->places);
    memcpy(r->page, over->page, w->places);
    memcpy(r->marks, over->marks, row);
    r->code = ihex_load(t->bytes, t->n, w->first, r->page, w->places, r->marks, row, &r->line, &r->start, &r->a, &r->b, &r->c);
}

static int same_page(const struct load *x, const struct load *y, const struct window *w)
{
    return memcmp(x->page, y->page, w->places) == 0;
}

static int same_marks(const struct load *x, const struct load *y, const struct window *w)
{
    return memcmp(x->marks, y->marks, IHEX_MARKS(w->places)) == 0;
}

static const struct start no_start = {IHEX_NO_START, 0, 0};

static int accepted(const struct load *r, uint64_t records, const struct start *s)
{
    return r->code == IHEX_OK && r->line == 0 && r->a == records && r->start == s->kind && r->b == s->x && r->c == s->y;
}

static int refused(const struct load *r, unsigned refusal, size_t line, uint64_t x, uint64_t y)
{
    return r->code == IHEX_REFUSED + refusal && r->line == line && r->a == x && r->b == y && r->c == 0 && r->start == IHEX_NO_START;
}

/* adds the marks of an earlier load to those of a later one */
static void unite(struct load *later, const struct load *earlier, const struct window *w)
{
    for (size_t i = 0; fault != LATER_MARKS && i < IHEX_MARKS(w->places); i++)
        later->marks[i] |= earlier->marks[i];
}

/* an old page and old marks, also in the unused bits */
static void make_old(struct load *old, const struct window *w)
{
    size_t turn = chance(256);
    for (size_t p = 0; p < w->places; p++)
        old->page[p] = (uint8_t)((p + turn) * 37 >> 3);
    for (size_t i = 0; i < IHEX_MARKS(w->places); i++)
        old->marks[i] = (uint8_t)chance(256);
}

/* the page of a load, with no place marked */
static void see_nothing(struct load *r, const struct load *over, const struct window *w)
{
    memcpy(r->page, over->page, w->places);
    memset(r->marks, 0, IHEX_MARKS(w->places));
}

/* puts over it what a dump states */
static void see(struct load *r, const struct dump *d, const struct window *w)
{
    for (size_t p = 0; p < w->places; p++) {
        if (d->states[p] == NONE)
            continue;
        r->page[p] = (uint8_t)d->states[p];
        r->marks[p / 8] |= (uint8_t)(1 << p % 8);
    }
}

/* ---- pairs and triples */

enum claim { AS_MADE, ACCEPTED_ALIKE, STARTED, LOADED_ALIKE, SEEN, NOTHING_STATED, GROUPED, CLAIMS };

static const char *const claims[CLAIMS] = {
    [AS_MADE] = "a dump is loaded, or refused, as it was made",
    [ACCEPTED_ALIKE] = "the joined text is accepted exactly when B is, unless their starts differ; counts add, and a refusal is B's at its line",
    [STARTED] = "the start of the joined text is A's, or else B's; if they differ, that is refused at B's line",
    [LOADED_ALIKE] = "A and then B leave the page of the joined text, whose marks are the union",
    [SEEN] = "a place shows B's byte, else A's, else the old one",
    [NOTHING_STATED] = "the end record alone changes no byte of the page, and clears the marks",
    [GROUPED] = "three dumps joined in either grouping give one text, and the page of three loads",
};

static struct window window;
static struct dump a, b, c;
static struct text joined;
static struct load old, of_a, of_b, of_joined, after, united, seen;

static const unsigned refusals[] = {
    1, 2, 3, 4, 5, 6, 7, 8, 9, IHEX_MISSING_END_OF_FILE_RECORD, IHEX_OUTSIDE_WINDOW, IHEX_START_CONFLICT,
};

#define REFUSALS (sizeof refusals / sizeof *refusals)

/* the pair of a number, with its window and its old page; B of an odd number has a refusal */
static void make_pair(unsigned long number)
{
    unsigned refusal = 0;
    struct start first, second;
    chance_state = number * 0x9E3779B97F4A7C15u;
    chance(2);
    window = some_window();
    make_old(&old, &window);
    first = some_start();
    second = number % 8 == 6 || (number % 2 && chance(2)) ? other_start(&first) : first;
    if (number % 2)
        refusal = refusals[chance(REFUSALS)];
    make(&a, &window, 0, chance(3) ? &first : &no_start);
    make(&b, &window, refusal, chance(3) || refusal == IHEX_START_CONFLICT ? &second : &no_start);
    make(&c, &window, 0, chance(3) ? &first : &no_start);
}

/* whether the joiner takes the starts of A and B for two */
static int differ(void)
{
    uint64_t of_a_start = a.start.kind == IHEX_START_SEGMENT_ADDRESS ? 16 * a.start.x + a.start.y : a.start.x;
    uint64_t of_b_start = b.start.kind == IHEX_START_SEGMENT_ADDRESS ? 16 * b.start.x + b.start.y : b.start.x;
    if (fault == LATER_START || fault == NO_EARLIER_START || (fault == ADDRESSES_ALIKE && of_a_start == of_b_start))
        return 0;
    return starts_differ(&a.start, &b.start);
}

/* whether a dump's load is what it was made for, what it states is seen, and the reader finds its end record */
static int is_as_made(const struct dump *d, const struct load *r)
{
    if (d->refusal)
        return refused(r, d->refusal, d->bad_line, d->bad_a, d->bad_b) && same_page(r, &old, &window) && same_marks(r, &old, &window);
    see_nothing(&seen, &old, &window);
    see(&seen, d, &window);
    return accepted(r, d->records, &d->start) && same_page(r, &seen, &window) && same_marks(r, &seen, &window) &&
           begin_of(&d->text, end_line(&d->text)) == d->head;
}

/* whether the joined text is answered as B is, after A, unless their starts differ */
static int is_accepted_alike(void)
{
    if (differ())
        return of_joined.code != IHEX_OK;
    if (of_b.code == IHEX_OK)
        return of_joined.code == IHEX_OK && of_joined.line == 0 && of_joined.a == of_a.a + of_b.a;
    return refused(&of_joined, of_b.code - IHEX_REFUSED, of_b.line ? of_b.line + moved_by(&a.text) : 0, of_b.a, of_b.b) &&
           same_page(&of_joined, &old, &window) && same_marks(&of_joined, &old, &window);
}

/* whether the start of the joined text is A's, or else B's; if the two differ, whether that is refused at the line of B's, and no byte changes */
static int is_started(void)
{
    const struct start *start = a.start.kind ? &a.start : &b.start;
    if (differ())
        return refused(&of_joined, IHEX_START_CONFLICT, fault == LINE_OF_A ? a.start_line : b.start_line + moved_by(&a.text), 0, 0) &&
               same_page(&of_joined, &old, &window) && same_marks(&of_joined, &old, &window);
    if (of_b.code != IHEX_OK)
        return 1;
    if (fault == NO_EARLIER_START || (fault == LATER_START && b.start.kind))
        start = &b.start;
    return accepted(&of_joined, of_a.a + of_b.a, start);
}

/* whether two loads are answered alike */
static int same_answer(const struct load *x, const struct load *y)
{
    return x->code == y->code && x->line == y->line && x->start == y->start && x->a == y->a && x->b == y->b && x->c == y->c;
}

/* whether loading A and then B is loading the joined text; where B is refused, it is as without A, and A's page and marks stay */
static int is_loaded_alike(void)
{
    load(&after, &b.text, &window, &of_a);
    if (of_b.code != IHEX_OK)
        return same_answer(&after, &of_b) && same_page(&after, &of_a, &window) && same_marks(&after, &of_a, &window);
    memcpy(united.marks, of_b.marks, IHEX_MARKS(window.places));
    unite(&united, &of_a, &window);
    return same_answer(&after, &of_b) && same_marks(&after, &of_b, &window) &&
           (differ() || (same_page(&after, &of_joined, &window) && same_marks(&united, &of_joined, &window)));
}

static int is_seen(void)
{
    if (of_b.code != IHEX_OK)
        return 1;
    see_nothing(&seen, &old, &window);
    see(&seen, &a, &window);
    see(&seen, &b, &window);
    if (differ())
        return same_page(&seen, &after, &window);
    return same_page(&seen, &of_joined, &window) && same_marks(&seen, &of_joined, &window);
}

/* whether the bytes of A from its end record on, as many as given, change no byte of the page and clear the marks */
static int is_cleared_by(size_t n)
{
    static struct text end;
    end.n = 0;
    put(&end, a.text.bytes + a.head, n);
    load(&after, &end, &window, &of_a);
    see_nothing(&seen, &of_a, &window);
    return accepted(&after, 0, &no_start) && same_page(&after, &of_a, &window) && same_marks(&after, &seen, &window);
}

/* whether A's end record does so, as A spells it: without its line end, with it, and with all that comes after it */
static int is_nothing_stated(void)
{
    size_t line = begin_of(&a.text, line_feeds(&a.text, a.head) + 2) - a.head;
    return is_cleared_by(strlen(end_record)) && is_cleared_by(line) && is_cleared_by(a.text.n - a.head);
}

/* whether three accepted dumps, joined in either grouping, give one text */
static int is_grouped(struct text *left, struct text *right)
{
    join(&a.text, &b.text, &joined);
    join(&joined, &c.text, left);
    join(&b.text, &c.text, &joined);
    join(&a.text, &joined, right);
    return same_text(left, right);
}

/* whether three loads, one after the other, leave the page of the joined text, and show what the dumps state; if a start differs from the
 * first, whether the joined text is refused for that */
static int are_loaded_alike(const struct text *all)
{
    const struct start *start = a.start.kind ? &a.start : b.start.kind ? &b.start : &c.start;
    load(&of_a, &a.text, &window, &old);
    load(&of_b, &b.text, &window, &of_a);
    load(&after, &c.text, &window, &of_b);
    load(&of_joined, all, &window, &old);
    see_nothing(&seen, &old, &window);
    see(&seen, &a, &window);
    see(&seen, &b, &window);
    see(&seen, &c, &window);
    if (starts_differ(start, &b.start) || starts_differ(start, &c.start))
        return of_joined.code == IHEX_REFUSED + IHEX_START_CONFLICT && same_page(&after, &seen, &window);
    return accepted(&of_joined, a.records + b.records + c.records, start) && same_page(&of_joined, &after, &window) &&
           same_page(&of_joined, &seen, &window) && same_marks(&of_joined, &seen, &window);
}

static int is_triple_right(void)
{
    static struct text left, right;
    return is_grouped(&left, &right) && are_loaded_alike(&left);
}

/* which claims hold of the pair of a number, and of the triple of it where B is accepted: how many do not */
static size_t try_pair(unsigned long number, int holds[CLAIMS])
{
    size_t broken = 0;
    make_pair(number);
    load(&of_a, &a.text, &window, &old);
    load(&of_b, &b.text, &window, &old);
    join(&a.text, &b.text, &joined);
    load(&of_joined, &joined, &window, &old);
    holds[AS_MADE] = is_as_made(&a, &of_a) && is_as_made(&b, &of_b);
    holds[ACCEPTED_ALIKE] = is_accepted_alike();
    holds[STARTED] = is_started();
    holds[LOADED_ALIKE] = is_loaded_alike();
    holds[SEEN] = is_seen();
    holds[NOTHING_STATED] = is_nothing_stated();
    holds[GROUPED] = number % 2 || number >= 2 * TRIPLES || is_triple_right();
    for (size_t k = 0; k < CLAIMS; k++)
        broken += !holds[k];
    return broken;
}

/* ---- how often each thing was there */

static const struct thing {
    const char *name;
    unsigned bits;
    enum { OF_A, OF_B } of;
    int refused; /* whether B is */
} things[] = {
    {"A leaves a segment in force", SEGMENT_LEFT, OF_A, 0},
    {"A leaves a linear base in force", LINEAR_LEFT, OF_A, 0},
    {"A with CR LF", WITH_CR, OF_A, 0},
    {"A with empty lines", EMPTY_LINES, OF_A, 1},
    {"A's end record in another spelling", OTHER_END, OF_A, 0},
    {"A without a last LF", NO_LAST_LF, OF_A, 0},
    {"text after A's end record", OLD_TAIL, OF_A, 0},
    {"A across the end of a segment", SEGMENT_ACROSS, OF_A, 0},
    {"A across a linear 64K", LINEAR_ACROSS, OF_A, 0},
    {"B begins before any extension record", UNBASED, OF_B, 0},
    {"B across offset FFFF before any, accepted", UNBASED_ACROSS, OF_B, 0},
    {"B across offset FFFF before any, refused", UNBASED_ACROSS, OF_B, 1},
    {"B across a linear 64K", LINEAR_ACROSS, OF_B, 0},
    {"B across 2^32", TOP_ACROSS, OF_B, 1},
    {"B without a last LF", NO_LAST_LF, OF_B, 0},
};

#define THINGS (sizeof things / sizeof *things)

/* which of A and B state a start, with B accepted, or refused after it */
static const char *const start_pairs[] = {
    "no start", "a start of A alone", "a start of B alone", "the same start twice", "two starts, B accepted", "two starts, B refused",
    "a start of A, and another of B after a line that is refused",
};

#define START_PAIRS (sizeof start_pairs / sizeof *start_pairs)

static unsigned long with_thing[THINGS], with_code[IHEX_REFUSED], with_starts[START_PAIRS], with_unused_bits;

static size_t start_pair(void)
{
    if (starts_differ(&a.start, &b.start))
        return b.refusal ? 5 : 4;
    if (b.refusal && !b.start.kind && starts_differ(&a.start, &b.wants))
        return 6;
    return (a.start.kind ? 1 : 0) + (b.start.kind ? 2 : 0);
}

static void note_pair(void)
{
    with_starts[start_pair()]++;
    for (size_t k = 0; k < THINGS; k++) {
        unsigned has = things[k].of == OF_A ? a.has : b.has;
        with_thing[k] += (has & things[k].bits) && (b.refusal != 0) == things[k].refused;
    }
    with_code[b.refusal]++;
    with_unused_bits += window.places % 8 != 0;
}

/* every kind of dump was there */
static void check_things(void)
{
    for (size_t k = 0; k < START_PAIRS; k++) {
        check(with_starts[k] > 0, "no pair has this", start_pairs[k]);
        printf("%s: %lu pairs\n", start_pairs[k], with_starts[k]);
    }
    for (size_t k = 0; k < THINGS; k++) {
        check(with_thing[k] > 0, "no pair has this", things[k].name);
        printf("%s: %lu pairs\n", things[k].name, with_thing[k]);
    }
    for (size_t k = 0; k <= REFUSALS; k++) {
        unsigned code = k < REFUSALS ? refusals[k] : 0;
        char name[32];
        sprintf(name, code ? "refusal %u" : "no refusal", code);
        check(with_code[code] > 0, "no B has this", name);
        printf("B with %s: %lu pairs\n", name, with_code[code]);
    }
    check(with_unused_bits > 0, "no pair has this", "unused bits of the marks");
}

/* ---- the whole */

/* every pair and triple, by the joiner without a fault */
static void check_claims(void)
{
    unsigned long broken[CLAIMS] = {0}, right = 0;
    for (unsigned long number = 0; number < PAIRS; number++) {
        int holds[CLAIMS];
        right += try_pair(number, holds) == 0;
        for (size_t k = 0; k < CLAIMS; k++)
            broken[k] += !holds[k];
        note_pair();
    }
    for (size_t k = 0; k < CLAIMS; k++) {
        check(broken[k] == 0, "a claim is broken", claims[k]);
        if (broken[k])
            printf("broken by %lu: %s\n", broken[k], claims[k]);
    }
    printf("-- %d pairs of dumps, half with a B that is refused, and %d triples: %lu broke no claim\n", PAIRS, TRIPLES, right);
}

/* a joiner with a fault is found, by the first pair that breaks a claim */
static void check_fault(enum fault by)
{
    unsigned long number = 0;
    int holds[CLAIMS];
    fault = by;
    while (number < PAIRS && try_pair(number, holds) == 0)
        number++;
    fault = NO_FAULT;
    check(number < PAIRS, "a joiner is not found", faults[by]);
    for (size_t k = 0; number < PAIRS && k < CLAIMS; k++)
        if (!holds[k])
            printf("%s: at pair %lu not so: %s\n", faults[by], number, claims[k]);
}

/* ---- cases by hand */

static const struct example {
    const char *name;
    struct window window;
    const char *a, *b, *joined;
    unsigned refusal;
    size_t line;
    uint64_t value; /* the first: data records, or the refusal's */
} examples[] = {
    {"the end record alone, and one byte", {0, 1}, ":00000001FF", ":0100000011EE\n:00000001FF\n",
     ":020000020000FC\n:0100000011EE\n:00000001FF\n", 0, 0, 1},
    {"line ends and text after the end record", {0x12000, 8},
     "\r\n:020000021200EA\r\n\n:010005007783\r\n:00123401b9\r\nold\n:00000001FF\n", ":00000001FF",
     "\r\n:020000021200EA\r\n\n:010005007783\r\n:020000020000FC\n:00000001FF", 0, 0, 1},
    {"a segment left in force", {0x12000, 8}, ":020000021200EA\n:010005007783\n:00000001FF\n", ":0100050011E9\n:00000001FF\n",
     ":020000021200EA\n:010005007783\n:020000020000FC\n:0100050011E9\n:00000001FF\n", IHEX_OUTSIDE_WINDOW, 4, 5},
    {"a CR at the end of the text", {0, 1}, ":0100000011EE\n:00000001FF\n", ":00000001FF\r",
     ":0100000011EE\n:020000020000FC\n:00000001FF\r", IHEX_CONTAINS_INVALID_CHARACTERS, 3, 11},
    {"empty lines are counted", {0, 1}, "\n:0100000011EE\n\n:00000001FF", "\r\n:00000001FE\n",
     "\n:0100000011EE\n\n:020000020000FC\n\r\n:00000001FE\n", IHEX_CHECKSUM_MISMATCH, 6, 0xFF},
    {"no end record", {0, 1}, ":0100000011EE\n:00000001FF", "", ":0100000011EE\n:020000020000FC\n", IHEX_MISSING_END_OF_FILE_RECORD, 0, 0},
    {"across 2^32", {0xFFFFFFFF, 1}, ":00000001FF", ":02000004FFFFFC\n:02FFFF00AABB9B\n:00000001FF",
     ":020000020000FC\n:02000004FFFFFC\n:02FFFF00AABB9B\n:00000001FF", IHEX_OUTSIDE_WINDOW, 3, 0},
};

#define FAR "\n:0400000310000000E9\n"
#define NEAR ":040000030FFF0010DB\n"
#define FLAT ":0400000500010000F6\n"
#define END ":00000001FF\n"

/* joined texts with the line of refusal 21, 0 for none, and the start */
static const struct started {
    const char *name, *a, *b;
    size_t conflict;
    struct start start;
} started[] = {
    {"none", END FLAT, END FAR, 0, {IHEX_NO_START, 0, 0}},
    {"A's alone", FAR END, END, 0, {IHEX_START_SEGMENT_ADDRESS, 0x1000, 0}},
    {"B's alone", END, NEAR END, 0, {IHEX_START_SEGMENT_ADDRESS, 0xFFF, 0x10}},
    {"the same", FLAT END, FLAT ":0400000500010000f6\n" END, 0, {IHEX_START_LINEAR_ADDRESS, 0x10000, 0}},
    {"the same, and then another", FAR END, FAR NEAR END, 6, {IHEX_NO_START, 0, 0}},
    {"of one address", FAR END, NEAR END, 4, {IHEX_NO_START, 0, 0}},
    {"of two types", FLAT FLAT END FAR, FAR END, 5, {IHEX_NO_START, 0, 0}},
    {"another, and no end record", NEAR END, FLAT, 3, {IHEX_NO_START, 0, 0}},
    {"another, and then a bad line", NEAR END, FLAT "x", 3, {IHEX_NO_START, 0, 0}},
    {"another after the end record", NEAR END, END FLAT, 0, {IHEX_START_SEGMENT_ADDRESS, 0xFFF, 0x10}},
};

static void set(struct text *t, const char *string)
{
    t->n = 0;
    put_string(t, string);
}

static void check_example(const struct example *e)
{
    static struct text small, wanted;
    set(&joined, e->a);
    set(&small, e->b);
    join(&joined, &small, &a.text);
    set(&wanted, e->joined);
    check(same_text(&a.text, &wanted), "another joined text", e->name);
    load(&of_joined, &a.text, &e->window, &old);
    check(of_joined.code == (e->refusal ? IHEX_REFUSED + e->refusal : IHEX_OK) && of_joined.line == e->line && of_joined.a == e->value,
          "another answer", e->name);
}

static void check_started(const struct started *s)
{
    static const struct window one = {0, 1};
    static struct text small;
    set(&joined, s->a);
    set(&small, s->b);
    join(&joined, &small, &a.text);
    load(&of_joined, &a.text, &one, &old);
    check(s->conflict ? refused(&of_joined, IHEX_START_CONFLICT, s->conflict, 0, 0) : accepted(&of_joined, 0, &s->start), "another start",
          s->name);
}

/* loads a text after the line that stands between, and after the type 04 in its place */
static void load_both(const struct text *t, const struct window *w)
{
    set(&joined, reset_line);
    put(&joined, t->bytes, t->n);
    load(&of_a, &joined, w, &old);
    set(&joined, linear_line);
    put(&joined, t->bytes, t->n);
    load(&of_b, &joined, w, &old);
}

/* how many data records of one byte or none are answered otherwise after a type 04 */
static unsigned long told_apart_by_less(const struct window *w)
{
    unsigned long apart = 0;
    for (size_t k = 0; k < 2 * SEGMENT; k++) {
        a.text.n = 0;
        put_record(&a, IHEX_DATA, k / 2, (const uint8_t *)"\xAA", k % 2);
        load_both(&a.text, w);
        apart += !same_answer(&of_a, &of_b);
    }
    return apart;
}

/* The shortest B that tells the line between from a type 04 with base 0: one data record of two bytes across offset FFFF. No window
 * holds FFFF, 0000 and 10000, so at most one of the two is accepted. */
static void check_shortest(void)
{
    static const struct window one = {0xFFFF, 1}, two = {0xFFFF, 2}, full = {0, SEGMENT};
    set(&a.text, ":02FFFF00AABB9B");
    load_both(&a.text, &one);
    check(of_a.code == IHEX_REFUSED + IHEX_OUTSIDE_WINDOW && of_a.a == 0, "across offset FFFF", "after the line between");
    check(of_b.code == IHEX_REFUSED + IHEX_OUTSIDE_WINDOW && of_b.a == 0x10000, "across offset FFFF", "after a type 04");
    put_string(&a.text, "\n:00000001FF");
    load_both(&a.text, &two);
    check(of_a.code == IHEX_REFUSED + IHEX_OUTSIDE_WINDOW && of_b.code == IHEX_OK, "across offset FFFF", "in two places");
    load_both(&a.text, &full);
    check(of_a.code == IHEX_OK && of_b.code == IHEX_REFUSED + IHEX_OUTSIDE_WINDOW, "across offset FFFF", "in a full page");
    check(of_a.page[0xFFFF] == 0xAA && of_a.page[0] == 0xBB, "across offset FFFF", "the bytes");
    check(told_apart_by_less(&two) == 0, "a data record of one byte or none", "tells the two lines apart");
}

static int write_pair(unsigned long number)
{
    make_pair(number);
    join(&a.text, &b.text, &joined);
    printf("%lX %lu %lu %lu %lu\n", (unsigned long)window.first, (unsigned long)window.places, (unsigned long)a.text.n,
           (unsigned long)b.text.n, (unsigned long)joined.n);
    return fwrite(a.text.bytes, 1, a.text.n, stdout) != a.text.n || fwrite(b.text.bytes, 1, b.text.n, stdout) != b.text.n ||
           fwrite(joined.bytes, 1, joined.n, stdout) != joined.n;
}

int main(int argc, char **argv)
{
    if (argc == 2)
        return write_pair(strtoul(argv[1], NULL, 10));
    for (size_t k = 0; k < sizeof examples / sizeof *examples; k++)
        check_example(&examples[k]);
    for (size_t k = 0; k < sizeof started / sizeof *started; k++)
        check_started(&started[k]);
    check_shortest();
    check_claims();
    check_things();
    for (int k = NO_FAULT + 1; k < FAULTS; k++)
        check_fault((enum fault)k);
    printf("%d passed, %d failed\n", passed, failed);
    return failed != 0;
}
