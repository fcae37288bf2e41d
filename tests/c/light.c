/* Calls ihex_set_up_light, ihex_light and ihex_light_srecords on telling rows of dumps, with guard bytes around every buffer and number that is
 * lent. Each dump is held to a plain model of the history, and to ihex_load or ihex_load_srecords on copies of the same buffers. The last line is
 * 'N passed, M failed'. */
#include "lent.h"
#include "close.h"
#include "kinds.h"
#include "refused.h"
#include "srefused.h"

#define COUNTS 65536
#define HALF 32768

/* ---- what dumps say, and the colors that follow from it */

struct said {
    enum { BROKEN, NO_COUNT, STATES } what;
    uint32_t count;
};

static const struct said refused_dump = {BROKEN, 0}, no_count = {NO_COUNT, 0};

static struct said a_count(uint32_t count)
{
    struct said says = {STATES, count};
    return says;
}

/* what the dumps of a light said, in order */
static struct said history[COUNTS + 9];
static size_t dumps;

/* the count that was stated last, before the dump with this number */
static uint32_t stated_before(size_t n)
{
    while (n-- > 0)
        if (history[n].what == STATES)
            return history[n].count;
    return IHEX_COUNT_UNKNOWN;
}

/* the color of the dump with this number */
static uint8_t color_of(size_t n)
{
    uint32_t before = stated_before(n), steps;
    if (history[n].what != STATES)
        return history[n].what == BROKEN ? IHEX_COLOR_BROKEN : IHEX_COLOR_NO_COUNT;
    if (before == IHEX_COUNT_UNKNOWN)
        return IHEX_COLOR_FIRST;
    steps = (history[n].count + COUNTS - before) % COUNTS;
    return steps == 0 ? IHEX_COLOR_STALE : steps < HALF ? IHEX_COLOR_GREEN : IHEX_COLOR_RESTARTED;
}

/* ---- a light, and what is lent to it */

static struct light {
    uint32_t first;
    size_t length, high, low;
} light;

static struct four_bytes known;
static struct byte color;

/* copies of page and marks: as they were before a dump, and as the loader leaves them */
LENT(old_page_, MOST);
LENT(old_marks_, MOST);
LENT(loaded_page_, MOST);
LENT(loaded_marks_, MOST);

/* a page of so many places, and its marks, each byte of both this one */
static void lend_page(size_t places, uint8_t byte)
{
    lend_close(&page_, places, byte);
    lend_close(&marks_, packed_len(places), byte);
}

/* sets up a light; known holds this number before */
static uint32_t set_up(struct light is, uint32_t before)
{
    uint32_t r;
    light = is;
    dumps = 0;
    known.before = known.after = FOUR_EDGE;
    known.value = before;
    r = ihex_set_up_light(is.first, is.length, is.high, is.low, &known.value);
    CHECK(known.value == IHEX_COUNT_UNKNOWN && WITHIN(known, FOUR_EDGE));
    return r;
}

/* the light knows this number from here on, and nothing of earlier dumps */
static void knows(uint32_t number)
{
    known.before = known.after = FOUR_EDGE;
    known.value = number;
    dumps = 0;
    if (number < COUNTS)
        history[dumps++] = a_count(number);
}

/* a light by hand that is not set up */
static void make_up(struct light is, uint32_t number)
{
    light = is;
    knows(number);
}

/* ---- a dump */

/* one call, with the text upon what page_ and marks_ hold */
static struct answer call(void)
{
    size_t n = strlen(text);
    const uint8_t *bytes;
    uint32_t r;
    text_.room = EDGE + n + EDGE;
    bytes = given(&text_, text, n);
    fresh();
    line.value = 77;
    started.value = 77;
    color.before = color.after = GUARD;
    color.value = 77;
    r = (kind == INTEL ? ihex_light : ihex_light_srecords)(bytes, n, light.first, light.length, light.high, light.low, bytes_of(&page_), page_.len,
                                                           bytes_of(&marks_), marks_.len, &known.value, &color.value, &line.value,
                                                           &started.value, &a.value, &b.value, &c.value);
    CHECK(same(&text_, text) && fenced() && WITHIN(known, FOUR_EDGE) && WITHIN(color, GUARD) && guarded(&page_) && guarded(&marks_));
    return answered(r);
}

static const struct answer bad_window = {R(IHEX_BAD_WINDOW), 0, IHEX_NO_START, {0, 0, 0}};

/* what a load of the text upon the old page and marks returns */
static struct answer load_old(void)
{
    copy(&loaded_page_, &old_page_);
    copy(&loaded_marks_, &old_marks_);
    loader = kind == INTEL ? ihex_load : ihex_load_srecords;
    fresh();
    line.value = 55;
    started.value = 55;
    return answered(loader(bytes_of(&text_), text_.len, light.first, bytes_of(&loaded_page_), loaded_page_.len, bytes_of(&loaded_marks_),
                           loaded_marks_.len, &line.value, &started.value, &a.value, &b.value, &c.value));
}

/* whether what that load left says this of the count */
static int load_says(uint32_t code, struct said says)
{
    const uint8_t *page = loaded_page_.all + EDGE, *marks = loaded_marks_.all + EDGE;
    if (code != IHEX_OK)
        return says.what == BROKEN;
    if (light.high >= light.length || light.low >= light.length || !unpacked(marks, light.high) || !unpacked(marks, light.low))
        return says.what == NO_COUNT;
    return says.what == STATES && says.count == 256u * page[light.high] + page[light.low];
}

/* a dump that says this, upon what page_ and marks_ hold */
static struct answer dump(struct said says)
{
    struct answer is, wanted;
    copy(&old_page_, &page_);
    copy(&old_marks_, &marks_);
    is = call();
    history[dumps++] = says;
    CHECK(color.value == color_of(dumps - 1));
    CHECK(known.value == stated_before(dumps));
    if (says.what == BROKEN)
        CHECK(is.code != IHEX_OK && equal(&page_, &old_page_) && equal(&marks_, &old_marks_));
    if (page_.len != light.length) {
        CHECK(alike(is, bad_window));
        return is;
    }
    wanted = load_old();
    CHECK(alike(is, wanted) && load_says(wanted.code, says));
    CHECK(equal(&page_, &loaded_page_) && equal(&marks_, &loaded_marks_));
    return is;
}

/* whether the dump shows this color */
static int shows(struct said says, uint8_t wanted)
{
    dump(says);
    return color.value == wanted;
}

/* whether the dump is broken, and refused like this */
static int broken_by(uint32_t why, uint64_t x, uint64_t y, size_t l)
{
    struct answer wanted = {R(why), l, IHEX_NO_START, {x, y, 0}};
    return alike(dump(refused_dump), wanted) && color.value == IHEX_COLOR_BROKEN;
}

/* ---- texts */

/* puts a byte for a place of the light's page */
static void put_at(size_t place, uint32_t byte)
{
    uint8_t is = (uint8_t)byte;
    data_of(light.first + (uint32_t)place, &is, 1);
}

static void put_count(uint32_t count)
{
    put_at(light.high, count / 256);
    put_at(light.low, count % 256);
}

/* a dump that states a count; where both places are the same, one with two equal bytes */
static struct said tell(uint32_t count)
{
    begin_text(kind);
    put_count(count);
    end();
    return a_count(count);
}

/* a dump of the end alone */
static struct said tell_nothing(void)
{
    begin_text(kind);
    end();
    return no_count;
}

/* a dump that states one byte of a count */
static struct said tell_half(size_t place, uint32_t byte)
{
    begin_text(kind);
    put_at(place, byte);
    end();
    return no_count;
}

/* a dump that states a count, and is refused at its last line */
static struct said tell_broken(uint32_t count)
{
    begin_text(kind);
    put_count(count);
    strcat(text, "x\n");
    end();
    return refused_dump;
}

static const struct light two_places = {0, 2, 0, 1};

/* pages at the beginning and at the end of the addresses, and across 64 KiB; places side by side, apart, and the low one before the high one */
static const struct light lights[] = {
    {0, 2, 0, 1}, {0x12000, 9, 8, 0}, {0xFFFC, 8, 3, 4}, {0xFFFFFFF0, 16, 15, 7}, {0xFFFFFFFE, 2, 1, 0}, {77, 300, 255, 256},
};

/* what page and marks hold before */
static const uint8_t olds[] = {0, OLD, 0xFF};

/* ---- setting up */

/* whether a light is set up, whatever the first address is and whatever known held */
static int made(size_t length, size_t high, size_t low)
{
    static const uint32_t firsts[] = {0, 1, 12000, 0x12000, 0xFFFF0000, 0xFFFFFFFF};
    static const uint32_t befores[] = {0, 5, 65535, 65536, 65537, 0x80000000, 0xFFFFFFFF};
    unsigned accepted = 0, refused = 0;
    size_t i, k;
    for (i = 0; i < COUNT(firsts); i++)
        for (k = 0; k < COUNT(befores); k++) {
            struct light is = {firsts[i], length, high, low};
            uint32_t r = set_up(is, befores[k]);
            accepted += r == IHEX_OK;
            refused += r == R(IHEX_BAD_PLACE);
        }
    CHECK(accepted + refused == COUNT(firsts) * COUNT(befores) && (accepted == 0 || refused == 0));
    return accepted > 0;
}

/* each place at each border of each length */
static void set_ups(void)
{
    static const size_t lengths[] = {1, 2, 7, 8, 9, 255, 256, 65535, 65536, 65537, SIZE_MAX / 2, SIZE_MAX - 1, SIZE_MAX};
    size_t i, k;
    for (i = 0; i < COUNT(lengths); i++) {
        size_t n = lengths[i], inside[] = {0, n / 2, n - 1}, outside[] = {n, n < SIZE_MAX ? n + 1 : n, SIZE_MAX};
        begin_case();
        for (k = 0; k < 9; k++) {
            CHECK(made(n, inside[k / 3], inside[k % 3]));
            CHECK(!made(n, inside[k / 3], outside[k % 3]) && !made(n, outside[k / 3], inside[k % 3]));
            CHECK(!made(n, outside[k / 3], outside[k % 3]));
        }
        end_case();
    }
    begin_case();
    CHECK(!made(0, 0, 0) && !made(0, 0, 1) && !made(0, 1, 0) && !made(0, SIZE_MAX, SIZE_MAX) && !made(0, 0, SIZE_MAX));
    end_case();
}

/* the examples: addresses in place of places, equal places, and a page that ends beyond the addresses */
static void set_up_examples(void)
{
    static const struct {
        struct light light;
        uint32_t code;
    } all[] = {
        {{12000, 8, 12000, 12001}, R(IHEX_BAD_PLACE)}, {{0x12000, 8, 0x12000, 0x12001}, R(IHEX_BAD_PLACE)}, {{12000, 8, 0, 12001}, R(IHEX_BAD_PLACE)},
        {{12000, 8, 12000, 1}, R(IHEX_BAD_PLACE)},     {{12000, 8, 0, 1}, IHEX_OK},                        {{0, 2, 1, 1}, IHEX_OK},
        {{0, 1, 0, 0}, IHEX_OK},                       {{0xFFFFFFFF, 2, 0, 1}, IHEX_OK},                   {{0xFFFF0001, 65536, 0, 1}, IHEX_OK},
        {{0, 65537, 0, 1}, IHEX_OK},                   {{0, 4, 9, 0}, R(IHEX_BAD_PLACE)},                  {{0, 4, 0, 9}, R(IHEX_BAD_PLACE)},
    };
    size_t i;
    for (i = 0; i < COUNT(all); i++)
        CHECK(set_up(all[i].light, 5) == all[i].code);
}

/* a dump with the count, the end alone, no line, or a line that is refused */
static void one_of_four(size_t which, uint32_t count)
{
    if (which == 0)
        tell(count);
    else if (which == 1)
        tell_nothing();
    else
        strcpy(text, which == 2 ? "" : "x\n");
}

/* a light that was set up with a window that no load takes: each dump is refused with 16, whatever the text is */
static void bad_windows(void)
{
    static const struct light all[] = {{0xFFFFFFFF, 2, 0, 1}, {0xFFFF0001, 65536, 0, 65535}, {0, 65537, 0, 1}, {0, 65544, 8, 7}};
    size_t i, k;
    for (i = 0; i < COUNT(all); i++)
        for (kind = INTEL; kind <= SRECORDS; kind++) {
            begin_case();
            CHECK(set_up(all[i], 5) == IHEX_OK);
            for (k = 0; k < 8; k++) {
                if (k == 4)
                    knows(5);
                lend_page(all[i].length, olds[k % 3]);
                one_of_four(k % 4, 6);
                CHECK(broken_by(IHEX_BAD_WINDOW, 0, 0, 0) && known.value == (k < 4 ? IHEX_COUNT_UNKNOWN : 5));
            }
            end_case();
        }
}

/* ---- rows of dumps, and how far a count moves */

/* a dump of a row: 'c' states the count, 'h' and 'l' only its high or its low byte, 'e' is the end alone, and 'x' is refused */
struct step {
    char what;
    uint32_t count;
    uint8_t color;
};

#define BROKEN_AT(count) {'x', count, IHEX_COLOR_BROKEN}
#define NOTHING {'e', 0, IHEX_COLOR_NO_COUNT}
#define HIGH_OF(count) {'h', count, IHEX_COLOR_NO_COUNT}
#define LOW_OF(count) {'l', count, IHEX_COLOR_NO_COUNT}
#define FIRST(count) {'c', count, IHEX_COLOR_FIRST}
#define GREEN(count) {'c', count, IHEX_COLOR_GREEN}
#define STALE(count) {'c', count, IHEX_COLOR_STALE}
#define RESTARTED(count) {'c', count, IHEX_COLOR_RESTARTED}

static struct said tell_step(const struct step *s)
{
    switch (s->what) {
    case 'c':
        return tell(s->count);
    case 'h':
        return tell_half(light.high, s->count / 256);
    case 'l':
        return tell_half(light.low, s->count % 256);
    case 'x':
        return tell_broken(s->count);
    default:
        return tell_nothing();
    }
}

#define MOST_STEPS 9

static const struct step rows[][MOST_STEPS] = {
    /* neither a dump without a count nor a refused one forgets, and "restarted" remembers */
    {FIRST(5), NOTHING, STALE(5)},
    {FIRST(5), BROKEN_AT(6), GREEN(6)},
    {FIRST(5), RESTARTED(4), STALE(4)},
    {FIRST(5), RESTARTED(4), GREEN(5), STALE(5)},
    {FIRST(5), STALE(5), STALE(5), GREEN(6), GREEN(7), STALE(7)},
    {FIRST(5), HIGH_OF(6), LOW_OF(6), STALE(5), GREEN(6)},
    {FIRST(5), HIGH_OF(6), GREEN(6), LOW_OF(5), STALE(6), RESTARTED(5)},
    {FIRST(5), GREEN(6), BROKEN_AT(7), BROKEN_AT(8), NOTHING, HIGH_OF(7), LOW_OF(7), STALE(6), GREEN(7)},
    {FIRST(5), BROKEN_AT(5), STALE(5), NOTHING, RESTARTED(3), BROKEN_AT(5), NOTHING, GREEN(5)},
    {FIRST(5), BROKEN_AT(4), RESTARTED(4), BROKEN_AT(5), GREEN(5)},
    /* before any count */
    {NOTHING, NOTHING, BROKEN_AT(6), HIGH_OF(7), LOW_OF(7), FIRST(7), STALE(7)},
    {BROKEN_AT(5), BROKEN_AT(6), FIRST(0), STALE(0)},
    {FIRST(0), STALE(0), GREEN(1)},
    {FIRST(65535), STALE(65535), GREEN(0), STALE(0), RESTARTED(65535)},
    {HIGH_OF(0x0506), FIRST(0x0506), LOW_OF(0x0507), STALE(0x0506)},
    /* the farthest that is forward, and the next */
    {FIRST(0), GREEN(32767), GREEN(65534), GREEN(65535), GREEN(0), STALE(0)},
    {FIRST(0), RESTARTED(32768), RESTARTED(0), GREEN(32767), RESTARTED(65535), GREEN(32766)},
    {FIRST(65535), GREEN(0), RESTARTED(65535), GREEN(32766), RESTARTED(65534), RESTARTED(65533)},
    {FIRST(32768), RESTARTED(0), GREEN(1), GREEN(32768), GREEN(65535), GREEN(0)},
    {FIRST(40000), GREEN(7231), RESTARTED(39999), RESTARTED(7231)},
    /* from one byte to the other */
    {FIRST(0x00FF), GREEN(0x0100), RESTARTED(0x00FF), GREEN(0x0100)},
    {FIRST(0x0102), GREEN(0x0201), RESTARTED(0x0102)},
    {FIRST(0x7FFF), GREEN(0x8000), GREEN(0xFFFF), GREEN(0x0000), GREEN(0x7FFF), RESTARTED(0x7FFE)},
};

/* which kind of dump each of a row is: the bits of a number, from the lowest on */
static const unsigned kinds[] = {0, 0x1FF, 0x155, 0x0AA, 0x0CC};

/* one row on one light, by dumps of these kinds */
static void one_row(const struct step *row, const struct light *is, unsigned of, uint8_t old)
{
    size_t i;
    begin_case();
    CHECK(set_up(*is, 5) == IHEX_OK);
    lend_page(is->length, old);
    for (i = 0; i < MOST_STEPS && row[i].what; i++) {
        kind = of >> i & 1 ? SRECORDS : INTEL;
        CHECK(shows(tell_step(row + i), row[i].color));
    }
    end_case();
}

static void all_rows(void)
{
    size_t i, k, m, o;
    for (i = 0; i < COUNT(rows); i++)
        for (k = 0; k < COUNT(lights); k++)
            for (m = 0; m < COUNT(kinds); m++)
                for (o = 0; o < COUNT(olds); o++)
                    one_row(rows[i], lights + k, kinds[m], olds[o]);
}

/* each step at a border, from each count at a border */
static void borders(void)
{
    static const uint32_t counts[] = {0, 1, 2, 127, 128, 254, 255, 256, 257, 32766, 32767, 32768, 32769, 65279, 65280, 65534, 65535};
    static const struct {
        uint32_t steps;
        uint8_t color;
    } all[] = {
        {0, IHEX_COLOR_STALE},         {1, IHEX_COLOR_GREEN},         {2, IHEX_COLOR_GREEN},         {127, IHEX_COLOR_GREEN},
        {128, IHEX_COLOR_GREEN},       {255, IHEX_COLOR_GREEN},       {256, IHEX_COLOR_GREEN},       {32766, IHEX_COLOR_GREEN},
        {32767, IHEX_COLOR_GREEN},     {32768, IHEX_COLOR_RESTARTED}, {32769, IHEX_COLOR_RESTARTED}, {65280, IHEX_COLOR_RESTARTED},
        {65534, IHEX_COLOR_RESTARTED}, {65535, IHEX_COLOR_RESTARTED},
    };
    size_t i, k, m;
    for (i = 0; i < COUNT(counts); i++)
        for (k = 0; k < COUNT(all); k++)
            for (m = 0; m < COUNT(kinds); m++) {
                uint32_t after = (counts[i] + all[k].steps) % COUNTS;
                begin_case();
                set_up(lights[m], 5);
                lend_page(light.length, OLD);
                kind = kinds[m] & 1 ? SRECORDS : INTEL;
                CHECK(shows(tell(counts[i]), IHEX_COLOR_FIRST) && known.value == counts[i]);
                kind = kinds[m] & 2 ? SRECORDS : INTEL;
                CHECK(shows(tell(after), all[k].color) && known.value == after);
                CHECK(shows(tell(after), IHEX_COLOR_STALE) && known.value == after);
                end_case();
            }
}

/* where the digits of a count are in the text, with the checksum after them, and what that is for the count 0 */
static char *digits;
static unsigned sum_of_0;

static void put_digits(char *at, unsigned byte)
{
    at[0] = "0123456789ABCDEF"[byte / 16];
    at[1] = "0123456789ABCDEF"[byte % 16];
}

/* a dump with a count in one record, of which the digits can be exchanged */
static void prepare(int of)
{
    begin_text(of);
    data_of(light.first + (uint32_t)light.high, "\0\0", 2);
    digits = text + strlen(text) - 7;
    sscanf(digits + 4, "%2X", &sum_of_0);
    end();
}

static struct said exchange(uint32_t count)
{
    put_digits(digits, count / 256);
    put_digits(digits + 2, count % 256);
    put_digits(digits + 4, (sum_of_0 - count / 256 - count % 256) % 256);
    return a_count(count);
}

/* every count after a known one */
static void every_step(int of, uint32_t from)
{
    uint32_t steps, found[6] = {0};
    make_up(two_places, from);
    lend_page(2, OLD);
    prepare(of);
    begin_case();
    for (steps = 0; steps < COUNTS; steps++) {
        knows(from);
        dump(exchange((from + steps) % COUNTS));
        found[color.value % 6]++;
        CHECK(color.value == (steps == 0 ? IHEX_COLOR_STALE : steps <= 32767 ? IHEX_COLOR_GREEN : IHEX_COLOR_RESTARTED));
    }
    CHECK(found[IHEX_COLOR_STALE] == 1 && found[IHEX_COLOR_GREEN] == 32767 && found[IHEX_COLOR_RESTARTED] == 32768);
    end_case();
}

/* dumps that move the count by the same steps each, until every count has been known */
static void every_count(int of, uint32_t steps, uint8_t wanted)
{
    uint32_t count = 0, i;
    set_up(two_places, 5);
    lend_page(2, OLD);
    prepare(of);
    begin_case();
    for (i = 0; i <= COUNTS; i++) {
        CHECK(shows(exchange(count), i == 0 ? IHEX_COLOR_FIRST : wanted));
        count = (count + steps) % COUNTS;
    }
    end_case();
}

static void every_step_and_count(void)
{
    every_step(INTEL, 0);
    every_step(INTEL, 40001);
    every_step(SRECORDS, 32767);
    every_step(SRECORDS, 65535);
    every_count(INTEL, 1, IHEX_COLOR_GREEN);
    every_count(INTEL, 65535, IHEX_COLOR_RESTARTED);
    every_count(SRECORDS, 1, IHEX_COLOR_GREEN);
    every_count(SRECORDS, 32767, IHEX_COLOR_GREEN);
    every_count(SRECORDS, 32769, IHEX_COLOR_RESTARTED);
}

/* ---- what a dump states */

/* a count that is next to the known one, in the page from before, with all places marked */
static void leave_count(uint32_t count)
{
    lend_page(light.length, 0xFF);
    page_.all[EDGE + light.high] = (uint8_t)(count / 256);
    page_.all[EDGE + light.low] = (uint8_t)(count % 256);
}

/* one place marked, the other, or neither: no count, whatever the page holds from before */
static void one_place(void)
{
    size_t i;
    for (i = 0; i < COUNT(lights); i++)
        for (kind = INTEL; kind <= SRECORDS; kind++) {
            uint32_t count = 0x0506;
            begin_case();
            set_up(lights[i], 5);
            leave_count(count);
            CHECK(shows(tell_nothing(), IHEX_COLOR_NO_COUNT) && known.value == IHEX_COUNT_UNKNOWN);
            leave_count(count);
            CHECK(shows(tell_half(light.high, 5), IHEX_COLOR_NO_COUNT) && known.value == IHEX_COUNT_UNKNOWN);
            leave_count(count);
            CHECK(shows(tell_half(light.low, 6), IHEX_COLOR_NO_COUNT) && known.value == IHEX_COUNT_UNKNOWN);
            CHECK(shows(tell(count - 1), IHEX_COLOR_FIRST));
            leave_count(count);
            CHECK(shows(tell_nothing(), IHEX_COLOR_NO_COUNT) && known.value == count - 1);
            leave_count(count);
            CHECK(shows(tell_half(light.high, 5), IHEX_COLOR_NO_COUNT) && known.value == count - 1);
            leave_count(count);
            CHECK(shows(tell_half(light.low, 6), IHEX_COLOR_NO_COUNT) && known.value == count - 1);
            CHECK(page_.all[EDGE + light.high] == 5 && page_.all[EDGE + light.low] == 6);
            CHECK(shows(tell(count), IHEX_COLOR_GREEN) && known.value == count);
            end_case();
        }
}

/* all places but one are stated, for each place of the page: no count exactly if it is one of the two */
static void all_but_one(void)
{
    const struct light is = {0x12000, 20, 7, 16};
    uint8_t bytes[20];
    size_t out, i;
    for (i = 0; i < sizeof bytes; i++)
        bytes[i] = (uint8_t)(i + 1);
    for (kind = INTEL; kind <= SRECORDS; kind++)
        for (out = 0; out < is.length; out++) {
            int states = out != is.high && out != is.low;
            begin_case();
            make_up(is, 0x0810);
            leave_count(0x0811);
            begin_text(kind);
            data_of(is.first, bytes, out);
            data_of(is.first + (uint32_t)out + 1, bytes + out + 1, is.length - out - 1);
            end();
            CHECK(shows(states ? a_count(0x0811) : no_count, states ? IHEX_COLOR_GREEN : IHEX_COLOR_NO_COUNT));
            CHECK(known.value == (states ? 0x0811 : 0x0810));
            end_case();
        }
}

/* a count that is stated twice: of each byte the last one counts */
static void stated_twice(void)
{
    size_t i;
    for (i = 0; i < COUNT(lights); i++)
        for (kind = INTEL; kind <= SRECORDS; kind++) {
            begin_case();
            make_up(lights[i], 0x0105);
            lend_page(light.length, OLD);
            begin_text(kind);
            put_count(0x0104);
            put_count(0x0106);
            end();
            CHECK(shows(a_count(0x0106), IHEX_COLOR_GREEN));
            begin_text(kind);
            put_count(0x0107);
            put_count(0x0106);
            end();
            CHECK(shows(a_count(0x0106), IHEX_COLOR_STALE));
            begin_text(kind);
            put_count(0x0107);
            put_at(light.low, 0x05);
            end();
            CHECK(shows(a_count(0x0105), IHEX_COLOR_RESTARTED));
            begin_text(kind);
            put_count(0x0005);
            put_at(light.high, 0x02);
            put_at(light.high, 0x01);
            end();
            CHECK(shows(a_count(0x0105), IHEX_COLOR_STALE));
            end_case();
        }
}

/* ---- after the end record */

/* a count after the end record does not count, alone and beside one before it */
static void after_the_end(void)
{
    size_t i;
    for (i = 0; i < COUNT(lights); i++)
        for (kind = INTEL; kind <= SRECORDS; kind++) {
            begin_case();
            make_up(lights[i], 5);
            leave_count(6);
            tell_nothing();
            put_count(6);
            CHECK(shows(no_count, IHEX_COLOR_NO_COUNT));
            end();
            CHECK(shows(no_count, IHEX_COLOR_NO_COUNT));
            tell_half(light.high, 0);
            put_at(light.low, 6);
            end();
            CHECK(shows(no_count, IHEX_COLOR_NO_COUNT));
            tell(5);
            put_count(6);
            CHECK(shows(a_count(5), IHEX_COLOR_STALE));
            tell(6);
            put_count(5);
            end();
            CHECK(shows(a_count(6), IHEX_COLOR_GREEN));
            tell(7);
            strcat(text, "x\n");
            CHECK(shows(a_count(7), IHEX_COLOR_GREEN));
            end_case();
        }
}

/* a receive buffer: a new dump lies upon an old, longer one, whose tail follows it, cut anywhere */
static void old_tails(void)
{
    char old[sizeof text], new[sizeof text];
    size_t gap;
    for (kind = INTEL; kind <= SRECORDS; kind++)
        for (gap = 0; gap < 60; gap++) {
            begin_case();
            make_up(lights[1], 0x0205);
            lend_page(light.length, OLD);
            begin_text(kind);
            put_count(0x0105);
            put_count(0x0105);
            put_count(0x0105);
            end();
            strcpy(old, text);
            begin_text(kind);
            memset(text, '\n', gap);
            text[gap] = 0;
            put_count(0x0206);
            end();
            strcpy(new, text);
            strcat(text, old + strlen(new));
            CHECK(strlen(text) == strlen(old) && shows(a_count(0x0206), IHEX_COLOR_GREEN));
            CHECK(shows(a_count(0x0206), IHEX_COLOR_STALE));
            end_case();
        }
}

/* the incident: its receive buffer, with a count at 20000120. The dump states 0080, and the old tail 0035 */
static void incident(void)
{
    static const char buffer[] = ":020000042000DA\n:02010000214696\n:08011000214518004870091593\n:04012000008000005B\n:00000001FF\n"
                                 ":0A0110002150176531200940153514\n:040120000035006046\n:00000001FF\n";
    static const struct light is = {0x20000100, 36, 32, 33};
    static const struct {
        uint32_t known;
        uint8_t color;
    } all[] = {
        {IHEX_COUNT_UNKNOWN, IHEX_COLOR_FIRST}, {0x35, IHEX_COLOR_GREEN},     {0x7F, IHEX_COLOR_GREEN},
        {0x80, IHEX_COLOR_STALE},               {0x81, IHEX_COLOR_RESTARTED},
    };
    size_t i;
    for (i = 0; i < COUNT(all); i++) {
        begin_case();
        make_up(is, all[i].known);
        lend_page(is.length, OLD);
        begin_text(INTEL);
        strcpy(text, buffer);
        CHECK(shows(a_count(0x80), all[i].color) && known.value == 0x80);
        CHECK(shows(a_count(0x80), IHEX_COLOR_STALE));
        end_case();
    }
}

/* a dump that is cut off: broken before its end record is whole, and green from there on */
static void cuts(void)
{
    char whole[sizeof text];
    size_t n, end_of_end;
    for (kind = INTEL; kind <= SRECORDS; kind++) {
        make_up(lights[1], 5);
        tell(6);
        end_of_end = strlen(text) - 1;
        put_count(7);
        end();
        strcpy(whole, text);
        for (n = 0; n <= strlen(whole); n++) {
            begin_case();
            knows(5);
            leave_count(6);
            memcpy(text, whole, n);
            text[n] = 0;
            if (n < end_of_end)
                CHECK(shows(refused_dump, IHEX_COLOR_BROKEN) && known.value == 5);
            else
                CHECK(shows(a_count(6), IHEX_COLOR_GREEN) && known.value == 6);
            end_case();
        }
    }
}

/* ---- places and lengths */

/* how the two bytes are stated */
enum { HIGH_THEN_LOW, LOW_THEN_HIGH, ONE_RECORD, WAYS };

/* a dump that states a count in such a way; where both places are the same, its two bytes are equal */
static struct said tell_so(int way, uint32_t count)
{
    uint8_t bytes[IHEX_MAX_SRECORD_DATA];
    size_t from = light.high < light.low ? light.high : light.low, n = light.high + light.low - 2 * from + 1;
    if (way == HIGH_THEN_LOW || n > IHEX_MAX_SRECORD_DATA - 2)
        return tell(count);
    begin_text(kind);
    if (way == LOW_THEN_HIGH) {
        put_at(light.low, count % 256);
        put_at(light.high, count / 256);
    } else {
        memset(bytes, 0x99, n);
        bytes[light.high - from] = (uint8_t)(count / 256);
        bytes[light.low - from] = (uint8_t)(count % 256);
        data_of(light.first + (uint32_t)from, bytes, n);
    }
    end();
    return a_count(count);
}

/* a row of dumps on a light with these places, stated in each way, and with either place alone */
static void one_pair(struct light is, int of)
{
    int way;
    begin_case();
    kind = of;
    CHECK(set_up(is, 5) == IHEX_OK);
    lend_page(is.length, 0xFF);
    CHECK(shows(tell_nothing(), IHEX_COLOR_NO_COUNT));
    for (way = 0; way < WAYS; way++) {
        CHECK(shows(tell_so(way, 0x0101), way == 0 ? IHEX_COLOR_FIRST : IHEX_COLOR_STALE));
        CHECK(shows(tell_so(way, 0x0202), IHEX_COLOR_GREEN));
        CHECK(shows(tell_so(way, 0x0101), IHEX_COLOR_RESTARTED));
    }
    if (is.high != is.low) {
        CHECK(shows(tell_half(is.high, 1), IHEX_COLOR_NO_COUNT) && shows(tell_half(is.low, 2), IHEX_COLOR_NO_COUNT));
        CHECK(shows(tell_so(ONE_RECORD, 0x0203), IHEX_COLOR_GREEN) && shows(tell_so(LOW_THEN_HIGH, 0x0302), IHEX_COLOR_GREEN));
        CHECK(shows(tell_so(ONE_RECORD, 0x0203), IHEX_COLOR_RESTARTED));
    }
    end_case();
}

/* each two places of short pages, and of a full page those at its ends and about a byte of the marks */
static void places(void)
{
    static const size_t lengths[] = {1, 2, 7, 8, 9, 17}, ends[] = {0, 1, 7, 8, 32767, 65528, 65534, 65535};
    static const uint32_t firsts[] = {0, 0xFFFB, 0xFFFFFF00};
    size_t i, high, low;
    for (i = 0; i < COUNT(lengths); i++)
        for (high = 0; high < lengths[i]; high++)
            for (low = 0; low < lengths[i]; low++) {
                struct light is = {firsts[(high + low) % 3], lengths[i], high, low};
                one_pair(is, INTEL);
                one_pair(is, SRECORDS);
            }
    for (high = 0; high < COUNT(ends); high++)
        for (low = 0; low < COUNT(ends); low++) {
            struct light is = {(high + low) % 2 ? 0 : 0xFFFF0000, IHEX_MAX_PAGE, ends[high], ends[low]};
            one_pair(is, low % 2 ? INTEL : SRECORDS);
        }
}

/* both places the same: the byte is the high one and the low one, so the count is 257 times the byte */
static void equal_places(void)
{
    static const struct {
        uint8_t byte, color;
    } row[] = {
        {1, IHEX_COLOR_FIRST},   {1, IHEX_COLOR_STALE}, {2, IHEX_COLOR_GREEN},       {1, IHEX_COLOR_RESTARTED},
        {128, IHEX_COLOR_GREEN}, {0, IHEX_COLOR_GREEN}, {255, IHEX_COLOR_RESTARTED}, {0, IHEX_COLOR_GREEN},
        {127, IHEX_COLOR_GREEN}, {255, IHEX_COLOR_RESTARTED},
    };
    const struct light is = {0x100, 9, 8, 8};
    size_t i;
    for (kind = INTEL; kind <= SRECORDS; kind++) {
        begin_case();
        CHECK(set_up(is, 5) == IHEX_OK);
        lend_page(is.length, OLD);
        for (i = 0; i < COUNT(row); i++) {
            tell_half(is.high, row[i].byte);
            CHECK(shows(a_count(257u * row[i].byte), row[i].color));
        }
        CHECK(shows(tell_half(7, 3), IHEX_COLOR_NO_COUNT) && shows(tell_nothing(), IHEX_COLOR_NO_COUNT) && known.value == 65535);
        end_case();
    }
}

/* a page or marks of another length: refused with 16 before the text is read, and nothing changes */
static void one_misfit(struct light is, size_t page_len, size_t marks_len, int of)
{
    size_t which;
    begin_case();
    kind = of;
    for (which = 0; which < 4; which++) {
        make_up(is, which % 2 ? 5 : IHEX_COUNT_UNKNOWN);
        lend_close(&page_, page_len, OLD);
        lend_close(&marks_, marks_len, 0xFF);
        one_of_four(which, 6);
        CHECK(broken_by(IHEX_BAD_WINDOW, 0, 0, 0) && known.value == (which % 2 ? 5 : IHEX_COUNT_UNKNOWN));
    }
    end_case();
}

static void misfits(void)
{
    static const size_t lengths[] = {1, 2, 7, 8, 9, 16, 17, 255, 256, 257, 65535, 65536, 65537};
    size_t i, k;
    for (i = 0; i < COUNT(lengths); i++)
        for (k = 0; k < COUNT(lengths); k++) {
            struct light is = {0, lengths[i], lengths[i] - 1, 0};
            size_t places = lengths[k], marks = packed_len(places);
            int of = (i + k) % 2 ? INTEL : SRECORDS;
            if (i != k) {
                one_misfit(is, places, marks, of);
                one_misfit(is, places, packed_len(lengths[i]), of);
                continue;
            }
            one_misfit(is, places, marks + 1, of);
            one_misfit(is, places, marks - 1, of);
            one_misfit(is, places, 0, of);
            one_misfit(is, 0, 0, of);
            one_misfit(is, places + 1, packed_len(places + 1), of);
            one_misfit(is, places - 1, packed_len(places - 1), of);
            if (places > 8)
                one_misfit(is, places, places, of);
        }
}

/* the same dump twice, once with marks of another length and then with the right ones: then the second may be green */
static void marks_that_fit_later(void)
{
    for (kind = INTEL; kind <= SRECORDS; kind++) {
        begin_case();
        make_up(two_places, 5);
        lend_page(2, OLD);
        lend_close(&marks_, 2, OLD);
        tell(6);
        CHECK(broken_by(IHEX_BAD_WINDOW, 0, 0, 0));
        lend_close(&marks_, 1, OLD);
        CHECK(shows(a_count(6), IHEX_COLOR_GREEN));
        end_case();
    }
}

/* ---- refusals */

/* what a light knows before a dump that is refused, or that states no count */
static const uint32_t knowns[] = {5, 0, 65535, IHEX_COUNT_UNKNOWN, 65537, 0x10005, 0x80000005, 0xFFFFFFFF};

/* what it knows after it */
static uint32_t kept(uint32_t number)
{
    return number < COUNTS ? number : IHEX_COUNT_UNKNOWN;
}

/* the color of the count 6 or 7 after each of these */
static uint8_t next_color(uint32_t number)
{
    return number < COUNTS ? IHEX_COLOR_GREEN : IHEX_COLOR_FIRST;
}

static size_t line_feeds(const char *in)
{
    size_t n = 0;
    for (; *in; in++)
        n += *in == '\n';
    return n;
}

/* a dump that states a count, 6, is refused at the last of these lines; the dump after it has the color that it had without it */
static void broken_at(const char *bad, uint32_t why, uint64_t x, uint64_t y)
{
    size_t i;
    begin_case();
    for (i = 0; i < COUNT(knowns); i++) {
        make_up(lights[1], knowns[i]);
        leave_count(6);
        begin_text(kind);
        put_count(6);
        sprintf(text + strlen(text), "\n%s\n", bad);
        end();
        CHECK(broken_by(why, x, y, line_of(2) + 2 + line_feeds(bad)) && known.value == kept(knowns[i]));
        CHECK(shows(tell(6), next_color(knowns[i])));
    }
    end_case();
}

static void refusals(void)
{
    char long_line[600];
    size_t i;
    memset(long_line, '0', sizeof long_line - 1);
    long_line[sizeof long_line - 1] = 0;
    kind = INTEL;
    for (i = 0; i < COUNT(bad_lines); i++)
        broken_at(bad_lines[i].line, bad_lines[i].why, bad_lines[i].a, bad_lines[i].b);
    long_line[0] = ':';
    broken_at(long_line, IHEX_RECORD_TOO_LONG, 0, 0);
    broken_at(":0120090011C5", IHEX_OUTSIDE_WINDOW, 0x12009, 0);
    broken_at(":022008001122A3", IHEX_OUTSIDE_WINDOW, 0x12009, 0);
    broken_at(":011FFF0011D0", IHEX_OUTSIDE_WINDOW, 0x11FFF, 0);
    broken_at(":04000005000000CD2A\n:04000005000000CE29", IHEX_START_CONFLICT, 0, 0);
    broken_at(":04000005000000CD2A\n:04000003000000CD2C", IHEX_START_CONFLICT, 0, 0);
    kind = SRECORDS;
    for (i = 0; i < COUNT(bad_srecords); i++)
        broken_at(bad_srecords[i].line, bad_srecords[i].why, bad_srecords[i].a, bad_srecords[i].b);
    long_line[0] = 'S';
    long_line[1] = '1';
    broken_at(long_line, IHEX_RECORD_TOO_LONG, 0, 0);
    broken_at("S104000011EA", IHEX_OUTSIDE_WINDOW, 0, 0);
    broken_at("S5030002FA\nS5030001FB", IHEX_COUNT_MISMATCH, 1, 2);
}

/* no end record, a dump of the other kind, and a refused line before the count */
static void other_refusals(void)
{
    size_t i;
    for (kind = INTEL; kind <= SRECORDS; kind++)
        for (i = 0; i < COUNT(knowns); i++) {
            begin_case();
            make_up(lights[1], knowns[i]);
            leave_count(6);
            text[0] = 0;
            CHECK(broken_by(IHEX_MISSING_END_OF_FILE_RECORD, 0, 0, 0) && known.value == kept(knowns[i]));
            put_count(6);
            CHECK(broken_by(IHEX_MISSING_END_OF_FILE_RECORD, 0, 0, 0) && known.value == kept(knowns[i]));
            strcpy(text, "\n\nx\n");
            put_count(6);
            end();
            CHECK(broken_by(IHEX_MISSING_START_CODE, 0, 0, 3) && known.value == kept(knowns[i]));
            tell(6);
            kind = kind == INTEL ? SRECORDS : INTEL;
            CHECK(broken_by(IHEX_MISSING_START_CODE, 0, 0, 1) && known.value == kept(knowns[i]));
            kind = kind == INTEL ? SRECORDS : INTEL;
            CHECK(shows(tell(7), next_color(knowns[i])));
            end_case();
        }
}

/* ---- lights that are made up by hand */

/* a place outside the page: an accepted dump has no count, and a refused one is broken */
static void one_outside(struct light is)
{
    uint8_t bytes[16];
    size_t i;
    memset(bytes, 1, sizeof bytes);
    begin_case();
    for (i = 0; i < COUNT(knowns); i++) {
        make_up(is, knowns[i]);
        lend_page(is.length, 0xFF);
        begin_text(kind);
        data_of(is.first, bytes, is.length);
        end();
        CHECK(shows(no_count, IHEX_COLOR_NO_COUNT) && known.value == kept(knowns[i]));
        lend_page(is.length, 0xFF);
        CHECK(shows(tell_nothing(), IHEX_COLOR_NO_COUNT) && known.value == kept(knowns[i]));
        strcpy(text, "x\n");
        CHECK(broken_by(IHEX_MISSING_START_CODE, 0, 0, 1) && known.value == kept(knowns[i]));
    }
    end_case();
}

/* each length with places at its end, in the unused bits of the marks, in the bytes after them, and as far as numbers go */
static void outside(void)
{
    static const size_t lengths[] = {0, 1, 4, 7, 8, 9, 16}, far[] = {0, 1, 3, 5, 7, 8, 9, 64, 65536, SIZE_MAX / 2};
    size_t i, k;
    for (kind = INTEL; kind <= SRECORDS; kind++)
        for (i = 0; i < COUNT(lengths); i++)
            for (k = 0; k <= COUNT(far); k++) {
                size_t n = lengths[i], beyond = k < COUNT(far) ? n + far[k] : SIZE_MAX;
                const struct light all[] = {{0x100, n, beyond, 0}, {0x100, n, 0, beyond}, {0x100, n, beyond, beyond}};
                one_outside(all[0]);
                one_outside(all[1]);
                one_outside(all[2]);
            }
}

/* every number over 65,535 means that no count is known, and it becomes 65,536 where none is stated */
static void numbers(void)
{
    size_t i;
    for (kind = INTEL; kind <= SRECORDS; kind++)
        for (i = 0; i < COUNT(knowns); i++) {
            begin_case();
            make_up(lights[1], knowns[i]);
            lend_page(light.length, OLD);
            CHECK(shows(tell_nothing(), IHEX_COLOR_NO_COUNT) && known.value == kept(knowns[i]));
            knows(knowns[i]);
            CHECK(shows(tell_half(light.high, 0), IHEX_COLOR_NO_COUNT) && known.value == kept(knowns[i]));
            knows(knowns[i]);
            CHECK(shows(tell_half(light.low, 6), IHEX_COLOR_NO_COUNT) && known.value == kept(knowns[i]));
            knows(knowns[i]);
            CHECK(shows(tell_broken(6), IHEX_COLOR_BROKEN) && known.value == kept(knowns[i]));
            knows(knowns[i]);
            CHECK(shows(tell(6), next_color(knowns[i])) && known.value == 6);
            knows(knowns[i]);
            CHECK(shows(tell(knowns[i] % COUNTS), knowns[i] < COUNTS ? IHEX_COLOR_STALE : IHEX_COLOR_FIRST));
            end_case();
        }
}

/* a page of no places, the longest page, and one that is too long */
static void lengths(void)
{
    const struct light nowhere = {5, 0, 0, 0}, longest = {0, 65536, 65535, 0}, too_long = {0, 65537, 65536, 0};
    for (kind = INTEL; kind <= SRECORDS; kind++) {
        begin_case();
        CHECK(set_up(nowhere, 5) == R(IHEX_BAD_PLACE));
        lend_page(0, OLD);
        CHECK(shows(tell_nothing(), IHEX_COLOR_NO_COUNT));
        tell(6);
        CHECK(broken_by(IHEX_OUTSIDE_WINDOW, 5, 0, line_of(1)));
        lend_page(1, OLD);
        CHECK(broken_by(IHEX_BAD_WINDOW, 0, 0, 0));
        CHECK(set_up(longest, 5) == IHEX_OK);
        lend_page(65536, OLD);
        CHECK(shows(tell(5), IHEX_COLOR_FIRST) && shows(tell(6), IHEX_COLOR_GREEN) && shows(tell_half(65535, 0), IHEX_COLOR_NO_COUNT));
        CHECK(set_up(too_long, 5) == IHEX_OK);
        lend_page(65537, OLD);
        tell(6);
        CHECK(broken_by(IHEX_BAD_WINDOW, 0, 0, 0));
        end_case();
    }
}

/* ---- the same dump twice running */

/* twice, the second time upon another old page and other marks: never green then, and all that is returned is the same */
static void twice(const struct step *s, struct light is, uint32_t number, uint8_t old)
{
    size_t i;
    for (i = 0; i <= COUNT(olds); i++) {
        struct said says;
        struct answer answer;
        uint8_t shown;
        make_up(is, number);
        lend_page(is.length, old);
        says = tell_step(s);
        answer = dump(says);
        shown = color.value;
        if (i < COUNT(olds))
            lend_page(is.length, olds[i]);
        CHECK(alike(dump(says), answer) && color.value != IHEX_COLOR_GREEN);
        CHECK(color.value == (says.what == STATES ? IHEX_COLOR_STALE : shown));
    }
}

static void same_twice(void)
{
    static const uint32_t counts[] = {0, 1, 5, 6, 0x0605, 32767, 32768, 65535};
    size_t i, k, m;
    for (kind = INTEL; kind <= SRECORDS; kind++)
        for (i = 0; i < COUNT(counts); i++)
            for (k = 0; k < COUNT(knowns); k++) {
                begin_case();
                for (m = 0; m < 5 * COUNT(olds); m++) {
                    const struct step s = {"chlex"[m % 5], counts[i], 0};
                    twice(&s, lights[(i + k + m) % COUNT(lights)], knowns[k], olds[m / 5]);
                }
                end_case();
            }
}

/* ---- by chance */

static struct light draw_light(void)
{
    static const uint32_t firsts[] = {0, 0xFFF0, 0x12000, 0xFFFFFF00};
    struct light is = {firsts[draw(COUNT(firsts))] + draw(9), 1 + draw(40), 0, 0};
    is.high = draw((uint32_t)is.length);
    is.low = draw((uint32_t)is.length);
    return is;
}

/* a count: at a border from the one that was stated last, or any */
static uint32_t draw_count(void)
{
    static const uint32_t steps[] = {0, 0, 1, 1, 1, 2, 255, 256, 32766, 32767, 32768, 32769, 65534, 65535};
    uint32_t count = draw(4) ? stated_before(dumps) + steps[draw(COUNT(steps))] : draw(COUNTS);
    return light.high == light.low ? 257 * (count % 256) : count % COUNTS;
}

/* puts some bytes at places of the page that are not the count's, and at times what changes nothing */
static void draw_others(void)
{
    uint32_t n = draw(4);
    while (n-- > 0) {
        size_t place = draw((uint32_t)light.length);
        if (place != light.high && place != light.low)
            put_at(place, draw(256));
    }
    if (draw(4) == 0)
        strcat(text, draw(2) ? "\n" : "\r\n");
    if (draw(4) == 0)
        strcat(text, kind == INTEL ? ":04000005000000CD2A\n" : "S004000148B2\n");
}

/* puts a line that is refused: of some form, or with a byte outside the page; the count of an S5 is left out */
static void draw_bad(void)
{
    if (draw(4) == 0) {
        put_at(draw(2) ? light.length : SIZE_MAX, draw(256));
        return;
    }
    strcat(text, kind == INTEL ? bad_lines[draw(COUNT(bad_lines))].line : bad_srecords[draw(COUNT(bad_srecords) - 1)].line);
    strcat(text, "\n");
}

/* puts a count, with its bytes in either order, and at times another one before it */
static struct said draw_stated(void)
{
    uint32_t count = draw_count();
    if (draw(4) == 0)
        put_count(draw(COUNTS));
    if (draw(2))
        put_at(light.high, count / 256);
    draw_others();
    put_at(light.low, count % 256);
    put_at(light.high, count / 256);
    return a_count(count);
}

/* a dump of either kind, and what it says */
static struct said draw_dump(void)
{
    struct said says = no_count;
    begin_text(draw(2) ? INTEL : SRECORDS);
    draw_others();
    if (draw(3))
        says = draw_stated();
    else if (light.high != light.low && draw(3))
        put_at(draw(2) ? light.high : light.low, draw(256));
    draw_others();
    if (draw(5) == 0) {
        draw_bad();
        says = refused_dump;
    }
    if (draw(16) == 0)
        return refused_dump;
    end();
    if (draw(4) == 0)
        put_count(draw(COUNTS));
    if (draw(8) == 0)
        end();
    return says;
}

/* a page and marks of the right lengths, with bytes by chance */
static void draw_page(void)
{
    size_t i;
    lend_page(light.length, 0);
    for (i = 0; i < page_.len; i++)
        page_.all[EDGE + i] = (uint8_t)draw(256);
    for (i = 0; i < marks_.len; i++)
        marks_.all[EDGE + i] = (uint8_t)draw(256);
}

/* the dump that was drawn, upon a page or marks of another length */
static void draw_misfit(void)
{
    if (draw(2))
        lend_page(draw(2) ? light.length + 1 : light.length - 1, OLD);
    else
        lend_close(&marks_, marks_.len + 1, OLD);
    dump(refused_dump);
    draw_page();
}

/* how often each color came to pass */
static unsigned shown[6];

/* a row of a thousand dumps; at times the same again, at times upon other old contents, and at times with another length */
static void one_row_by_chance(void)
{
    struct said says = no_count;
    int i;
    begin_case();
    CHECK(set_up(draw_light(), 5) == IHEX_OK);
    draw_page();
    begin_text(INTEL);
    end();
    for (i = 0; i < 1000; i++) {
        int again = draw(6) == 0;
        if (!again)
            says = draw_dump();
        if (draw(4) == 0)
            draw_page();
        if (!again && draw(16) == 0)
            draw_misfit();
        dump(says);
        CHECK(!again || color.value != IHEX_COLOR_GREEN);
        shown[color.value % 6]++;
    }
    end_case();
}

static void by_chance(void)
{
    int row;
    for (row = 0; row < 40; row++)
        one_row_by_chance();
    CHECK(shown[IHEX_COLOR_BROKEN] > 5000 && shown[IHEX_COLOR_NO_COUNT] > 5000 && shown[IHEX_COLOR_GREEN] > 5000);
    CHECK(shown[IHEX_COLOR_STALE] > 3000 && shown[IHEX_COLOR_RESTARTED] > 3000 && shown[IHEX_COLOR_FIRST] > 30);
}

/* ---- beside the loader, by name */

/* what the light returns and leaves is what a load does, in buffers with all their guards */
static void beside_the_loader(void)
{
    static const char good[] = ":020000021200EA\n:020003000506F0\n:00000001FF\n:0100030011EB\n", bad[] = ":020003000506F0\n:00000001FE\n";
    static const struct light is = {0x12000, 8, 3, 4};
    page_.room = sizeof page_room;
    marks_.room = sizeof marks_room;
    text_.room = sizeof text_room;
    loader = ihex_load;
    CHECK(load(good, is.first, 8) == IHEX_OK && loaded(1, "00011000", 3, "\5\6"));
    make_up(is, 0x0505);
    begin_text(INTEL);
    strcpy(text, good);
    lend(&page_, 8);
    lend(&marks_, 1);
    CHECK(call().code == IHEX_OK && loaded(1, "00011000", 3, "\5\6") && values(1, 0, 0));
    CHECK(color.value == IHEX_COLOR_GREEN && known.value == 0x0506);
    CHECK(load(bad, 0, 8) == R(IHEX_CHECKSUM_MISMATCH) && not_loaded(0xFF, 0xFE, 2));
    light.first = 0;
    strcpy(text, bad);
    lend(&page_, 8);
    lend(&marks_, 1);
    CHECK(call().code == R(IHEX_CHECKSUM_MISMATCH) && not_loaded(0xFF, 0xFE, 2) && values(0xFF, 0xFE, 0));
    CHECK(color.value == IHEX_COLOR_BROKEN && known.value == 0x0506);
}

/* a start is returned as a load returns it, with each color of an accepted dump */
static void starts_in_dumps(void)
{
    static const struct {
        int kind;
        const char *end;
        uint8_t start;
        uint64_t x, y;
    } all[] = {
        {INTEL, ":0400000312000010D7\n:00000001FF\n", IHEX_START_SEGMENT_ADDRESS, 0x1200, 0x10},
        {INTEL, ":04000005000000CD2A\n:00000001FF\n", IHEX_START_LINEAR_ADDRESS, 0xCD, 0},
        {INTEL, ":00000001FF\n", IHEX_NO_START, 0, 0},
        {SRECORDS, "S70512345678E6\n", IHEX_START_LINEAR_ADDRESS, 0x12345678, 0},
        {SRECORDS, "S8041234565F\n", IHEX_START_LINEAR_ADDRESS, 0x123456, 0},
        {SRECORDS, "S9030000FC\n", IHEX_START_LINEAR_ADDRESS, 0, 0},
    };
    static const uint32_t counts[] = {5, 6, 6, 4};
    size_t i, k;
    for (i = 0; i < COUNT(all); i++) {
        struct answer wanted = {IHEX_OK, 0, all[i].start, {2, all[i].x, all[i].y}};
        begin_case();
        set_up(lights[1], 5);
        lend_page(light.length, OLD);
        for (k = 0; k < COUNT(counts); k++) {
            begin_text(all[i].kind);
            put_count(counts[k]);
            strcat(text, all[i].end);
            CHECK(alike(dump(a_count(counts[k])), wanted));
        }
        begin_text(all[i].kind);
        strcat(text, all[i].end);
        wanted.values[0] = 0;
        CHECK(alike(dump(no_count), wanted));
        end_case();
    }
}

int main(void)
{
    beside_the_loader();
    starts_in_dumps();
    set_ups();
    set_up_examples();
    bad_windows();
    all_rows();
    borders();
    every_step_and_count();
    one_place();
    all_but_one();
    stated_twice();
    after_the_end();
    old_tails();
    incident();
    cuts();
    places();
    equal_places();
    misfits();
    marks_that_fit_later();
    refusals();
    other_refusals();
    outside();
    numbers();
    lengths();
    same_twice();
    by_chance();
    printf("%d passed, %d failed\n", passed, failed);
    return failed != 0;
}
