/* Calls ihex_feed, ihex_pause, ihex_commit and ihex_light_after on streams of dumps, noise and pauses, wherever they are cut, with guard bytes around
 * every buffer and number that is lent. Each answer is held to a plain model of the rule, in rule.h, and so to ihex_load, ihex_load_srecords,
 * ihex_light and ihex_light_srecords on whole texts. The last line is 'N passed, M failed'. */
#include "lent.h"
#include "close.h"
#include "kinds.h"
#include "refused.h"
#include "srefused.h"
#include "rule.h"

/* ---- a listener, and what is lent to it */

LENT(carry_, 2000);
LENT(stage_, MOST);
LENT(stated_, MOST);
LENT(shown_page_, MOST);
LENT(shown_marks_, MOST);

static struct word base;
static struct four_bytes begin, known;
static struct size lines, records, taken;

/* whether calls go through struct ihex_listener */
static int by_struct;

static void put_edges(void)
{
    fresh();
    base.before = base.after = WORD_EDGE;
    begin.before = begin.after = known.before = known.after = FOUR_EDGE;
    lines.before = lines.after = records.before = records.after = taken.before = taken.after = EDGES;
    line.value = taken.value = 77;
    started.value = 77;
}

/* the guards stand around all that is lent, and page and marks are what is shown */
static int all_stand(void)
{
    return fenced() && WITHIN(base, WORD_EDGE) && WITHIN(begin, FOUR_EDGE) && WITHIN(known, FOUR_EDGE) && WITHIN(lines, EDGES) &&
           WITHIN(records, EDGES) && WITHIN(taken, EDGES) && guarded(&carry_) && guarded(&stage_) && guarded(&stated_) &&
           equal(&page_, &shown_page_) && equal(&marks_, &shown_marks_);
}

static struct ihex_listener gathered(void)
{
    struct ihex_listener s = {lines.value, used.value, records.value, begin.value, base.value, skipped.value, flags.value};
    return s;
}

static void spread(const struct ihex_listener *s)
{
    lines.value = s->lines;
    used.value = s->used;
    records.value = s->records;
    begin.value = s->begin;
    base.value = s->base;
    skipped.value = s->skipped;
    flags.value = s->flags;
}

static int same_listener(const struct ihex_listener *x, const struct ihex_listener *y)
{
    return x->lines == y->lines && x->used == y->used && x->records == y->records && x->begin == y->begin && x->base == y->base &&
           x->skipped == y->skipped && x->flags == y->flags;
}

/* fills what is lent with bytes by chance */
static void scramble(struct lent *l)
{
    size_t i;
    for (i = 0; i < l->len; i++)
        l->all[EDGE + i] = (uint8_t)draw(256);
}

static void scramble_all(void)
{
    scramble(&carry_);
    scramble(&stage_);
    scramble(&stated_);
}

/* page and marks as they are now are what is shown */
static void show(void)
{
    copy(&shown_page_, &page_);
    copy(&shown_marks_, &marks_);
}

/* a new listener for the panel, with old contents by chance in carry and staging */
static void begin_listening(int unknown)
{
    struct ihex_listener s = {0};
    s.flags = (uint8_t)((unknown ? IHEX_SKIPPING : IHEX_FRONT) | (kind == SRECORDS ? IHEX_SRECORDS : 0) | (draw(2) ? 0x80 : 0));
    spread(&s);
    lend_close(&carry_, IHEX_CARRY + (draw(4) ? 0 : draw(200)), OLD);
    lend_close(&stage_, panel.length, OLD);
    lend_close(&stated_, packed_len(panel.length), OLD);
    lend_close(&page_, panel.length, OLD);
    lend_close(&marks_, packed_len(panel.length), OLD);
    scramble_all();
    show();
    known.value = IHEX_COUNT_UNKNOWN;
}

/* ---- calls */

/* ihex_feed with a chunk */
static struct answer feed(const void *bytes, size_t n)
{
    struct ihex_listener s = gathered();
    const uint8_t *chunk;
    uint32_t r;
    text_.room = EDGE + n + EDGE;
    chunk = given(&text_, bytes, n);
    put_edges();
    if (by_struct) {
        r = ihex_listener_feed(&s, chunk, n, bytes_of(&carry_), carry_.len, panel.first, bytes_of(&stage_), stage_.len, bytes_of(&stated_),
                               stated_.len, &taken.value, &line.value, &started.value, &a.value, &b.value, &c.value);
        spread(&s);
    } else
        r = ihex_feed(chunk, n, bytes_of(&carry_), carry_.len, panel.first, bytes_of(&stage_), stage_.len, bytes_of(&stated_), stated_.len,
                      &flags.value, &skipped.value, &base.value, &begin.value, &lines.value, &used.value, &records.value, &taken.value,
                      &line.value, &started.value, &a.value, &b.value, &c.value);
    CHECK(same(&text_, bytes) && all_stand());
    return answered(r);
}

/* ihex_pause */
static struct answer rest(void)
{
    struct ihex_listener s = gathered();
    uint32_t r;
    put_edges();
    if (by_struct) {
        r = ihex_listener_pause(&s, bytes_of(&carry_), carry_.len, panel.first, bytes_of(&stage_), stage_.len, bytes_of(&stated_), stated_.len,
                                &line.value, &started.value, &a.value, &b.value, &c.value);
        spread(&s);
    } else
        r = ihex_pause(bytes_of(&carry_), carry_.len, panel.first, bytes_of(&stage_), stage_.len, bytes_of(&stated_), stated_.len, &flags.value,
                       &skipped.value, &base.value, &begin.value, &lines.value, &used.value, &records.value, &line.value, &started.value,
                       &a.value, &b.value, &c.value);
    CHECK(all_stand());
    return answered(r);
}

/* ihex_commit; what is shown follows it */
static uint32_t commit(void)
{
    uint32_t r = ihex_commit(bytes_of(&stage_), stage_.len, bytes_of(&stated_), stated_.len, bytes_of(&page_), page_.len, bytes_of(&marks_),
                             marks_.len, &flags.value);
    CHECK(guarded(&page_) && guarded(&marks_));
    if (r == IHEX_OK)
        show();
    CHECK(all_stand());
    return r;
}

static uint8_t light_after(uint32_t code)
{
    uint8_t color = ihex_light_after(code, panel.first, panel.length, panel.high, panel.low, bytes_of(&page_), page_.len, bytes_of(&marks_),
                                     marks_.len, &known.value);
    CHECK(all_stand());
    return color;
}

static int stands(unsigned where)
{
    return (flags.value & 3) == where && !(flags.value & 0x80) && (flags.value & IHEX_SRECORDS) == (kind == SRECORDS ? IHEX_SRECORDS : 0);
}

/* an answer with no values */
static struct answer plain(uint32_t code)
{
    struct answer is = {code, 0, IHEX_NO_START, {0, 0, 0}};
    return is;
}

static int is_plain(struct answer is, uint32_t code)
{
    return alike(is, plain(code));
}

LENT(old_carry_, 2000);
LENT(old_stage_, MOST);
LENT(old_stated_, MOST);

/* the same listener, with 0 in each number and bit that says nothing where it stands */
static struct ihex_listener normal(struct ihex_listener s)
{
    struct ihex_listener none = {0};
    unsigned where = s.flags & 3;
    none.flags = (uint8_t)(s.flags & (where == IHEX_READY ? 3 | IHEX_SRECORDS : 3 | IHEX_SRECORDS | IHEX_CR_WAITS));
    if (where == IHEX_FRONT || where == IHEX_READY)
        return none;
    s.flags &= s.flags & 0x40 ? 0x5F : 0x7F;
    s.begin = s.flags & 0x60 ? s.begin : 0;
    return s;
}

/* whether a feed and a pause with these lengths are refused so, and leave all as it was; numbers that say nothing may become 0 */
static int nothing_done(uint32_t why, size_t carry_len, size_t stage_len, size_t stated_len)
{
    static const uint8_t chunk[] = "\n:00000001FF\n";
    struct ihex_listener after = gathered(), before = normal(after);
    struct answer is;
    int done;
    copy(&old_carry_, &carry_);
    copy(&old_stage_, &stage_);
    copy(&old_stated_, &stated_);
    put_edges();
    is = answered(ihex_listener_feed(&after, chunk, sizeof chunk - 1, carry_.all + EDGE, carry_len, panel.first, stage_.all + EDGE, stage_len,
                                     stated_.all + EDGE, stated_len, &taken.value, &line.value, &started.value, &a.value, &b.value, &c.value));
    done = is_plain(is, R(why)) && taken.value == 0 && all_stand() && same_listener(&before, &after);
    put_edges();
    is = answered(ihex_listener_pause(&after, carry_.all + EDGE, carry_len, panel.first, stage_.all + EDGE, stage_len, stated_.all + EDGE,
                                      stated_len, &line.value, &started.value, &a.value, &b.value, &c.value));
    done &= is_plain(is, R(why)) && all_stand() && same_listener(&before, &after);
    return done && equal(&carry_, &old_carry_) && equal(&stage_, &old_stage_) && equal(&stated_, &old_stated_);
}

/* ---- a stream, held to the model */

/* where the stream is cut, beside its pauses; how many events were heard, and whether one was not that of the model */
static uint8_t cuts[STREAM + 1];
static size_t heard;
static int lost;

/* whether calls that read nothing are made between the others */
static int meddling;

/* calls that read nothing: with no bytes, with too small a carry, and with staging of another size */
static void meddle(void)
{
    if (draw(8) == 0)
        CHECK(is_plain(feed(NULL, 0), IHEX_USED_UP) && taken.value == 0);
    if (draw(8) == 0)
        CHECK(nothing_done(IHEX_CARRY_TOO_SMALL, draw(IHEX_CARRY), stage_.len, stated_.len));
    if (draw(8) == 0)
        CHECK(nothing_done(IHEX_BAD_WINDOW, carry_.len, stage_.len, stated_.len + 1));
}

/* old contents by chance where no dump has begun; of a line that is skipped the carry stays */
static void change_old(void)
{
    if (stands(IHEX_FRONT))
        scramble_all();
    if (stands(IHEX_SKIPPING)) {
        scramble(&stage_);
        scramble(&stated_);
    }
}

/* whether an answer is the model's next one, and the listener and the panel are as they should be */
static void hear(struct answer is, size_t at, int by_pause)
{
    const struct event *e = &model[heard];
    uint32_t code = is.code;
    lost = heard == events || !alike(is, e->is) || at != e->at || by_pause != e->by_pause;
    CHECK(!lost);
    if (lost)
        return;
    heard++;
    if (code == IHEX_OK) {
        CHECK(stands(IHEX_READY));
        CHECK(commit() == IHEX_OK);
    }
    CHECK(stands(code == IHEX_OK || by_pause || code == IHEX_PASSED ? IHEX_FRONT : IHEX_SKIPPING));
    if (code != IHEX_PASSED && code != IHEX_DONE) {
        CHECK(memcmp(page_.all + EDGE, e->page, page_.len) == 0 && memcmp(marks_.all + EDGE, e->marks, marks_.len) == 0);
        CHECK(light_after(code) == e->color && known.value == e->known);
    }
    scramble_all();
}

/* a chunk that is this part of the stream, call after call until it is used up */
static void feed_part(size_t from, size_t to)
{
    while (!lost) {
        struct answer is;
        if (meddling)
            meddle();
        is = feed(stream.bytes + from, to - from);
        if (is.code == IHEX_USED_UP) {
            CHECK(is_plain(is, IHEX_USED_UP) && taken.value == to - from);
            CHECK(stands(IHEX_FRONT) || stands(IHEX_TAKING) || stands(IHEX_SKIPPING));
            change_old();
            return;
        }
        CHECK(taken.value > 0 && taken.value <= to - from);
        from += taken.value;
        hear(is, from, 0);
    }
}

/* the whole stream, as it is cut */
static void listen(void)
{
    size_t at = 0, to;
    int i;
    begin_listening(stream.unknown);
    heard = 0;
    lost = 0;
    while (!lost) {
        for (i = 0; i < stream.pauses[at] && !lost; i++)
            hear(rest(), at, 1);
        if (at == stream.n)
            break;
        for (to = at + 1; to < stream.n && !cuts[to] && !stream.pauses[to]; to++)
            ;
        feed_part(at, to);
        at = to;
    }
    CHECK(heard == events);
    by_struct = !by_struct;
}

static void no_cuts(void)
{
    memset(cuts, 0, stream.n + 1);
}

static void all_cuts(void)
{
    memset(cuts, 1, stream.n + 1);
}

/* the stream in one chunk, byte by byte, and in every way in two and in three chunks */
static void cut_everywhere(void)
{
    size_t i, k;
    all_cuts();
    listen();
    no_cuts();
    listen();
    for (i = 1; i < stream.n; i++) {
        cuts[i] = 1;
        listen();
        for (k = i + 1; k < stream.n; k++) {
            cuts[k] = 1;
            listen();
            cuts[k] = 0;
        }
        cuts[i] = 0;
    }
}

/* puts lines, each with this line end in place of its LF */
static void put_lines(const char *all, const char *line_end)
{
    for (; *all; all++)
        if (*all == '\n')
            put_string(line_end);
        else
            put_byte((uint8_t)*all);
}

/* ---- small streams, with what they come to by hand */

/* the model's events as a text: the records of a dump that is ready, the refusal of one with its line, 'passed' and 'quiet' */
static const char *told(void)
{
    static char all[2000];
    char *at = all;
    size_t i;
    *at = 0;
    for (i = 0; i < events && at < all + sizeof all - 50; i++) {
        const struct answer *is = &model[i].is;
        at += sprintf(at, "%s", i ? ", " : "");
        if (is->code == IHEX_OK)
            at += sprintf(at, "ready %u", (unsigned)is->values[0]);
        else if (is->code == IHEX_PASSED || is->code == IHEX_DONE)
            at += sprintf(at, "%s", is->code == IHEX_PASSED ? "passed" : "quiet");
        else
            at += sprintf(at, "%u at %u", (unsigned)(is->code - IHEX_REFUSED), (unsigned)is->line);
    }
    return all;
}

static const struct panel nine_places = {0, 9, 1, 2}, whole_page = {0, PLACES, 1, 2};

struct small {
    const char *stream, *events;
};

static void one_small(const struct small *s, int unknown)
{
    begin_case();
    panel = nine_places;
    begin_stream(unknown);
    put_string(s->stream);
    make_model();
    CHECK(strcmp(told(), s->events) == 0);
    if (strcmp(told(), s->events) != 0)
        printf("%s: %s\n", s->stream, told());
    cut_everywhere();
    end_case();
}

/* the five texts that tell ways to find the next dump apart */
static const struct small five_texts[] = {
    {"x\n:00000001FF\n", "1 at 1, passed"},
    {"x\n:0100000001FE\n:00000001FF\n", "1 at 1, passed"},
    {"x\n:00000001FF\n:0100000001FE\n:00000001FF\n", "1 at 1, passed, ready 1"},
    {"x\n:020000040000FA\n:0100000001FE\n:00000001FF\n", "1 at 1, passed"},
    {":0100000001FE\n:00000001FE\n:0100000001FE\n:00000001FF\n:0100000001FE\n:00000001FF\n", "6 at 2, passed, ready 1"},
};

static const struct small small_texts[] = {
    {"", ""},
    {"|", "quiet"},
    {":00000001FF\n", "ready 0"},
    {":0100000001FE\n:00000001FF\n", "ready 1"},
    {":0100010005F9\r\n:0100020006F7\r\n:00000001FF\r\n", "ready 2"},
    {":0100010005F9\n:0100020006F7\n:00000001FF\n:0100020007F6\n:0100010005F9\n:00000001FF\n:", "ready 2, ready 2"},
    {"\n\r\n\n:00000001FF\n\r\n\n:0100000001FE\n\n:00000001fe\n", "ready 0, 6 at 3"},
    {"\n\n\n:01000000\n\n:00000001FF\r\n\r\n:00000001FF\n", "3 at 1, passed, ready 0"},
    {":0400000300001234B3\n:0400000500001234B1\n:00000001FF\n", "21 at 2, passed"},
    {":0400000500001234B1\n\n:0400000500001234B1\n:00000001FF\n", "ready 0"},
    {":0400000300001234B3\n:00000001FF\n:0400000500001234B1\n:00000001FF\n", "ready 0, ready 0"},
    {":020000021000EC\n:0100000001FE\n:00000001FF\n:0100000001FE\n:00000001FF\n", "17 at 2, passed, ready 1"},
    {":020000041000EA\n:00000001FF\n:0100000001FE\n:00000001FF\n", "ready 0, ready 1"},
    {":0200000000FFFF\n:00000001FF\n:0100080001F6\n:00000001FF\n:0100090001F5\n", "ready 1, ready 1, 17 at 1"},
    {":0100000001FE\n:00000001FF", ""},
    {":0100000001FE\n:00000001FF|", "ready 1"},
    {":0100000001FE\n:00000001FF\r|\n", "2 at 2"},
    {":0100000001FE\n|:00000001FF\n", "13 at 0, ready 0"},
    {":0100000001FE\n:0000|0001FF\n:00000001FF\n|", "3 at 2, 1 at 1, passed, quiet"},
    {"x\n|:00000001FF\n", "1 at 1, quiet, ready 0"},
    {"x|\n:00000001FF\n|", "1 at 1, ready 0, quiet"},
    {"x\n:00000001FF|\n:00000001FF\n", "1 at 1, quiet, ready 0"},
    {"\r|\n:00000001FF\n", "quiet, ready 0"},
    {"\n\r\n|\r\n||:00000001FF\r\n", "quiet, quiet, quiet, ready 0"},
    {"\rx\n:00000001FF\n", "1 at 1, passed"},
    {"\r\r\n:00000001FF\n", "1 at 1, passed"},
    {":00000001FF\r\r\n:00000001FF\r\r\n:00000001FF\n", "2 at 1, passed"},
    {":00000001FF\r:00000001FF\n:00000001FF\n", "2 at 1, passed"},
    {"x\n :00000001FF\n:00000001FF \n:00000001FE\n:00000001FF\n:00000001FF\n", "1 at 1, passed, ready 0"},
};

static const struct small small_srecords[] = {
    {"S9030000FC\n", "ready 0"},
    {"S104000001FA\nS9030000FC\n", "ready 1"},
    {"S00600004844521B\r\nS1050001050AEA\r\nS5030001FB\r\nS9030000FC\r\nS", "ready 1"},
    {"S104000105F5\nS104000206F3\nS9030000FC\n\nS104000105F5\nS8040000FFFC\n", "ready 2, ready 1"},
    {"x\nS9030000FC\nS104000001FA\nS70500000000FA\n", "1 at 1, passed, ready 1"},
    {"x\nS8040000FFFC\nS104000001FA\n|S9030000FC\n", "1 at 1, passed, 13 at 0, ready 0"},
    {"S104000001FA\nS5030002FA\nS70500000000FA\n", "20 at 2, passed"},
    {"S104000901F1\nS104000001FA\nS9030000FC\n", "17 at 1, passed"},
    {":00000001FF\nS9030000FC\nS9030000FC", "1 at 1, passed"},
    {"S9030000FC|S9030000F|\r\nS9030000FC\r|", "ready 0, 3 at 1, 2 at 1"},
    {"S6030000FC\nS9040000FFFC\nS9030000FC\n\n", "8 at 1, passed"},
    {"s9030000FC\n|S9030000FC\n", "1 at 1, quiet, ready 0"},
};

/* the same where listening begins at an unknown place */
static const struct small unknown_texts[] = {
    {":0100000001FE\n:00000001FF\n:0100000001FE\n:00000001FF\n", "passed, ready 1"},
    {"00001FF\n:00000001FE\n:00000001FF\r\n\n:00000001FF\n", "passed, ready 0"},
    {":0100000001FE\n|:00000001FF\n", "quiet, ready 0"},
    {"|:0100000001FE\n:00000001FF\n", "quiet, ready 1"},
    {"\n\r|\n:0100000001FE\n:00000001FF\n", "quiet, ready 1"},
    {":00000001FF|:00000001FF\n:00000001FF\n", "quiet, ready 0, ready 0"},
    {":", ""},
};

static const struct small unknown_srecords[] = {
    {"S104000001FA\nS70500000000FA\nS104000001FA\nS9030000FC\n", "passed, ready 1"},
    {"30000FC\nS9030000FD\nS8040000FFFC\r\nS9030000FC\n", "passed, ready 0"},
    {":00000001FF\nS9030000FC|S9030000FC\n", "quiet, ready 0"},
};

static void small_streams(void)
{
    size_t i;
    kind = INTEL;
    for (i = 0; i < COUNT(five_texts); i++)
        one_small(&five_texts[i], 0);
    for (i = 0; i < COUNT(small_texts); i++)
        one_small(&small_texts[i], 0);
    for (i = 0; i < COUNT(unknown_texts); i++)
        one_small(&unknown_texts[i], 1);
    kind = SRECORDS;
    for (i = 0; i < COUNT(small_srecords); i++)
        one_small(&small_srecords[i], 0);
    for (i = 0; i < COUNT(unknown_srecords); i++)
        one_small(&unknown_srecords[i], 1);
}

/* a pause at each place of each text, beside those that it has; byte by byte, in one chunk a stretch, and cut once */
static void one_paused(const struct small *s, int unknown)
{
    size_t i, k;
    begin_case();
    panel = nine_places;
    for (i = 0; i <= strlen(s->stream); i++) {
        begin_stream(unknown);
        put_string(s->stream);
        if (i > stream.n)
            break;
        stream.pauses[i]++;
        make_model();
        all_cuts();
        listen();
        no_cuts();
        listen();
        for (k = 1; k < stream.n; k++) {
            cuts[k] = 1;
            listen();
            cuts[k] = 0;
        }
    }
    end_case();
}

static void pauses_everywhere(void)
{
    size_t i;
    kind = INTEL;
    for (i = 0; i < COUNT(five_texts); i++)
        one_paused(&five_texts[i], 0);
    for (i = 0; i < COUNT(small_texts); i++)
        one_paused(&small_texts[i], 0);
    for (i = 0; i < COUNT(unknown_texts); i++)
        one_paused(&unknown_texts[i], 1);
    kind = SRECORDS;
    for (i = 0; i < COUNT(small_srecords); i++)
        one_paused(&small_srecords[i], 0);
    for (i = 0; i < COUNT(unknown_srecords); i++)
        one_paused(&unknown_srecords[i], 1);
}

/* ---- beside the loader, by name */

/* a text, fed whole to a listener, in buffers with all their guards; what it leaves after a commit is what a load leaves */
static uint32_t fed(const char *bytes, uint32_t first, size_t places)
{
    uint32_t code;
    panel.first = first;
    panel.length = places;
    begin_listening(0);
    page_.room = sizeof page_room;
    marks_.room = sizeof marks_room;
    lend(&page_, places);
    lend(&marks_, packed_len(places));
    show();
    code = feed(bytes, strlen(bytes)).code;
    if (code == IHEX_OK)
        CHECK(commit() == IHEX_OK);
    return code;
}

static void beside_the_loader(void)
{
    static const char good[] = ":020000021200EA\n:020003000506F0\n:00000001FF\n:0100030011EB\n", bad[] = ":020003000506F0\n:00000001FE\n";
    kind = INTEL;
    text_.room = sizeof text_room;
    loader = ihex_load;
    CHECK(load(good, 0x12000, 8) == IHEX_OK && loaded(1, "00011000", 3, "\5\6"));
    CHECK(fed(good, 0x12000, 8) == IHEX_OK && loaded(1, "00011000", 3, "\5\6") && values(1, 0, 0) && taken.value == 44);
    text_.room = sizeof text_room;
    CHECK(load(bad, 0, 8) == R(IHEX_CHECKSUM_MISMATCH) && not_loaded(0xFF, 0xFE, 2));
    CHECK(fed(bad, 0, 8) == R(IHEX_CHECKSUM_MISMATCH) && not_loaded(0xFF, 0xFE, 2) && values(0xFF, 0xFE, 0) && taken.value == 28);
}

/* ---- refusals */

/* two data records, a line or two that are refused, what follows them, and a good dump */
static void make_refused(const char *bad, const char *after)
{
    begin_stream(0);
    begin_text(kind);
    data_of(1, "\5", 1);
    data_of(2, "\6", 1);
    put_string(text);
    put_string(bad);
    put_string(after);
    begin_text(kind);
    data_of(3, "\7", 1);
    end();
    put_string(text);
    make_model();
}

/* the stream in one chunk, byte by byte, and in every way in two chunks */
static void cut_once(void)
{
    size_t i;
    all_cuts();
    listen();
    no_cuts();
    listen();
    for (i = 1; i < stream.n; i++) {
        cuts[i] = 1;
        listen();
        cuts[i] = 0;
    }
}

/* the dump is refused so: by a line with an LF, with CR LF, and by a pause, which ends what is skipped. `ahead` lines of `bad` are good */
static void refused_at(const char *bad, size_t ahead, uint32_t why, uint64_t x, uint64_t y)
{
    struct answer wanted = {R(why), line_of(2) + 1 + ahead, IHEX_NO_START, {x, y, 0}};
    const char *last = kind == INTEL ? ":00000001FF\n" : "S9030000FC\n";
    char after[20] = "\r\n";
    int way;
    begin_case();
    panel = nine_places;
    for (way = 0; way < 2; way++) {
        strcpy(after, way ? "\r\n" : "\n");
        strcat(after, last);
        make_refused(bad, after);
        CHECK(events == 3 && alike(model[0].is, wanted) && model[1].is.code == IHEX_PASSED && model[2].is.code == IHEX_OK);
        CHECK(model[0].at + strlen(last) == model[1].at && model[2].at == stream.n);
        cut_once();
    }
    make_refused(bad, "|");
    CHECK(events == 2 && alike(model[0].is, wanted) && model[0].by_pause && model[1].is.code == IHEX_OK);
    cut_once();
    end_case();
}

static void refusals(void)
{
    char long_line[600];
    size_t i;
    memset(long_line, '0', sizeof long_line - 1);
    long_line[sizeof long_line - 1] = 0;
    kind = INTEL;
    for (i = 0; i < COUNT(bad_lines); i++)
        refused_at(bad_lines[i].line, 0, bad_lines[i].why, bad_lines[i].a, bad_lines[i].b);
    long_line[0] = ':';
    refused_at(long_line, 0, IHEX_RECORD_TOO_LONG, 0, 0);
    refused_at(":0100090011E5", 0, IHEX_OUTSIDE_WINDOW, 9, 0);
    refused_at(":020000041234B4\n\n\n:020008001122C3", 3, IHEX_OUTSIDE_WINDOW, 0x12340008, 0);
    refused_at(":04000005000000CD2A\n:04000005000000CE29", 1, IHEX_START_CONFLICT, 0, 0);
    refused_at(":04000005000000CD2A\n:04000003000000CD2C", 1, IHEX_START_CONFLICT, 0, 0);
    kind = SRECORDS;
    for (i = 0; i < COUNT(bad_srecords); i++)
        refused_at(bad_srecords[i].line, 0, bad_srecords[i].why, bad_srecords[i].a, bad_srecords[i].b);
    long_line[0] = 'S';
    long_line[1] = '1';
    refused_at(long_line, 0, IHEX_RECORD_TOO_LONG, 0, 0);
    refused_at("S104000911E1", 0, IHEX_OUTSIDE_WINDOW, 9, 0);
    refused_at("S5030002FA\nS5030001FB", 1, IHEX_COUNT_MISMATCH, 1, 2);
}

/* a dump with no end record, which a pause ends; and a dump of the other kind */
static void other_refusals(void)
{
    struct answer missing = plain(R(IHEX_MISSING_END_OF_FILE_RECORD)), other = {R(IHEX_MISSING_START_CODE), 1, IHEX_NO_START, {0, 0, 0}};
    for (kind = INTEL; kind <= SRECORDS; kind++) {
        begin_case();
        panel = nine_places;
        make_refused("", "|");
        CHECK(events == 2 && alike(model[0].is, missing) && model[0].by_pause && model[1].is.code == IHEX_OK);
        cut_once();
        kind = kind == INTEL ? SRECORDS : INTEL;
        make_model();
        CHECK(alike(model[0].is, other) && !model[0].by_pause);
        cut_once();
        kind = kind == INTEL ? SRECORDS : INTEL;
        end_case();
    }
}

/* ---- long lines */

/* puts a line of n characters: 0 after what it begins with */
static void put_long(size_t n)
{
    size_t from = stream.n;
    put_string(kind == INTEL ? ":" : "S1");
    while (stream.n < from + n)
        put_byte('0');
    put_string(n % 2 ? "\r\n" : "\n");
}

/* a long line with this byte at a place, a second one that is skipped, and two dumps, in chunks of so many bytes */
static void one_long(size_t n, size_t place, char byte, size_t step)
{
    size_t i;
    begin_stream(0);
    put_long(n);
    stream.bytes[place] = (uint8_t)byte;
    put_long(n);
    put_string(kind == INTEL ? ":00000001FF\n:00000001FF\n" : "S9030000FC\nS9030000FC\n");
    make_model();
    for (i = 0; i <= stream.n; i++)
        cuts[i] = i % step == 0;
    listen();
}

/* whether the first event is this refusal */
static int first_is(uint32_t why, uint64_t value)
{
    struct answer wanted = {R(why), 1, IHEX_NO_START, {value, 0, 0}};
    return events == 3 && alike(model[0].is, wanted) && model[1].is.code == IHEX_PASSED && model[2].is.code == IHEX_OK;
}

static void long_lines(void)
{
    size_t n, step;
    panel = nine_places;
    for (kind = INTEL; kind <= SRECORDS; kind++)
        for (n = 505; n < 540; n++) {
            size_t most = kind == INTEL ? IHEX_MAX_LINE : IHEX_MAX_SRECORD_LINE;
            begin_case();
            for (step = 1; step < n + 20; step += 1 + step / 3) {
                one_long(n, n - 1, '0', step);
                CHECK(n <= most || first_is(IHEX_RECORD_TOO_LONG, 0));
                one_long(n, n - 1, 'x', step);
                CHECK(first_is(IHEX_CONTAINS_INVALID_CHARACTERS, n - 1));
                one_long(n, n - 2, '\r', step);
                CHECK(first_is(IHEX_CONTAINS_INVALID_CHARACTERS, n - 2));
            }
            end_case();
        }
}

/* places up to 65,535 are named, and later ones by that number */
static void far_places(void)
{
    static const size_t places[] = {521, 522, 523, 1044, 4000, 30000};
    size_t i;
    kind = INTEL;
    panel = nine_places;
    for (i = 0; i < COUNT(places); i++) {
        begin_case();
        one_long(34000, places[i], 'g', 512);
        CHECK(first_is(IHEX_CONTAINS_INVALID_CHARACTERS, places[i]));
        one_long(34000, places[i], 'g', 1);
        end_case();
    }
    for (i = 65533; i < 65539; i++) {
        begin_case();
        begin_stream(0);
        put_string(":");
        while (stream.n < i)
            put_byte('F');
        put_string("-\n:00000001FF\n:00000001FF\n");
        make_model();
        CHECK(first_is(IHEX_CONTAINS_INVALID_CHARACTERS, i < IHEX_MAX_PLACE ? i : IHEX_MAX_PLACE));
        no_cuts();
        listen();
        memset(cuts + 1, 1, 600);
        listen();
        end_case();
    }
}

/* the longest good line, in every way in two chunks */
static void longest_lines(void)
{
    uint8_t bytes[IHEX_MAX_PAYLOAD];
    size_t i;
    for (i = 0; i < sizeof bytes; i++)
        bytes[i] = (uint8_t)draw(256);
    panel = whole_page;
    for (kind = INTEL; kind <= SRECORDS; kind++) {
        begin_case();
        begin_stream(0);
        begin_text(kind);
        data_of(7, bytes, kind == INTEL ? IHEX_MAX_PAYLOAD : 250);
        end();
        put_lines(text, "\r\n");
        put_lines(text, "\n");
        make_model();
        CHECK(strcmp(told(), "ready 1, ready 1") == 0);
        cut_once();
        end_case();
    }
}

/* ---- calls that are refused before they read */

/* a carry that is too small, or a state that counts more than it holds, wherever the listener stands; 18 goes before 16 */
static void too_small(void)
{
    static const size_t few[] = {0, 1, 64, 521}, many[] = {523, 524, 1000, 65536, SIZE_MAX / 2, SIZE_MAX};
    unsigned standing;
    size_t i;
    panel = nine_places;
    for (kind = INTEL; kind <= SRECORDS; kind++)
        for (standing = 0; standing < 256; standing++) {
            begin_case();
            begin_listening(0);
            flags.value = (uint8_t)standing;
            for (i = 0; i < COUNT(few); i++)
                CHECK(nothing_done(IHEX_CARRY_TOO_SMALL, few[i], 9, 2) && nothing_done(IHEX_CARRY_TOO_SMALL, few[i], 9, 1));
            for (i = 0; i < COUNT(many); i++) {
                used.value = many[i];
                if ((standing & 3) == IHEX_TAKING || (standing & 3) == IHEX_SKIPPING)
                    CHECK(nothing_done(IHEX_CARRY_TOO_SMALL, 522, 9, 2) && nothing_done(IHEX_CARRY_TOO_SMALL, carry_.len, 8, 2));
            }
            used.value = 522;
            CHECK(nothing_done(IHEX_CARRY_TOO_SMALL, 521, 9, 2) && nothing_done(IHEX_BAD_WINDOW, 522, 9, 1));
            CHECK(feed("", 0).code == IHEX_USED_UP);
            end_case();
        }
}

/* whether ihex_load refuses a page and marks of these lengths */
static int is_unfit(size_t places, size_t marks)
{
    static const uint8_t only_end[] = ":00000001FF\n";
    put_edges();
    return ihex_load(only_end, sizeof only_end - 1, panel.first, stage_.all + EDGE, places, stated_.all + EDGE, marks, &line.value, &started.value,
                     &a.value, &b.value, &c.value) == R(IHEX_BAD_WINDOW);
}

/* staging is refused exactly where ihex_load refuses a page and marks of these lengths */
static void one_window(uint32_t first, size_t places, size_t marks)
{
    int unfit;
    begin_case();
    panel = nine_places;
    begin_listening(0);
    panel.first = first;
    unfit = is_unfit(places, marks);
    lend_close(&stage_, places, OLD);
    lend_close(&stated_, marks, OLD);
    CHECK(unfit == (places > 65536 || marks != packed_len(places) || (uint64_t)first + places > (uint64_t)1 << 32));
    CHECK(unfit ? nothing_done(IHEX_BAD_WINDOW, 522, places, marks) : feed("\n", 1).code == IHEX_USED_UP && rest().code == IHEX_DONE);
    end_case();
}

static void bad_windows(void)
{
    static const uint32_t firsts[] = {0, 1, 0xFFFF0000, 0xFFFF0001, 0xFFFFFFF0, 0xFFFFFFF7, 0xFFFFFFF8, 0xFFFFFFFF};
    static const size_t all[] = {0, 1, 7, 8, 9, 16, 17, 255, 65535, 65536, 65537};
    size_t i, k;
    for (kind = INTEL; kind <= SRECORDS; kind++)
        for (i = 0; i < COUNT(firsts); i++)
            for (k = 0; k < COUNT(all); k++) {
                size_t fit = packed_len(all[k]);
                one_window(firsts[i], all[k], fit);
                one_window(firsts[i], all[k], fit + 1);
                one_window(firsts[i], all[k], fit ? fit - 1 : 2);
                one_window(firsts[i], all[k], 8 * fit);
            }
}

/* ---- commits */

LENT(old_page_, MOST);

/* a commit with these lengths, whatever the flags are; marks and stated bits by chance */
static void one_commit(size_t stage_len, size_t stated_len, size_t page_len, size_t marks_len, unsigned standing)
{
    int fits = stage_len == page_len && stated_len == marks_len && marks_len == packed_len(page_len) && page_len <= IHEX_MAX_PAGE;
    uint32_t wanted = (standing & 3) != IHEX_READY ? IHEX_NOT_READY : fits ? IHEX_OK : R(IHEX_BAD_WINDOW);
    struct ihex_listener before, after;
    size_t p;
    lend_close(&stage_, stage_len, OLD);
    lend_close(&stated_, stated_len, OLD);
    lend_close(&page_, page_len, OLD);
    lend_close(&marks_, marks_len, OLD);
    scramble(&stage_);
    scramble(&stated_);
    scramble(&page_);
    scramble(&marks_);
    show();
    copy(&old_stage_, &stage_);
    copy(&old_stated_, &stated_);
    copy(&old_page_, &page_);
    flags.value = (uint8_t)standing;
    before = gathered();
    CHECK(commit() == wanted);
    after = gathered();
    CHECK(equal(&stage_, &old_stage_) && equal(&stated_, &old_stated_));
    if (wanted == IHEX_OK) {
        before.flags = (uint8_t)(standing & IHEX_SRECORDS);
        for (p = 0; p < page_len; p++) {
            const struct lent *is = unpacked(stated_.all + EDGE, p) ? &old_stage_ : &old_page_;
            CHECK(page_.all[EDGE + p] == is->all[EDGE + p] && unpacked(marks_.all + EDGE, p) == unpacked(stated_.all + EDGE, p));
        }
    }
    CHECK(same_listener(&before, &after));
}

static void commits(void)
{
    static const size_t places[] = {0, 1, 8, 9, 17, 300}, more[] = {0, 1, 2, 3, 38};
    unsigned standing;
    size_t i;
    kind = INTEL;
    panel = nine_places;
    begin_listening(0);
    for (standing = 0; standing < 256; standing++) {
        begin_case();
        for (i = 0; i < COUNT(places); i++)
            one_commit(places[i], packed_len(places[i]), places[i], packed_len(places[i]), standing);
        one_commit(9, 2, 8, 1, standing);
        end_case();
    }
    for (i = 0; i < COUNT(places) * COUNT(places) * COUNT(more) * COUNT(more); i++) {
        size_t k = i / COUNT(places) / COUNT(places);
        begin_case();
        one_commit(places[i % COUNT(places)], more[k % COUNT(more)], places[i / COUNT(places) % COUNT(places)], more[k / COUNT(more)], IHEX_READY);
        end_case();
    }
    begin_case();
    one_commit(65536, 8192, 65536, 8192, IHEX_READY);
    end_case();
}

/* a dump that is ready stays so until it is committed, also after pauses; a new dump takes its place, and page and marks wait for a commit */
static void not_committed(void)
{
    static const char *const dumps[][2] = {{":0100010005F9\n:00000001FF\n", ":0100020006F7\n:00000001FF\n"},
                                           {"S104000105F5\nS9030000FC\n", "S104000206F3\nS9030000FC\n"}};
    size_t i;
    panel = nine_places;
    for (kind = INTEL; kind <= SRECORDS; kind++) {
        const char *one = dumps[kind][0], *two = dumps[kind][1];
        begin_case();
        begin_listening(0);
        CHECK(commit() == IHEX_NOT_READY);
        CHECK(feed(one, strlen(one) - 1).code == IHEX_USED_UP && commit() == IHEX_NOT_READY);
        CHECK(feed("\n", 1).code == IHEX_OK && stands(IHEX_READY));
        CHECK(is_plain(rest(), IHEX_DONE) && stands(IHEX_READY) && is_plain(rest(), IHEX_DONE) && stands(IHEX_READY));
        CHECK(commit() == IHEX_OK && stands(IHEX_FRONT) && marks_are("010000000", 9) && holds(&page_, 1, "\5", 1));
        CHECK(commit() == IHEX_NOT_READY);
        CHECK(feed(one, strlen(one)).code == IHEX_OK);
        for (i = 0; i + 1 < strlen(two); i++)
            CHECK(feed(two + i, 1).code == IHEX_USED_UP && commit() == IHEX_NOT_READY);
        CHECK(feed(two + i, 1).code == IHEX_OK && commit() == IHEX_OK);
        CHECK(marks_are("001000000", 9) && holds(&page_, 1, "\5\6", 2));
        end_case();
    }
}

/* ---- the light after a load */

/* whether a bit of the marks after the last place is set */
static int unused_set(void)
{
    return page_.len % 8 && marks_.all[EDGE + page_.len / 8] >> page_.len % 8;
}

/* the color that follows from a code, the panel, the lengths that are lent and what is known */
static uint8_t color_after(uint32_t code)
{
    const uint8_t *page = page_.all + EDGE, *marks = marks_.all + EDGE;
    uint32_t count, steps;
    if (code != IHEX_OK || page_.len != panel.length || marks_.len != packed_len(page_.len) || unused_set())
        return IHEX_COLOR_BROKEN;
    if (panel.high >= panel.length || panel.low >= panel.length || !unpacked(marks, panel.high) || !unpacked(marks, panel.low))
        return IHEX_COLOR_NO_COUNT;
    if (known.value >= IHEX_COUNT_UNKNOWN)
        return IHEX_COLOR_FIRST;
    count = 256u * page[panel.high] + page[panel.low];
    steps = (count + IHEX_COUNT_UNKNOWN - known.value) % IHEX_COUNT_UNKNOWN;
    return steps == 0 ? IHEX_COLOR_STALE : steps < 32768 ? IHEX_COLOR_GREEN : IHEX_COLOR_RESTARTED;
}

/* one light after this code, upon what page_ and marks_ hold: its color */
static uint8_t one_light(uint32_t code)
{
    uint8_t color = color_after(code);
    uint32_t after = known.value < IHEX_COUNT_UNKNOWN ? known.value : IHEX_COUNT_UNKNOWN;
    if (color >= IHEX_COLOR_FIRST)
        after = 256u * page_.all[EDGE + panel.high] + page_.all[EDGE + panel.low];
    show();
    put_edges();
    CHECK(light_after(code) == color && known.value == after);
    return color;
}

/* a count on the page: a border's distance from what is known, or any */
static void draw_count(void)
{
    static const uint32_t steps[] = {0, 1, 2, 255, 256, 32766, 32767, 32768, 32769, 65534, 65535};
    uint32_t count = draw(4) ? known.value + steps[draw(COUNT(steps))] : draw(65536);
    scramble(&page_);
    if (panel.high < page_.len && panel.low < page_.len) {
        page_.all[EDGE + panel.high] = (uint8_t)(count >> 8);
        page_.all[EDGE + panel.low] = (uint8_t)count;
    }
}

/* the unused bits of the marks become 0, as a commit leaves them */
static void clear_unused(void)
{
    if (page_.len % 8 && marks_.len == packed_len(page_.len))
        marks_.all[EDGE + page_.len / 8] &= (uint8_t)((1 << page_.len % 8) - 1);
}

/* a place outside the page is not marked, whatever the unused bits of the marks hold: no byte after the page is read */
static void places_outside(void)
{
    size_t n, place;
    kind = INTEL;
    panel = nine_places;
    begin_listening(0);
    for (n = 1; n < 20; n++) {
        begin_case();
        for (place = n; place < n + 20; place++) {
            panel.length = n;
            lend_close(&page_, n, 1);
            lend_close(&marks_, packed_len(n), 0xFF);
            if (n % 8 != 0)
                CHECK(one_light(IHEX_OK) == IHEX_COLOR_BROKEN);
            clear_unused();
            known.value = 5;
            panel.high = 0;
            panel.low = place;
            CHECK(one_light(IHEX_OK) == IHEX_COLOR_NO_COUNT);
            panel.high = place;
            panel.low = 0;
            CHECK(one_light(IHEX_OK) == IHEX_COLOR_NO_COUNT);
        }
        end_case();
    }
}

static void lights_after(void)
{
    static const uint32_t codes[] = {1, 2, 3, 255, R(1), R(13), R(16), R(17), R(18), 512, 513, 514, 515, 516, 1024, 65536, 0x80000000, 0xFFFFFFFF};
    static const uint32_t knowns[] = {0, 5, 65535, IHEX_COUNT_UNKNOWN, 65537, 0x10005, 0x80000005, 0xFFFFFFFF};
    unsigned shown[6] = {0}, i;
    kind = INTEL;
    begin_listening(0);
    for (i = 0; i < 40000; i++) {
        begin_case();
        panel.first = draw(2) ? draw(65536) : 0xFFFFFF00 + draw(200);
        panel.length = draw(40);
        panel.high = draw((uint32_t)panel.length + (draw(8) == 0));
        panel.low = draw(20) ? draw((uint32_t)panel.length + 1) : SIZE_MAX - draw(9);
        known.value = draw(3) ? draw(65536) : knowns[draw(COUNT(knowns))];
        lend_close(&page_, panel.length + (draw(16) == 0) - (panel.length && draw(16) == 0), OLD);
        lend_close(&marks_, packed_len(page_.len) + (draw(16) == 0), draw(3) ? 0xFF : 0);
        if (draw(4) == 0)
            scramble(&marks_);
        clear_unused();
        draw_count();
        shown[one_light(draw(8) ? IHEX_OK : codes[draw(COUNT(codes))])]++;
        end_case();
    }
    for (i = 0; i < COUNT(shown); i++)
        CHECK(shown[i] > 300);
}

/* ---- tails, and what a refusal costs */

static const char *const three_lines[] = {":0100010005F9\n:0100020006F7\n:00000001FF\n", "S104000105F5\nS104000206F3\nS9030000FC\n"};

/* how many dumps are ready */
static size_t ready(void)
{
    size_t i, found = 0;
    for (i = 0; i < events; i++)
        found += model[i].is.code == IHEX_OK;
    return found;
}

/* a tail of a dump, from each of its bytes on, is never ready; the dump after it is, if the tail has a whole end record */
static void tails(void)
{
    panel = nine_places;
    for (kind = INTEL; kind <= SRECORDS; kind++) {
        const char *whole = three_lines[kind], *last = strrchr(whole, kind == INTEL ? ':' : 'S'), *tail;
        for (tail = whole; *tail; tail++) {
            begin_case();
            begin_stream(1);
            put_string(tail);
            make_model();
            CHECK(ready() == 0);
            put_string(whole);
            make_model();
            CHECK(ready() == (tail <= last));
            cut_once();
            end_case();
        }
    }
}

/* six dumps, of which the second has another byte, or none, at one place */
static void put_six(size_t place, int byte, const char *between)
{
    size_t i, k;
    begin_stream(0);
    for (i = 0; i < 6; i++) {
        put_string(between);
        for (k = 0; three_lines[kind][k]; k++)
            if (i != 1 || k != place)
                put_byte((uint8_t)three_lines[kind][k]);
            else if (byte >= 0)
                put_byte((uint8_t)byte);
    }
    make_model();
}

/* a damaged dump costs at most the one after it, and with a pause before each dump only itself */
static void costs(void)
{
    static const int bytes[] = {-1, 'x', '\n', '\r', ':', '0', '1', 'F', 0, 0xFF};
    size_t i, k, lost_two = 0;
    panel = nine_places;
    for (kind = INTEL; kind <= SRECORDS; kind++)
        for (k = 0; k < strlen(three_lines[kind]); k++) {
            begin_case();
            for (i = 0; i < COUNT(bytes); i++) {
                put_six(k, bytes[i], "");
                CHECK(ready() >= 4);
                lost_two += ready() == 4;
                no_cuts();
                listen();
                put_six(k, bytes[i], "|");
                CHECK(ready() >= 5);
                all_cuts();
                listen();
            }
            end_case();
        }
    CHECK(lost_two > 0);
}

/* ---- a full page */

static uint8_t full_text[IHEX_MAX_PAGE_FILE], full_page[IHEX_MAX_PAGE], full_marks[IHEX_MAX_MARKS];
static uint8_t loaded_page[IHEX_MAX_PAGE], loaded_marks[IHEX_MAX_MARKS];

/* puts an S3 of so many bytes from a place on, after n bytes of the text: what the text has then */
static size_t put_s3(size_t n, size_t at, size_t count)
{
    uint64_t value = 0;
    CHECK(ihex_to_srecord_string(IHEX_S3, panel.first + (uint32_t)at, at, count, full_page, sizeof full_page, full_text + n, sizeof full_text - n,
                                 &value) == IHEX_OK);
    n += (size_t)value;
    full_text[n++] = '\n';
    return n;
}

/* a text of the whole page: its length */
static size_t make_full(void)
{
    uint64_t value = 0;
    size_t n = 0, at = 0;
    if (kind == INTEL) {
        CHECK(ihex_write_page(panel.first, full_page, sizeof full_page, full_marks, sizeof full_marks, full_text, sizeof full_text, &value) ==
              IHEX_OK);
        return (size_t)value;
    }
    for (at = 0; at < sizeof full_page; at += 32)
        if (ihex_marked(full_marks, at))
            n = put_s3(n, at, 32);
    memcpy(full_text + n, "S9030000FC\n", 11);
    return n + 11;
}

/* feeds the text in chunks of so many bytes: the last answer */
static struct answer feed_full(size_t n, size_t step)
{
    struct answer is = plain(IHEX_USED_UP);
    size_t at;
    for (at = 0; at < n && is.code == IHEX_USED_UP; at += step) {
        is = feed(full_text + at, n - at < step ? n - at : step);
        CHECK(is.code != IHEX_USED_UP || is_plain(is, IHEX_USED_UP));
    }
    return is;
}

static void full_pages(void)
{
    static const size_t steps[] = {64, 512, 4096, 60000};
    static const struct panel last = {0xFFFF0000, IHEX_MAX_PAGE, 0, 65535};
    struct answer wanted;
    size_t i, n, p;
    panel = last;
    for (i = 0; i < 2 * COUNT(steps); i++) {
        kind = i % 2 ? SRECORDS : INTEL;
        begin_case();
        for (p = 0; p < sizeof full_page; p++)
            full_page[p] = (uint8_t)draw(256);
        for (p = 0; p < sizeof full_marks; p++)
            full_marks[p] = p % 4 ? full_marks[p - 1] : draw(2) ? 0xFF : 0;
        n = make_full();
        begin_listening(0);
        memcpy(loaded_page, page_.all + EDGE, sizeof loaded_page);
        put_edges();
        wanted = answered((kind == INTEL ? ihex_load : ihex_load_srecords)(full_text, n, panel.first, loaded_page, sizeof loaded_page, loaded_marks,
                                                                            sizeof loaded_marks, &line.value, &started.value, &a.value, &b.value,
                                                                            &c.value));
        CHECK(wanted.code == IHEX_OK && alike(feed_full(n, n < steps[i / 2] ? n : steps[i / 2]), wanted) && commit() == IHEX_OK);
        CHECK(memcmp(page_.all + EDGE, loaded_page, sizeof loaded_page) == 0 && memcmp(marks_.all + EDGE, full_marks, sizeof full_marks) == 0);
        end_case();
    }
}

/* ---- listeners that are made up by hand */

static size_t draw_size(void)
{
    static const size_t some[] = {0, 1, 2, 10, 520, 521, 522, 522, 523, 65535, 65536, SIZE_MAX / 2, SIZE_MAX - 1, SIZE_MAX};
    return draw(2) ? draw(523) : some[draw(COUNT(some))];
}

/* a byte as lines have it, or any */
static uint8_t draw_byte(void)
{
    static const char some[] = ":S0123456789ABCDEFabcdef00001FF99\r\n\n\n";
    return draw(20) ? (uint8_t)some[draw(sizeof some - 1)] : (uint8_t)draw(256);
}

static void make_up(void)
{
    struct ihex_listener s;
    size_t i;
    s.lines = draw_size();
    s.used = draw_size();
    s.records = draw_size();
    s.begin = draw(65536) * (draw(2) ? 1 : 65537);
    s.base = (uint16_t)draw(65536);
    s.skipped = (uint16_t)(draw(2) ? draw(65536) : 0);
    s.flags = (uint8_t)draw(256);
    spread(&s);
    scramble_all();
    for (i = 0; draw(2) && i < carry_.len; i++)
        carry_.all[EDGE + i] = i ? draw_byte() : (uint8_t)(draw(2) ? ':' : 'S');
}

/* whether an answer has no value that it should not have */
static int has_its_values(struct answer is)
{
    if (is.code == IHEX_OK)
        return is.line == 0 && (is.start != IHEX_NO_START || (is.values[1] == 0 && is.values[2] == 0));
    if (is.code > IHEX_REFUSED && is.code <= R(IHEX_START_CONFLICT))
        return is.start == IHEX_NO_START && is.values[2] == 0;
    return is_plain(is, is.code) && (is.code == IHEX_USED_UP || is.code == IHEX_PASSED || is.code == IHEX_DONE);
}

/* feeds a chunk by chance until it is used up: each call but the last takes a byte or more */
static void feed_some(size_t n)
{
    uint8_t chunk[700];
    size_t at = 0, i;
    struct answer is;
    for (i = 0; i < n; i++)
        chunk[i] = draw_byte();
    for (i = 0; i <= n; i++) {
        is = feed(chunk + at, n - at);
        CHECK(has_its_values(is) && is.code != IHEX_DONE && used.value <= 522 && !(flags.value & 0x80));
        CHECK(is.code == IHEX_USED_UP ? taken.value == n - at : taken.value > 0 && taken.value <= n - at);
        at += taken.value;
        if (is.code == IHEX_USED_UP || broken)
            break;
    }
    CHECK(is.code == IHEX_USED_UP);
}

/* a listener by hand: fed, committed and paused; then a dump is answered as where a text begins */
static void one_made_up(void)
{
    struct answer is;
    unsigned where;
    make_up();
    where = flags.value & 3;
    if (used.value > 522 && (where == IHEX_TAKING || where == IHEX_SKIPPING)) {
        CHECK(nothing_done(IHEX_CARRY_TOO_SMALL, carry_.len, stage_.len, stated_.len));
        return;
    }
    if (draw(4))
        feed_some(draw(8) ? draw(60) : draw(700));
    where = flags.value & 3;
    if (draw(4) == 0) {
        CHECK(commit() == (where == IHEX_READY ? IHEX_OK : IHEX_NOT_READY));
        where = where == IHEX_READY ? IHEX_FRONT : where;
    }
    is = rest();
    CHECK(has_its_values(is) && is.code != IHEX_USED_UP && is.code != IHEX_PASSED && !(flags.value & 0x80));
    CHECK((flags.value & 3) == (is.code == IHEX_OK || (is.code == IHEX_DONE && where == IHEX_READY) ? IHEX_READY : IHEX_FRONT));
    if ((flags.value & 3) == IHEX_READY)
        CHECK(commit() == IHEX_OK);
    kind = flags.value & IHEX_SRECORDS ? SRECORDS : INTEL;
    scramble_all();
    is = feed(three_lines[kind], strlen(three_lines[kind]));
    CHECK(is.code == IHEX_OK && is.values[0] == 2 && taken.value == strlen(three_lines[kind]) && commit() == IHEX_OK);
    CHECK(marks_are("011000000", 9) && memcmp(page_.all + EDGE + 1, "\5\6", 2) == 0);
}

static void made_up(void)
{
    int i;
    panel = nine_places;
    kind = INTEL;
    begin_listening(0);
    for (i = 0; i < 60000; i++) {
        begin_case();
        by_struct = i % 2;
        one_made_up();
        end_case();
    }
}

/* ---- streams by chance */

/* how many data records the text at hand has */
static uint32_t data_records;

/* puts a data record of some bytes from a place of the page on */
static void put_data(size_t place, size_t n)
{
    uint8_t bytes[40];
    size_t i;
    for (i = 0; i < n; i++)
        bytes[i] = (uint8_t)draw(256);
    data_of(panel.first + (uint32_t)place, bytes, n);
    data_records++;
}

/* puts the two bytes of a count: one or a few steps on from the one before, or any */
static void put_count(void)
{
    static uint32_t count;
    uint8_t high, low;
    count = draw(3) ? count + draw(3) : draw(65536);
    high = (uint8_t)(count >> 8);
    low = (uint8_t)count;
    data_of(panel.first + (uint32_t)panel.high, &high, 1);
    data_of(panel.first + (uint32_t)panel.low, &low, 1);
    data_records += 2;
}

/* puts a record that places nothing: a start, a base, a header or a count of records */
static void put_other(void)
{
    static const char *const all[] = {":0400000300001234B3\n", ":0400000500001234B1\n", ":0400000500001234B1\n",
                                      ":020000021200EA\n",     ":020000040001F9\n",     ":00000000\n:0000000000\n"};
    uint32_t n = draw(8) ? data_records : draw(9);
    uint8_t count[] = {3, (uint8_t)(n >> 8), (uint8_t)n};
    if (kind == INTEL)
        strcat(text, all[draw(3) ? 1 + draw(4) : draw(COUNT(all))]);
    else if (draw(3))
        say("S5", count, sizeof count);
    else
        strcat(text, "S00600004844521B\n");
}

/* a dump of the kind: mostly good, at times with a line that is refused or without its end */
static void draw_dump(void)
{
    static const char *const ends[] = {"S9030000FC\n", "S8041234565F\n", "S70512345678E6\n"};
    uint32_t n = draw(5);
    begin_text(kind);
    data_records = 0;
    while (n-- > 0) {
        size_t place = draw((uint32_t)panel.length), room = panel.length - place, length = draw(9);
        if (draw(3) == 0)
            put_count();
        else if (draw(4) == 0)
            put_other();
        else
            put_data(draw(40) ? place : panel.length, length < room ? length : room);
    }
    if (draw(12) == 0) {
        strcat(text, kind == INTEL ? bad_lines[draw(COUNT(bad_lines))].line : bad_srecords[draw(COUNT(bad_srecords))].line);
        strcat(text, "\n");
    }
    if (draw(16))
        strcat(text, kind == INTEL ? ":00000001FF\n" : ends[draw(COUNT(ends))]);
}

/* puts lines into the stream; with noise some are lost, and some bytes are others or are lost */
static void put_noisy(const char *all, int noisy, int pauses)
{
    int crlf = draw(3) == 0;
    while (*all) {
        size_t n = strcspn(all, "\n"), i;
        int dropped = noisy && draw(8) == 0;
        for (i = 0; i < n && !dropped; i++)
            if (!noisy || draw(50))
                put_byte((uint8_t)all[i]);
            else if (draw(2))
                put_byte((uint8_t)draw(256));
        if (!dropped && !(noisy && draw(30) == 0))
            put_string(crlf ? "\r\n" : "\n");
        if (draw(10) == 0)
            put_string(draw(2) ? "\r\n" : "\n");
        if (pauses && draw(30) == 0)
            put_string("|");
        all += n + (all[n] == '\n');
    }
}

/* puts what lies between dumps: bytes by chance, a tail of a dump, a long line, a pause */
static void put_between(int pauses)
{
    uint32_t way = draw(7), n = draw(30);
    const char *tail = text;
    if (way == 0)
        while (n-- > 0)
            put_byte(draw_byte());
    if (way == 1 || way == 2) {
        draw_dump();
        put_noisy(tail + draw((uint32_t)strlen(text) + 1), 0, 0);
    }
    if (way == 3 && draw(4) == 0)
        put_long(500 + draw(100));
    if (way > 3 && pauses)
        put_string(draw(4) ? "|" : "||");
}

static void draw_stream(void)
{
    static const uint32_t firsts[] = {0, 0xFFF0, 0x12000, 0xFFFFFF00};
    int noise = draw(3), pauses = draw(3) == 0;
    uint32_t dumps = 20 + draw(20);
    kind = draw(2) ? INTEL : SRECORDS;
    panel.first = firsts[draw(COUNT(firsts))] + draw(9);
    panel.length = 2 + draw(40);
    panel.high = draw((uint32_t)panel.length);
    panel.low = draw((uint32_t)panel.length);
    begin_stream(draw(3) == 0);
    while (dumps-- > 0) {
        draw_dump();
        put_noisy(text, noise && draw(4) == 0, pauses);
        if (noise && draw(3) == 0)
            put_between(pauses);
    }
    if (draw(2))
        put_string("|");
    make_model();
}

/* chunks of at most so many bytes */
static void draw_cuts(uint32_t most)
{
    size_t at = 0;
    no_cuts();
    while ((at += 1 + draw(most)) < stream.n)
        cuts[at] = 1;
}

/* how often each answer came to pass, by the number of its refusal */
static unsigned seen[32], seen_ready, seen_passed, seen_quiet;

static void count_events(void)
{
    size_t i;
    for (i = 0; i < events; i++) {
        uint32_t code = model[i].is.code;
        seen_ready += code == IHEX_OK;
        seen_passed += code == IHEX_PASSED;
        seen_quiet += code == IHEX_DONE;
        if (code >= IHEX_REFUSED && code < R(COUNT(seen)))
            seen[code - IHEX_REFUSED]++;
    }
}

static void by_chance(void)
{
    static const unsigned whys[] = {1, 2, 3, 4, 5, 6, 7, 8, 9, 13, 17, 20, 21};
    size_t i;
    for (i = 0; i < 1000; i++) {
        begin_case();
        draw_stream();
        count_events();
        no_cuts();
        listen();
        all_cuts();
        listen();
        meddling = 1;
        draw_cuts(64);
        listen();
        draw_cuts(1000);
        listen();
        meddling = 0;
        end_case();
    }
    for (i = 0; i < COUNT(whys); i++)
        CHECK(seen[whys[i]] > 20);
    CHECK(seen_ready > 10000 && seen_passed > 1000 && seen_quiet > 1000);
}

int main(void)
{
    beside_the_loader();
    small_streams();
    pauses_everywhere();
    refusals();
    other_refusals();
    long_lines();
    far_places();
    longest_lines();
    too_small();
    bad_windows();
    commits();
    not_committed();
    lights_after();
    places_outside();
    tails();
    costs();
    full_pages();
    made_up();
    by_chance();
    printf("%d passed, %d failed\n", passed, failed);
    return failed != 0;
}
