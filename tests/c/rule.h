/* Included once, by feed.c: a stream of bytes and pauses, and what a listener is to answer to it. The answers follow from the rule on the whole
 * stream: of dumps by ihex_light and ihex_light_srecords, of single lines by the readers of a line. Cuts are not known here. */
#define STREAM 70000
#define EVENTS 4000
#define PLACES 300

/* the page, and the places of the count */
struct panel {
    uint32_t first;
    size_t length, high, low;
};

static struct panel panel;

static struct {
    size_t n;
    uint8_t bytes[STREAM];
    uint8_t pauses[STREAM + 1]; /* how many pauses there are before this byte, or at the end */
    int unknown;                /* whether listening begins at an unknown place */
} stream;

/* an answer, how much of the stream is used then, and what the panel shows */
struct event {
    struct answer is;
    size_t at;
    int by_pause;
    uint8_t color;
    uint32_t known;
    uint8_t page[PLACES], marks[IHEX_MARKS(PLACES)];
};

static struct event model[EVENTS];
static size_t events;

/* ---- streams */

static void begin_stream(int unknown)
{
    stream.n = 0;
    stream.pauses[0] = 0;
    stream.unknown = unknown;
}

static void put_byte(uint8_t byte)
{
    if (stream.n == STREAM) {
        printf("feed: a stream is too long\n");
        return;
    }
    stream.bytes[stream.n++] = byte;
    stream.pauses[stream.n] = 0;
}

/* puts a string, in which each | is a pause */
static void put_string(const char *string)
{
    for (; *string; string++)
        if (*string == '|')
            stream.pauses[stream.n]++;
        else
            put_byte((uint8_t)*string);
}

/* ---- the model */

/* whether everything through the next end record is skipped; whether the pause at hand ended a dump */
static int skipping, ended;
static uint8_t model_page[PLACES], model_marks[IHEX_MARKS(PLACES)];
static uint32_t model_known;

/* where the line that begins at `from` ends, after its LF; 0 if there is none before `end` */
static size_t after_line(size_t from, size_t end)
{
    const uint8_t *found = from < end ? memchr(stream.bytes + from, '\n', end - from) : NULL;
    return found ? (size_t)(found - stream.bytes) + 1 : 0;
}

/* whether the line, with its LF, is an end record */
static int is_end(size_t from, size_t after)
{
    const uint8_t *at = stream.bytes + from;
    size_t n = after - from - 1;
    uint8_t pool[IHEX_MAX_PAYLOAD];
    uint64_t x, y, z;
    uint32_t r;
    n -= n > 0 && at[n - 1] == '\r';
    if (kind == INTEL)
        return ihex_read_record(at, n, pool, sizeof pool, 0, &x, &y, &z) == IHEX_END_OF_FILE;
    r = ihex_read_srecord(at, n, pool, sizeof pool, 0, &x, &y, &z);
    return r == IHEX_S7 || r == IHEX_S8 || r == IHEX_S9;
}

/* whether a load of this part of the stream has an answer, whatever follows */
static int has_answer(size_t from, size_t after)
{
    uint8_t page[PLACES], marks[IHEX_MARKS(PLACES)], kind_of_start;
    size_t l;
    uint64_t x, y, z;
    return (kind == INTEL ? ihex_load : ihex_load_srecords)(stream.bytes + from, after - from, panel.first, page, panel.length, marks,
                                                            IHEX_MARKS(panel.length), &l, &kind_of_start, &x, &y,
                                                            &z) != R(IHEX_MISSING_END_OF_FILE_RECORD);
}

/* notes an answer with no dump */
static void note(uint32_t code, size_t at, int by_pause)
{
    static const struct event nothing;
    model[events] = nothing;
    model[events].is.code = code;
    model[events].at = at;
    model[events++].by_pause = by_pause;
}

/* notes the answer to a dump, which is this part of the stream */
static void decide(size_t from, size_t after, int by_pause)
{
    struct event *e = &model[events];
    note(0, after, by_pause);
    e->is.code = (kind == INTEL ? ihex_light : ihex_light_srecords)(stream.bytes + from, after - from, panel.first, panel.length, panel.high,
                                                                    panel.low, model_page, panel.length, model_marks, IHEX_MARKS(panel.length),
                                                                    &model_known, &e->color, &e->is.line, &e->is.start, &e->is.values[0],
                                                                    &e->is.values[1], &e->is.values[2]);
    e->known = model_known;
    memcpy(e->page, model_page, panel.length);
    memcpy(e->marks, model_marks, IHEX_MARKS(panel.length));
    skipping = e->is.code != IHEX_OK;
}

/* skips through the next end record, or to the end */
static size_t skip(size_t from, size_t end)
{
    size_t after;
    for (; (after = after_line(from, end)) != 0; from = after)
        if (is_end(from, after)) {
            note(IHEX_PASSED, after, 0);
            skipping = 0;
            return after;
        }
    return end;
}

/* takes a dump, through the first whole line after which its text has an answer; else to the end, where a pause ends it */
static size_t take(size_t from, size_t end)
{
    size_t after;
    for (after = after_line(from, end); after; after = after_line(after, end))
        if (has_answer(from, after)) {
            decide(from, after, 0);
            return after;
        }
    ended = stream.pauses[end] > 0;
    if (ended)
        decide(from, end, 1);
    return end;
}

/* the bytes of an empty line: LF, or CR LF. A last CR is none, since no dump has begun */
static size_t empty_line(size_t from, size_t end)
{
    if (stream.bytes[from] == '\n')
        return 1;
    if (stream.bytes[from] != '\r')
        return 0;
    return from + 1 == end ? 1 : stream.bytes[from + 1] == '\n' ? 2 : 0;
}

/* a stretch with no pause in it, and the pauses after it */
static void follow(size_t from, size_t end)
{
    int left = stream.pauses[end];
    ended = 0;
    while (from < end) {
        size_t n = skipping ? 0 : empty_line(from, end);
        from = skipping ? skip(from, end) : n ? from + n : take(from, end);
    }
    for (; left > 0; left--, ended = 0) {
        if (!ended)
            note(IHEX_DONE, end, 1);
        skipping = 0;
    }
}

/* what the stream comes to, upon a page and marks that hold OLD */
static void make_model(void)
{
    size_t from = 0, end;
    events = 0;
    skipping = stream.unknown;
    memset(model_page, OLD, sizeof model_page);
    memset(model_marks, OLD, sizeof model_marks);
    model_known = IHEX_COUNT_UNKNOWN;
    if (stream.pauses[0])
        follow(0, 0);
    for (; from < stream.n; from = end) {
        for (end = from + 1; end < stream.n && !stream.pauses[end]; end++)
            ;
        follow(from, end);
    }
}
