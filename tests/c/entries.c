/* Calls each function of ihex.h for Intel HEX on telling inputs, with guard bytes around every buffer and number that is lent.
 * The last line is 'N passed, M failed'. */
#include "lent.h"
#include "lines.h"
#include "marks.h"
#include <ctype.h>

#define MORE 100 /* the room after a page's file, where there is more than it takes */

LENT(list_, MOST);
LENT(carry_, MOST);
LENT(file_, IHEX_MAX_PAGE_FILE + MORE);

/* ---- checksum */

static void checksums(void)
{
    static const uint8_t end[] = {0, 0, 0, 1}, wraps[] = {0x80, 0x80}, many[] = {0xFF, 0xFF, 0xFF};
    CHECK(ihex_checksum(NULL, 0) == 0);
    CHECK(ihex_checksum(end, 3) == 0);
    CHECK(ihex_checksum(end, 4) == 0xFF);
    CHECK(ihex_checksum(wraps, 2) == 0);
    CHECK(ihex_checksum(many, 3) == 3);
}

/* ---- one line */

/* lines that leave the pool as it was: refused ones, and records without data */
static const struct {
    const char *line;
    uint32_t code;
    uint64_t a, b, c;
} rows[] = {
    {"", IHEX_REFUSED + IHEX_MISSING_START_CODE, 0, 0, 0},
    {"00000001FF", IHEX_REFUSED + IHEX_MISSING_START_CODE, 0, 0, 0},
    {":", IHEX_REFUSED + IHEX_RECORD_TOO_SHORT, 0, 0, 0},
    {":G", IHEX_REFUSED + IHEX_CONTAINS_INVALID_CHARACTERS, 1, 0, 0},
    {":0100000", IHEX_REFUSED + IHEX_RECORD_TOO_SHORT, 0, 0, 0},
    {":00000001FF0", IHEX_REFUSED + IHEX_RECORD_NOT_EVEN_LENGTH, 0, 0, 0},
    {":00000001FE", IHEX_REFUSED + IHEX_CHECKSUM_MISMATCH, 0xFF, 0xFE, 0},
    {":01000000FF", IHEX_REFUSED + IHEX_PAYLOAD_LENGTH_MISMATCH, 0, 0, 0},
    {":01000006F9", IHEX_REFUSED + IHEX_PAYLOAD_LENGTH_MISMATCH, 0, 0, 0},
    {":00000006FA", IHEX_REFUSED + IHEX_UNSUPPORTED_RECORD_TYPE, 6, 0, 0},
    {":0100000100FE", IHEX_REFUSED + IHEX_INVALID_LENGTH_FOR_TYPE, 0, 0, 0},
    {":00000001FF\r", IHEX_REFUSED + IHEX_CONTAINS_INVALID_CHARACTERS, 11, 0, 0},
    {":00000001FF\r\r", IHEX_REFUSED + IHEX_CONTAINS_INVALID_CHARACTERS, 11, 0, 0},
    {":00000001FF\n", IHEX_REFUSED + IHEX_CONTAINS_INVALID_CHARACTERS, 11, 0, 0},
    {"::", IHEX_REFUSED + IHEX_CONTAINS_INVALID_CHARACTERS, 1, 0, 0},
    {":0G0G", IHEX_REFUSED + IHEX_CONTAINS_INVALID_CHARACTERS, 2, 0, 0},
    {":GGGGGGGGGG", IHEX_REFUSED + IHEX_CONTAINS_INVALID_CHARACTERS, 1, 0, 0},
    {":0000000 1", IHEX_REFUSED + IHEX_CONTAINS_INVALID_CHARACTERS, 8, 0, 0},
    {":00000001FG", IHEX_REFUSED + IHEX_CONTAINS_INVALID_CHARACTERS, 10, 0, 0},
    {":00000001F/F", IHEX_REFUSED + IHEX_CONTAINS_INVALID_CHARACTERS, 10, 0, 0},
    {":\xC3\xA9", IHEX_REFUSED + IHEX_CONTAINS_INVALID_CHARACTERS, 1, 0, 0},
    {":00\xE2\x82\xAC" "00000001FF", IHEX_REFUSED + IHEX_CONTAINS_INVALID_CHARACTERS, 3, 0, 0},
    {":00000001FF\xF0\x9D\x9F\x98", IHEX_REFUSED + IHEX_CONTAINS_INVALID_CHARACTERS, 11, 0, 0},
    {"G", IHEX_REFUSED + IHEX_MISSING_START_CODE, 0, 0, 0},
    {"0:G", IHEX_REFUSED + IHEX_MISSING_START_CODE, 0, 0, 0},
    {"\r:G", IHEX_REFUSED + IHEX_MISSING_START_CODE, 0, 0, 0},
    {":00123401B9", IHEX_END_OF_FILE, 0, 0, 0},
    {":020000021200EA", IHEX_EXTENDED_SEGMENT_ADDRESS, 0x1200, 0, 0},
    {":0400000312345678E5", IHEX_START_SEGMENT_ADDRESS, 0x1234, 0x5678, 0},
    {":02000004FFFFFC", IHEX_EXTENDED_LINEAR_ADDRESS, 0xFFFF, 0, 0},
    {":04000005000000CD2A", IHEX_START_LINEAR_ADDRESS, 0xCD, 0, 0},
    {":0400000512345678E3", IHEX_START_LINEAR_ADDRESS, 0x12345678, 0, 0},
};

static void lines_without_data(void)
{
    size_t i;
    for (i = 0; i < sizeof rows / sizeof rows[0]; i++) {
        CHECK(read_line(rows[i].line, 8, 2) == rows[i].code);
        CHECK(values(rows[i].a, rows[i].b, rows[i].c));
        CHECK(untouched(&pool_));
        /* no pool at all */
        CHECK(read_line(rows[i].line, 0, 0) == rows[i].code);
    }
}

/* the payload of :04012000102030403B */
static const uint8_t payload[] = {0x10, 0x20, 0x30, 0x40};

static void lines_with_data(void)
{
    CHECK(read_line(":04012000102030403B", 8, 2) == IHEX_DATA);
    CHECK(values(0x0120, 2, 4));
    CHECK(holds(&pool_, 2, payload, 4));
    CHECK(read_line(":04012000102030403b", 4, 0) == IHEX_DATA);
    CHECK(values(0x0120, 0, 4));
    CHECK(holds(&pool_, 0, payload, 4));
    CHECK(read_line(":04012000102030403B", 8, 5) == IHEX_REFUSED + IHEX_POOL_FULL);
    CHECK(values(0, 0, 0));
    CHECK(untouched(&pool_));
    CHECK(read_line(":04012000102030403B", 3, 0) == IHEX_REFUSED + IHEX_POOL_FULL);
    CHECK(untouched(&pool_));
    CHECK(read_line(":04012000102030403B", 8, SIZE_MAX) == IHEX_REFUSED + IHEX_POOL_FULL);
    CHECK(untouched(&pool_));
    CHECK(read_line(":04012000102030403B", 0, 0) == IHEX_REFUSED + IHEX_POOL_FULL);
    CHECK(read_line(":00FFFF0002", 0, 0) == IHEX_DATA);
    CHECK(values(0xFFFF, 0, 0));
    CHECK(read_line(":00FFFF0002", 4, 4) == IHEX_DATA);
    CHECK(values(0xFFFF, 4, 0));
    CHECK(untouched(&pool_));
}

/* 520 digits, and one more */
static void longest_line(void)
{
    static char longest[IHEX_MAX_LINE + 2];
    static uint8_t zeros[IHEX_MAX_PAYLOAD];
    memset(longest, '0', IHEX_MAX_LINE);
    memcpy(longest, ":FF", 3);
    memcpy(longest + IHEX_MAX_LINE - 2, "01", 2);
    CHECK(read_line(longest, 300, 1) == IHEX_DATA);
    CHECK(values(0, 1, IHEX_MAX_PAYLOAD));
    CHECK(holds(&pool_, 1, zeros, IHEX_MAX_PAYLOAD));
    longest[IHEX_MAX_LINE] = '0';
    CHECK(read_line(longest, 300, 1) == IHEX_REFUSED + IHEX_RECORD_TOO_LONG);
    CHECK(untouched(&pool_));
}

static int digit_of(int c)
{
    return isdigit(c) ? c - '0' : isxdigit(c) ? toupper(c) - 'A' + 10 : -1;
}

/* two bytes as the digits of a payload: they spell it, or the first of them that is not a digit is named */
static void pair_of_bytes(int high, int low)
{
    char text[] = ":0100000000FF";
    int h = digit_of(high), l = digit_of(low), good = h >= 0 && l >= 0;
    uint8_t byte = (uint8_t)(good ? 16 * h + l : 0);
    uint32_t r;
    sprintf(text + 11, "%02X", 255 - byte);
    text[9] = (char)high;
    text[10] = (char)low;
    r = read_bytes(text, 13, 3, 1);
    if (good)
        CHECK(r == IHEX_DATA && values(0, 1, 1) && holds(&pool_, 1, &byte, 1));
    else
        CHECK(r == IHEX_REFUSED + IHEX_CONTAINS_INVALID_CHARACTERS && values(h < 0 ? 9 : 10, 0, 0) && untouched(&pool_));
}

static void pairs_of_bytes(void)
{
    int i;
    for (i = 0; i < 65536; i++) {
        if (i % 256 == 0)
            begin_case();
        pair_of_bytes(i / 256, i % 256);
        if (i % 256 == 255)
            end_case();
    }
}

/* places of a line's first byte that is not a digit, and what is named */
static const struct {
    size_t at;
    uint64_t named;
} offenders[] = {
    {1, 1}, {2, 2}, {9, 9}, {10, 10}, {11, 11}, {520, 520}, {521, 521}, {522, 522}, {523, 523},
    {65534, 65534}, {65535, 65535}, {65536, 65535}, {70000, 65535},
};

#define OFFENDERS (sizeof offenders / sizeof offenders[0])

/* what may stand there, and after it; the last with 600 digits */
static char long_rest[602];
static const char *const rests[] = {"G", "g0", "GG:", "\r0", "\xC3\xA9", "\x80" "0", long_rest};

#define RESTS (sizeof rests / sizeof rests[0])

static char spoilt[MOST];

/* a text with such a line in it: a colon, digits up to the place, and the rest; returns the text's length */
static size_t spoil(const char *ahead, size_t at, const char *rest, const char *behind)
{
    size_t n = strlen(ahead);
    memset(long_rest, '0', sizeof long_rest - 1);
    long_rest[0] = 'G';
    memcpy(spoilt, ahead, n);
    spoilt[n] = ':';
    memset(spoilt + n + 1, '0', at - 1);
    spoilt[n + at] = '\0';
    strcat(strcat(spoilt + n + at, rest), behind);
    return n + at + strlen(spoilt + n + at);
}

static void places_in_lines(void)
{
    size_t i, k;
    for (i = 0; i < OFFENDERS; i++)
        for (k = 0; k < RESTS; k++) {
            begin_case();
            spoil("", offenders[i].at, rests[k], "");
            CHECK(read_line(spoilt, 8, 0) == IHEX_REFUSED + IHEX_CONTAINS_INVALID_CHARACTERS);
            CHECK(values(offenders[i].named, 0, 0) && untouched(&pool_));
            spoilt[0] = '0';
            CHECK(read_line(spoilt, 0, 0) == IHEX_REFUSED + IHEX_MISSING_START_CODE && values(0, 0, 0));
            end_case();
        }
}

/* ---- a text */

static uint32_t next(const char *text, size_t pool_len, size_t at)
{
    size_t n = strlen(text);
    const uint8_t *bytes = given(&text_, text, n);
    uint8_t *pool = lend(&pool_, pool_len);
    size_t p = position.value, l = line.value;
    uint8_t f = flags.value;
    uint32_t r;
    fresh();
    position.value = p;
    line.value = l;
    flags.value = f;
    r = ihex_next(bytes, n, pool, pool_len, at, &position.value, &line.value, &flags.value, &a.value, &b.value, &c.value);
    CHECK(same(&text_, text));
    return r;
}

static void begin(uint8_t stops)
{
    position.value = 0;
    line.value = 0;
    flags.value = stops;
}

static int stands(size_t p, size_t l, uint8_t f)
{
    return position.value == p && line.value == l && flags.value == f;
}

/* data, an empty line, a wrong checksum, an end record, and a line after it */
static const char mixed[] = ":04012000102030403B\n\n:00000001FE\n:00000001FF\n:G";

static void stops(void)
{
    begin(IHEX_STOP_AFTER_EOF);
    CHECK(next(mixed, 8, 1) == IHEX_DATA);
    CHECK(values(0x0120, 1, 4) && stands(20, 1, IHEX_STOP_AFTER_EOF));
    CHECK(holds(&pool_, 1, payload, 4));
    CHECK(next(mixed, 8, 1) == IHEX_REFUSED + IHEX_CHECKSUM_MISMATCH);
    CHECK(values(0xFF, 0xFE, 0) && stands(33, 3, IHEX_STOP_AFTER_EOF));
    CHECK(next(mixed, 8, 1) == IHEX_END_OF_FILE);
    CHECK(values(0, 0, 0) && stands(45, 4, IHEX_STOP_AFTER_EOF | IHEX_FINISHED));
    CHECK(next(mixed, 8, 1) == IHEX_DONE);
    CHECK(values(0, 0, 0) && stands(45, 4, IHEX_STOP_AFTER_EOF | IHEX_FINISHED));
    CHECK(untouched(&pool_));

    begin(IHEX_STOP_AFTER_FIRST_ERROR | IHEX_STOP_AFTER_EOF);
    CHECK(next(mixed, 8, 1) == IHEX_DATA);
    CHECK(next(mixed, 8, 1) == IHEX_REFUSED + IHEX_CHECKSUM_MISMATCH);
    CHECK(stands(33, 3, IHEX_STOP_AFTER_FIRST_ERROR | IHEX_STOP_AFTER_EOF | IHEX_FINISHED));
    CHECK(next(mixed, 8, 1) == IHEX_DONE);

    begin(IHEX_STOP_AFTER_FIRST_ERROR);
    CHECK(next(":00000001FF\n:00000001FF\n:G\n:", 0, 0) == IHEX_END_OF_FILE);
    CHECK(next(":00000001FF\n:00000001FF\n:G\n:", 0, 0) == IHEX_END_OF_FILE);
    CHECK(next(":00000001FF\n:00000001FF\n:G\n:", 0, 0) == IHEX_REFUSED + IHEX_CONTAINS_INVALID_CHARACTERS);
    CHECK(values(1, 0, 0) && stands(27, 3, IHEX_STOP_AFTER_FIRST_ERROR | IHEX_FINISHED));
    CHECK(next(":00000001FF\n:00000001FF\n:G\n:", 0, 0) == IHEX_DONE);
}

/* the pool is full: the state is as it was, and more room reads the line */
static void text_with_full_pool(void)
{
    begin(0);
    CHECK(next(mixed, 4, 1) == IHEX_REFUSED + IHEX_POOL_FULL);
    CHECK(values(0, 0, 0) && stands(0, 0, 0) && untouched(&pool_));
    CHECK(next(mixed, 4, 0) == IHEX_DATA);
    CHECK(values(0x0120, 0, 4) && stands(20, 1, 0) && holds(&pool_, 0, payload, 4));
}

/* line ends, and a last line without one */
static void line_ends(void)
{
    begin(0);
    CHECK(next("\r\n:00000001FF\r\n\r\r\n:00000001FF\r", 0, 0) == IHEX_END_OF_FILE);
    CHECK(stands(15, 2, 0));
    CHECK(next("\r\n:00000001FF\r\n\r\r\n:00000001FF\r", 0, 0) == IHEX_REFUSED + IHEX_MISSING_START_CODE);
    CHECK(stands(18, 3, 0));
    CHECK(next("\r\n:00000001FF\r\n\r\r\n:00000001FF\r", 0, 0) == IHEX_REFUSED + IHEX_CONTAINS_INVALID_CHARACTERS);
    CHECK(values(11, 0, 0) && stands(30, 4, 0));
    CHECK(next("\r\n:00000001FF\r\n\r\r\n:00000001FF\r", 0, 0) == IHEX_DONE);
}

/* what stands before a spoilt line: an empty line, and an odd one */
static const char two_ahead[] = "\n:00000001FF0\r\n";

/* a place is counted in its line, and no line end counts */
static void places_in_texts(void)
{
    static const char *const behinds[] = {"", "\n:00000001FF", "\r\n:00000001FF"};
    size_t i, k, m, n;
    for (i = 0; i < OFFENDERS; i++)
        for (k = 0; k < RESTS; k++)
            for (m = 0; m < 3; m++) {
                begin_case();
                n = spoil(two_ahead, offenders[i].at, rests[k], behinds[m]);
                begin(0);
                CHECK(next(spoilt, 8, 0) == IHEX_REFUSED + IHEX_RECORD_NOT_EVEN_LENGTH && stands(15, 2, 0));
                CHECK(next(spoilt, 8, 0) == IHEX_REFUSED + IHEX_CONTAINS_INVALID_CHARACTERS);
                CHECK(values(offenders[i].named, 0, 0) && line.value == 3 && untouched(&pool_));
                CHECK(m == 0 || next(spoilt, 8, 0) == IHEX_END_OF_FILE);
                CHECK(next(spoilt, 8, 0) == IHEX_DONE && position.value == n);
                end_case();
            }
}

/* no text; a position after it; bits that mean nothing */
static void states(void)
{
    begin(0);
    CHECK(next("", 0, 0) == IHEX_DONE);
    CHECK(values(0, 0, 0) && stands(0, 0, IHEX_FINISHED));
    begin(0xF8 | IHEX_STOP_AFTER_EOF);
    position.value = SIZE_MAX;
    CHECK(next(mixed, 8, 0) == IHEX_DONE);
    CHECK(stands(SIZE_MAX, 0, IHEX_STOP_AFTER_EOF | IHEX_FINISHED) && untouched(&pool_));
}

/* ---- a text in chunks */

/* the carry's bytes before the last call */
static uint8_t before[MOST];

static void begin_chunks(uint8_t stops, size_t carry_len)
{
    lend(&carry_, carry_len);
    begin(stops);
    empties.value = used.value = 0;
    skipped.value = 0;
}

static uint8_t *carry(void)
{
    return carry_.len ? carry_.all + EDGE : NULL;
}

/* a call: of ihex_finish where there is no chunk */
static uint32_t feed(const void *chunk, size_t n, size_t pool_len, size_t at)
{
    const uint8_t *bytes = given(&text_, chunk, n);
    uint8_t *pool = lend(&pool_, pool_len);
    uint32_t r;
    memcpy(before, carry_.all + EDGE, carry_.len);
    fresh();
    from.value = len.value = 77;
    lies.value = 77;
    if (chunk)
        r = ihex_next_chunk(bytes, n, carry(), carry_.len, pool, pool_len, at, &position.value, &line.value, &empties.value,
                            &used.value, &skipped.value, &flags.value, &lies.value, &from.value, &len.value, &a.value, &b.value, &c.value);
    else
        r = ihex_finish(carry(), carry_.len, pool, pool_len, at, &position.value, &line.value, &empties.value, &used.value,
                        &skipped.value, &flags.value, &lies.value, &from.value, &len.value, &a.value, &b.value, &c.value);
    CHECK(same(&text_, chunk) && guarded(&carry_) && guarded(&pool_) && fenced());
    return r;
}

static uint32_t finish(size_t pool_len, size_t at)
{
    return feed(NULL, 0, pool_len, at);
}

static uint32_t feed_text(const char *chunk, size_t pool_len, size_t at)
{
    return feed(chunk, strlen(chunk), pool_len, at);
}

/* the line at the place that the last call named, in the buffer where it lies */
static int shows(const void *bytes, size_t n)
{
    const struct lent *l = lies.value == IHEX_IN_CHUNK ? &text_ : &carry_;
    size_t r = ihex_shown(lies.value, from.value, len.value, text_.all + EDGE, text_.len, carry_.all + EDGE, carry_.len, &start.value);
    return fenced() && r == n && start.value + r <= l->len && memcmp(l->all + EDGE + start.value, bytes, n) == 0;
}

static int nowhere(void)
{
    return lies.value == IHEX_NOWHERE && from.value == 0 && len.value == 0 && shows("", 0) && start.value == 0;
}

/* the answers of a whole text, by ihex_next, with the lines they are to */
static struct answer {
    uint32_t code;
    uint64_t a, b, c;
    size_t line, at, len;
    uint8_t payload[IHEX_MAX_PAYLOAD];
} expected[16];

/* where a line of the text begins, and its length without the line end */
static void find_line(const char *text, size_t n, struct answer *e)
{
    size_t i = 0, l = 1;
    for (; l < e->line; i++)
        if (text[i] == '\n')
            l++;
    e->at = i;
    while (i < n && text[i] != '\n')
        i++;
    e->len = i - e->at;
    if (i < n && e->len && text[i - 1] == '\r')
        e->len--;
}

static void read_whole(const char *text, size_t n, uint8_t stops)
{
    size_t p = 0, l = 0, i = 0;
    uint8_t f = stops;
    struct answer *e;
    do {
        e = &expected[i++];
        e->code = ihex_next((const uint8_t *)text, n, e->payload, sizeof e->payload, 0, &p, &l, &f, &e->a, &e->b, &e->c);
        e->line = l;
        find_line(text, n, e);
    } while (e->code != IHEX_DONE);
}

/* the last call's answer is this one, with its line and its line's bytes */
static int answers(uint32_t r, const struct answer *e, const char *text)
{
    if (r != e->code || !values(e->a, e->b, e->c) || line.value != e->line)
        return 0;
    if (r == IHEX_DATA && !holds(&pool_, 0, e->payload, e->c))
        return 0;
    return r < IHEX_REFUSED ? shows(text + e->at, e->len) : nowhere();
}

/* how much of a line has come, the place of its first byte from 521 on that is not a digit, or 0, and whether a CR waits */
static struct {
    size_t len, other;
    int cr;
} begun;

static void grow(char c)
{
    if (begun.len >= IHEX_CARRY - 1 && !begun.other && !isxdigit((unsigned char)c))
        begun.other = begun.len;
    begun.len++;
}

static void come(const char *bytes, size_t n)
{
    size_t i;
    for (i = 0; i < n; i++)
        if (bytes[i] == '\n')
            memset(&begun, 0, sizeof begun);
        else {
            if (begun.cr)
                grow('\r');
            begun.cr = bytes[i] == '\r';
            if (!begun.cr)
                grow(bytes[i]);
        }
}

/* how many digits of it are left out before the last byte that a carry holds */
static uint16_t left_out(void)
{
    size_t n = begun.len <= IHEX_CARRY ? 0 : (begun.other ? begun.other : begun.len - 1) - (IHEX_CARRY - 1);
    return (uint16_t)(n < UINT16_MAX ? n : UINT16_MAX);
}

/* a text whose first chunk has `first` bytes and each other one `step`, to the answers of the whole */
static void in_chunks(const char *text, size_t n, size_t first, size_t step, uint8_t stops)
{
    size_t at = 0, k = first, i = 0;
    int over = 0;
    memset(&begun, 0, sizeof begun);
    begin_case();
    read_whole(text, n, stops);
    begin_chunks(stops, IHEX_CARRY);
    for (;;) {
        uint32_t r = over ? finish(IHEX_MAX_PAYLOAD, 0) : feed(text + at, k, IHEX_MAX_PAYLOAD, 0);
        if (r == IHEX_USED_UP) {
            CHECK(!over && values(0, 0, 0) && nowhere() && position.value == 0 && used.value <= IHEX_CARRY);
            come(text + at, k);
            CHECK(skipped.value == left_out());
            at += k;
            over = at == n;
            k = step < n - at ? step : n - at;
            continue;
        }
        CHECK(answers(r, &expected[i], text) && skipped.value == 0);
        if (expected[i++].code == IHEX_DONE)
            break;
    }
    CHECK((flags.value & IHEX_FINISHED) && feed_text(":00000001FF\n", 0, 0) == IHEX_DONE && values(0, 0, 0) && nowhere());
    CHECK(line.value == expected[i - 1].line && finish(0, 0) == IHEX_DONE && line.value == expected[i - 1].line);
    end_case();
}

/* a text to the answers of the whole through the struct's functions, so many bytes at a time */
static void stepwise(const char *whole, size_t n, size_t step, uint8_t stops)
{
    struct ihex_chunks s = {0, 0, 0, 0, 0, 0, 0, 0, 0};
    static uint8_t kept[IHEX_CARRY], pool[IHEX_MAX_PAYLOAD];
    const uint8_t *text = (const uint8_t *)whole;
    size_t at = 0, i = 0, first;
    uint64_t x, y, z;
    uint32_t r;
    s.flags = stops;
    memset(&begun, 0, sizeof begun);
    begin_case();
    read_whole(whole, n, stops);
    do {
        size_t k = n - at < step ? n - at : step;
        r = k ? ihex_chunks_next(&s, text + at, k, kept, sizeof kept, pool, sizeof pool, 0, &x, &y, &z)
              : ihex_chunks_finish(&s, kept, sizeof kept, pool, sizeof pool, 0, &x, &y, &z);
        if (r == IHEX_USED_UP) {
            come(whole + at, k);
            CHECK(s.skipped == left_out());
            at += k;
            continue;
        }
        CHECK(r == expected[i].code && x == expected[i].a && y == expected[i].b && z == expected[i].c && s.line == expected[i].line);
        CHECK(s.skipped == 0);
        if (r < IHEX_REFUSED)
            CHECK(ihex_shown(s.lies, s.from, s.len, text + at, k, kept, sizeof kept, &first) == expected[i].len &&
                  memcmp((s.lies == IHEX_IN_CHUNK ? text + at : kept) + first, whole + expected[i].at, expected[i].len) == 0);
        i++;
    } while (r != IHEX_DONE);
    end_case();
}

/* records, refusals, empty lines, CRs of each kind, and a last line without a line end */
static const char cut_text[] =
    ":04012000102030403B\r\n\r\n\n:00000001FE\n\r\r\n:0400000312345678E5\r\n:G\r\r\n\r:\n:020000021200EA\n:00000001FF\n:0100000011EE";

static void cut_texts(void)
{
    static const char *const small[] = {"", "\n", "\r", "\r\n", "\r\r\n", ":00000001FF", ":00000001FF\r", ":00000001FF\r\n"};
    size_t i, k, n = strlen(cut_text);
    for (k = 0; k <= n; k++) {
        in_chunks(cut_text, n, k, n, 0);
        in_chunks(cut_text, n, k, n, IHEX_STOP_AFTER_FIRST_ERROR | IHEX_STOP_AFTER_EOF);
    }
    for (k = 1; k < 8; k++)
        in_chunks(cut_text, n, k, k, IHEX_STOP_AFTER_EOF);
    for (i = 0; i < sizeof small / sizeof small[0]; i++)
        for (k = 0; k <= strlen(small[i]); k++)
            in_chunks(small[i], strlen(small[i]), k, 1, 0);
}

/* dumps that follow each other, and where the chunk at hand begins and ends in them */
static char joined[200];
static size_t chunk_at, chunk_end;

/* one of them, which ends at `past`, through a state of its own, to the answers that it has alone */
static void one_of_dumps(const char *dump, size_t past, uint8_t stops)
{
    struct ihex_chunks s = {0, 0, 0, 0, 0, 0, 0, 0, 0};
    static uint8_t kept[IHEX_CARRY], pool[IHEX_MAX_PAYLOAD];
    const struct answer *e = expected;
    uint64_t x, y, z;
    uint32_t r;
    s.flags = stops;
    read_whole(dump, strlen(dump), stops);
    do {
        r = ihex_chunks_next(&s, (uint8_t *)joined + chunk_at, chunk_end - chunk_at, kept, sizeof kept, pool, sizeof pool, 0, &x, &y, &z);
        if (r == IHEX_USED_UP) {
            chunk_at = chunk_end;
            chunk_end = strlen(joined);
        } else {
            CHECK(r == e->code && x == e->a && y == e->b && z == e->c && s.line == e->line);
            CHECK(!(s.flags & IHEX_FINISHED) || chunk_at + s.position == past);
            e++;
        }
    } while (r != IHEX_DONE && chunk_at < strlen(joined));
    CHECK(r == IHEX_DONE && chunk_at + s.position == past);
    chunk_at += s.position;
}

/* all of them, cut in two: where one state stops, the next reads on in the same chunk */
static void dumps_cut_at(const char *const *dumps, size_t count, size_t cut, uint8_t stops)
{
    size_t i, past = 0;
    begin_case();
    chunk_at = 0;
    chunk_end = cut;
    for (i = 0; i < count; i++)
        one_of_dumps(dumps[i], past += strlen(dumps[i]), stops);
    end_case();
}

/* the second begins with empty lines; the last stops a reader only where it stops after an error */
static void dumps_in_chunks(void)
{
    static const char *const dumps[] = {":0100000041BE\n:00000001FF\n", "\r\n\n:020000021200EA\r\n:00000001FF\r\n",
                                        ":00000001FF\n", ":00000001FE\n"};
    size_t k;
    for (k = 0; k < 3; k++)
        strcat(joined, dumps[k]);
    for (k = 0; k <= strlen(joined); k++)
        dumps_cut_at(dumps, 3, k, IHEX_STOP_AFTER_EOF);
    strcat(joined, dumps[3]);
    for (k = 0; k <= strlen(joined); k++)
        dumps_cut_at(dumps, 4, k, IHEX_STOP_AFTER_FIRST_ERROR | IHEX_STOP_AFTER_EOF);
}

/* a CR at a chunk's end, and what it becomes */
static void waiting_CR(void)
{
    begin_chunks(0, IHEX_CARRY);
    CHECK(feed_text(":00000001FF\r", 0, 0) == IHEX_USED_UP && used.value == 11 && stands(0, 0, IHEX_CR_WAITS));
    CHECK(feed_text("\n\r", 0, 0) == IHEX_END_OF_FILE && used.value == 0 && stands(1, 1, 0));
    CHECK(lies.value == IHEX_IN_CARRY && from.value == 0 && shows(":00000001FF", 11));
    CHECK(feed_text("\n\r", 0, 0) == IHEX_USED_UP && used.value == 0 && stands(0, 1, IHEX_CR_WAITS));
    CHECK(feed_text("\n:00000001FF\n", 0, 0) == IHEX_END_OF_FILE && stands(13, 3, 0));
    CHECK(lies.value == IHEX_IN_CHUNK && from.value == 1 && shows(":00000001FF", 11));
    CHECK(feed_text("\n:00000001FF\n", 0, 0) == IHEX_USED_UP);
    CHECK(feed_text("\r", 0, 0) == IHEX_USED_UP && finish(0, 0) == IHEX_REFUSED + IHEX_MISSING_START_CODE);
    CHECK(stands(0, 4, IHEX_FINISHED) && nowhere());
}

/* lines about the longest and far over it: digits only, or with a byte that is not a digit at a place */
static void long_lines(void)
{
    static const size_t lengths[] = {519, 520, 521, 522, 523, 524, 1043, 5000, 70000}, places[] = {0, 1, 520, 521, 522, 523, 4999, 69999};
    static char text[70000 + 12];
    size_t i, k, n;
    for (i = 0; i < sizeof lengths / sizeof lengths[0]; i++) {
        n = lengths[i];
        for (k = 0; k < sizeof places / sizeof places[0] && places[k] < n; k++) {
            memset(text, '0', n);
            memcpy(text, ":FF", 3);
            memcpy(text + n - 2, "01", 2);
            if (k)
                text[places[k]] = 'G';
            memcpy(text + n, "\r\n:00000001F", 12);
            in_chunks(text, n + 11, 100, n < 2000 ? 100 : 8192, 0);
            in_chunks(text, n + 2, 0, n + 1, 0);
            in_chunks(text, n, n / 2, n, 0);
        }
    }
}

/* a text with a spoilt line after so many bytes: cut before its place, after it, where the carry is full, and in equal parts */
static void in_all_cuts(size_t n, size_t ahead, size_t at)
{
    static const size_t full[] = {521, 522, 523}, steps[] = {1, 17, 4096};
    size_t i;
    for (i = 0; i < 3; i++) {
        if (ahead + at + i <= n)
            in_chunks(spoilt, n, ahead + at + i, n, 0);
        if (ahead + full[i] <= n && (full[i] < at || full[i] > at + 2))
            in_chunks(spoilt, n, ahead + full[i], n, 0);
        stepwise(spoilt, n, steps[i], 0);
    }
}

static void places_in_chunks(void)
{
    size_t i, k, n;
    for (i = 0; i < OFFENDERS; i++)
        for (k = 0; k < RESTS; k++) {
            n = spoil(two_ahead, offenders[i].at, rests[k], "\r\n:00000001FF");
            in_all_cuts(n, strlen(two_ahead), offenders[i].at);
            CHECK(expected[1].code == IHEX_REFUSED + IHEX_CONTAINS_INVALID_CHARACTERS && expected[1].a == offenders[i].named);
            if (k % 3)
                continue;
            /* alone, up to the text's end */
            n = spoil("", offenders[i].at, rests[k], "");
            in_all_cuts(n, 0, offenders[i].at);
            CHECK(expected[0].code == IHEX_REFUSED + IHEX_CONTAINS_INVALID_CHARACTERS && expected[0].a == offenders[i].named);
        }
}

/* each byte in the last place that the carry holds, before one that is not a digit: it is left out exactly where it is a digit */
static void bytes_behind_521(void)
{
    static char text[IHEX_CARRY + 2];
    int c;
    memset(text, '0', sizeof text);
    text[0] = ':';
    text[IHEX_CARRY] = 'G';
    text[IHEX_CARRY + 1] = '\n';
    for (c = 0; c < 256; c++) {
        if (c == '\n')
            continue;
        text[IHEX_CARRY - 1] = (char)c;
        in_chunks(text, sizeof text, IHEX_CARRY, 1, 0);
        CHECK(expected[0].code == IHEX_REFUSED + IHEX_CONTAINS_INVALID_CHARACTERS &&
              expected[0].a == (isxdigit(c) ? IHEX_CARRY : IHEX_CARRY - 1));
    }
}

/* a CR is the line's at the text's end and before another CR, and the line end's before LF */
static void places_of_CR(void)
{
    static const char *const ends[] = {"\r", "\r\r", "\r\r\n", "\r\n"};
    size_t i, k;
    for (i = 0; i < OFFENDERS; i++)
        for (k = 0; k < 4; k++) {
            size_t at = offenders[i].at, n = spoil("", at, "", ends[k]);
            in_all_cuts(n, 0, at);
            if (k < 3)
                CHECK(expected[0].code == IHEX_REFUSED + IHEX_CONTAINS_INVALID_CHARACTERS && expected[0].a == offenders[i].named);
            else
                CHECK(expected[0].code != IHEX_REFUSED + IHEX_CONTAINS_INVALID_CHARACTERS && expected[0].line == 1);
        }
}

/* a state made up by hand: so many bytes of a line of digits but for the last, and so many left out */
static void make_up(size_t n, char last, uint16_t out)
{
    begin_chunks(0, IHEX_CARRY);
    memset(carry(), '0', n);
    carry()[n - 1] = (uint8_t)last;
    carry()[0] = ':';
    used.value = n;
    skipped.value = out;
}

/* a refusal of the line, with its value; nothing is left of it in the state */
static int refuses(uint32_t r, uint32_t number, uint64_t value)
{
    return r == IHEX_REFUSED + number && values(value, 0, 0) && line.value == 1 && used.value == 0 && skipped.value == 0 && nowhere();
}

/* a line that is begun: so many bytes, and so many left out */
static int begins(uint32_t r, size_t n, uint16_t out)
{
    return r == IHEX_USED_UP && used.value == n && skipped.value == out && line.value == 0;
}

/* a count, one more, and 600 more; the place of the carry's last byte, and of the one after it */
struct counted {
    uint16_t out, one, many;
    uint64_t last, next;
};

static char six_hundred[601];

/* a full carry whose last byte is not a digit: it stays, and so does its place */
static void last_is_no_digit(const struct counted *c)
{
    make_up(522, 'G', c->out);
    CHECK(refuses(finish(0, 0), IHEX_CONTAINS_INVALID_CHARACTERS, c->last));
    make_up(522, 'G', c->out);
    CHECK(refuses(feed_text("\n", 0, 0), IHEX_CONTAINS_INVALID_CHARACTERS, c->last));
    make_up(522, 'G', c->out);
    CHECK(begins(feed_text("0G\r", 0, 0), 522, c->out));
    CHECK(refuses(feed_text("0\n", 0, 0), IHEX_CONTAINS_INVALID_CHARACTERS, c->last));
    make_up(522, 'G', c->out);
    CHECK(begins(feed_text(six_hundred, 0, 0), 522, c->out) && carry()[521] == 'G');
}

/* it is a digit: the next byte replaces it */
static void last_is_a_digit(const struct counted *c)
{
    make_up(522, '7', c->out);
    CHECK(begins(feed_text("G", 0, 0), 522, c->one) && carry()[521] == 'G');
    CHECK(refuses(finish(0, 0), IHEX_CONTAINS_INVALID_CHARACTERS, c->next));
    make_up(522, '7', c->out);
    CHECK(refuses(feed_text("GG\n", 0, 0), IHEX_CONTAINS_INVALID_CHARACTERS, c->next));
    make_up(522, '7', c->out);
    CHECK(begins(feed_text("8", 0, 0), 522, c->one) && carry()[521] == '8');
    CHECK(refuses(finish(0, 0), IHEX_RECORD_TOO_LONG, 0));
    make_up(522, '7', c->out);
    CHECK(begins(feed_text(six_hundred, 0, 0), 522, c->many) && carry()[521] == '0');
    make_up(522, '7', c->out);
    CHECK(refuses(feed_text("\n", 0, 0), IHEX_RECORD_TOO_LONG, 0));
}

/* a CR that waits is not counted yet */
static void last_is_a_CR(const struct counted *c)
{
    make_up(522, '7', c->out);
    CHECK(begins(feed_text("\r", 0, 0), 522, c->out) && carry()[521] == '7');
    CHECK(refuses(finish(0, 0), IHEX_CONTAINS_INVALID_CHARACTERS, c->next));
    make_up(522, '7', c->out);
    CHECK(begins(feed_text("\r", 0, 0), 522, c->out) && begins(feed_text("\r", 0, 0), 522, c->one));
    CHECK(refuses(feed_text("\n", 0, 0), IHEX_CONTAINS_INVALID_CHARACTERS, c->next));
    make_up(522, '7', c->out);
    CHECK(begins(feed_text("\r", 0, 0), 522, c->out) && refuses(feed_text("\n", 0, 0), IHEX_RECORD_TOO_LONG, 0));
}

/* a place before the carry's last byte is the line's own; without a colon there is none */
static void ahead_of_the_last(const struct counted *c)
{
    make_up(522, 'G', c->out);
    carry()[520] = 'G';
    CHECK(refuses(finish(0, 0), IHEX_CONTAINS_INVALID_CHARACTERS, 520));
    make_up(522, '7', c->out);
    carry()[1] = 'G';
    CHECK(refuses(feed_text("GG\r\n", 0, 0), IHEX_CONTAINS_INVALID_CHARACTERS, 1));
    make_up(522, 'G', c->out);
    carry()[0] = '0';
    CHECK(refuses(finish(0, 0), IHEX_MISSING_START_CODE, 0));
}

/* a full carry, and counts up to the greatest */
static void counts_of_skipped(void)
{
    static const struct counted counts[] = {
        {0, 1, 600, 521, 522}, {1, 2, 601, 522, 523}, {64934, 64935, 65534, 65455, 65456}, {64935, 64936, 65535, 65456, 65457},
        {65012, 65013, 65535, 65533, 65534}, {65013, 65014, 65535, 65534, 65535}, {65014, 65015, 65535, 65535, 65535},
        {65015, 65016, 65535, 65535, 65535}, {65534, 65535, 65535, 65535, 65535}, {65535, 65535, 65535, 65535, 65535},
    };
    size_t i;
    memset(six_hundred, '0', 600);
    for (i = 0; i < sizeof counts / sizeof counts[0]; i++) {
        begin_case();
        last_is_no_digit(&counts[i]);
        last_is_a_digit(&counts[i]);
        last_is_a_CR(&counts[i]);
        ahead_of_the_last(&counts[i]);
        end_case();
    }
}

/* a carry that is not full, with a count that no call leaves: it is not read, and 0 is left */
static void counts_that_are_made_up(void)
{
    static const size_t lens[] = {1, 2, 5, 505, 519, 520, 521};
    size_t i;
    for (i = 0; i < sizeof lens / sizeof lens[0]; i++) {
        size_t n = lens[i];
        begin_case();
        make_up(n, '0', 7);
        CHECK(begins(feed_text("0", 0, 0), n + 1, 0));
        make_up(n, '0', 7);
        CHECK(refuses(feed_text("G0\n", 0, 0), IHEX_CONTAINS_INVALID_CHARACTERS, n));
        CHECK(feed_text("G0\n:0G\n", 0, 0) == IHEX_REFUSED + IHEX_CONTAINS_INVALID_CHARACTERS && values(2, 0, 0) && skipped.value == 0);
        make_up(n, '0', 7);
        CHECK(begins(feed_text("\r", 0, 0), n, 0) && refuses(finish(0, 0), IHEX_CONTAINS_INVALID_CHARACTERS, n));
        make_up(n, '0', 65535);
        flags.value = IHEX_CR_WAITS;
        CHECK(refuses(finish(0, 0), IHEX_CONTAINS_INVALID_CHARACTERS, n));
        make_up(n, '0', 65535);
        CHECK((finish(0, 0) & IHEX_REFUSED) && values(0, 0, 0) && skipped.value == 0);
        /* the line grows over the carry */
        make_up(n, '0', 65535);
        spoil("", 601, "G\n", "");
        CHECK(begins(feed(spoilt + 1, 600, 0, 0), 522, (uint16_t)(n + 600 - 522)));
        CHECK(refuses(feed_text("G\n", 0, 0), IHEX_CONTAINS_INVALID_CHARACTERS, n + 600));
        make_up(n, '0', 65535);
        CHECK(refuses(feed_text(spoilt + 1, 0, 0), IHEX_CONTAINS_INVALID_CHARACTERS, n + 600));
        end_case();
    }
}

/* the same with bytes enough that they are taken in one go */
static void counts_taken_in_one_go(void)
{
    make_up(505, '0', 7);
    CHECK(refuses(feed_text("0123456789ABCDEFG\n", 0, 0), IHEX_CONTAINS_INVALID_CHARACTERS, 521));
    make_up(505, '0', 7);
    CHECK(begins(feed_text("0123456789ABCDEFG", 0, 0), 522, 0));
    CHECK(refuses(feed_text("0123456789ABCDEFG\n", 0, 0), IHEX_CONTAINS_INVALID_CHARACTERS, 521));
    make_up(505, '0', 7);
    CHECK(begins(feed_text("0123456789ABCDEF\r", 0, 0), 521, 0));
    CHECK(refuses(finish(0, 0), IHEX_CONTAINS_INVALID_CHARACTERS, 521));
}

/* the same with nothing begun; "done" leaves the count as it was */
static void counts_with_nothing_begun(void)
{
    make_up(1, ':', 7);
    used.value = 0;
    CHECK(refuses(feed_text(":0G\n", 0, 0), IHEX_CONTAINS_INVALID_CHARACTERS, 2));
    make_up(1, ':', 7);
    used.value = 0;
    CHECK(begins(feed_text("\n:0", 0, 0), 2, 0));
    make_up(1, ':', 7);
    used.value = 0;
    flags.value = IHEX_CR_WAITS;
    CHECK(begins(feed_text("\n\r", 0, 0), 0, 0) && empties.value == 1 && flags.value == IHEX_CR_WAITS);
    make_up(1, ':', 7);
    used.value = 0;
    CHECK(finish(0, 0) == IHEX_DONE && stands(0, 0, IHEX_FINISHED) && used.value == 0 && skipped.value == 7);
    CHECK(feed_text(":0G\n", 0, 0) == IHEX_DONE && skipped.value == 7);
}

/* ---- refusals 10 and 18, and what they keep */

/* the state and the carry, whole, as they were */
static int all_kept(size_t p, size_t l, size_t e, size_t u, uint16_t k, uint8_t f)
{
    return stands(p, l, f) && empties.value == e && used.value == u && skipped.value == k &&
           memcmp(before, carry_.all + EDGE, carry_.len) == 0 && values(0, 0, 0) && nowhere() && untouched(&pool_);
}

static void chunks_with_full_pool(void)
{
    static const char data[] = ":04012000102030403B\n";
    begin_chunks(IHEX_STOP_AFTER_FIRST_ERROR, IHEX_CARRY);
    CHECK(feed_text(data, 8, 5) == IHEX_REFUSED + IHEX_POOL_FULL && all_kept(0, 0, 0, 0, 0, IHEX_STOP_AFTER_FIRST_ERROR));
    CHECK(feed_text(data, 8, 4) == IHEX_DATA && values(0x0120, 4, 4) && holds(&pool_, 4, payload, 4));
    CHECK(feed_text(data, 8, 5) == IHEX_USED_UP && feed_text("\n\n:0401", 0, 0) == IHEX_USED_UP && empties.value == 2);
    CHECK(feed_text(data + 5, 8, 5) == IHEX_REFUSED + IHEX_POOL_FULL);
    CHECK(stands(0, 1, IHEX_STOP_AFTER_FIRST_ERROR) && empties.value == 2 && used.value == 5 && memcmp(carry(), ":0401", 5) == 0);
    CHECK(values(0, 0, 0) && nowhere() && untouched(&pool_));
    CHECK(feed_text(data + 5, 8, 0) == IHEX_DATA && values(0x0120, 0, 4) && holds(&pool_, 0, payload, 4));
    CHECK(stands(15, 4, IHEX_STOP_AFTER_FIRST_ERROR) && lies.value == IHEX_IN_CARRY && shows(data, 19));

    begin_chunks(0, IHEX_CARRY);
    CHECK(feed(data, 19, 0, 0) == IHEX_USED_UP && used.value == 19);
    CHECK(finish(3, 0) == IHEX_REFUSED + IHEX_POOL_FULL && all_kept(0, 0, 0, 19, 0, 0));
    CHECK(finish(4, 0) == IHEX_DATA && stands(0, 1, IHEX_FINISHED) && used.value == 0 && shows(data, 19));
    CHECK(skipped.value == 0 && finish(4, 0) == IHEX_DONE && feed_text(data, 4, 0) == IHEX_DONE && all_kept(0, 1, 0, 0, 0, IHEX_FINISHED));

    /* a count that no call leaves is kept too */
    begin_chunks(0, IHEX_CARRY);
    CHECK(feed(data, 5, 0, 0) == IHEX_USED_UP && used.value == 5 && skipped.value == 0);
    skipped.value = 9;
    CHECK(feed_text(data + 5, 3, 0) == IHEX_REFUSED + IHEX_POOL_FULL && stands(0, 0, 0) && used.value == 5 && skipped.value == 9);
    CHECK(feed_text(data + 5, 4, 0) == IHEX_DATA && used.value == 0 && skipped.value == 0 && shows(data, 19));
    begin_chunks(0, IHEX_CARRY);
    CHECK(feed(data, 19, 0, 0) == IHEX_USED_UP);
    skipped.value = 65535;
    CHECK(finish(3, 0) == IHEX_REFUSED + IHEX_POOL_FULL && all_kept(0, 0, 0, 19, 65535, 0));
    CHECK(finish(4, 0) == IHEX_DATA && stands(0, 1, IHEX_FINISHED) && skipped.value == 0);
}

static void small_carry(void)
{
    static const size_t lens[] = {0, 1, 521, 522, 523, 1000};
    static const size_t counts[] = {0, 522, 523, SIZE_MAX};
    size_t i, k;
    for (i = 0; i < sizeof lens / sizeof lens[0]; i++)
        for (k = 0; k < sizeof counts / sizeof counts[0]; k++) {
            uint32_t code = IHEX_REFUSED + IHEX_CARRY_TOO_SMALL;
            int small = lens[i] < IHEX_CARRY || counts[k] > IHEX_CARRY;
            begin_case();
            begin_chunks(IHEX_FINISHED | IHEX_CR_WAITS, lens[i]);
            position.value = SIZE_MAX;
            empties.value = 7;
            used.value = counts[k];
            skipped.value = 4321;
            CHECK(feed_text(mixed, 8, 0) == (small ? code : IHEX_DONE));
            CHECK(all_kept(SIZE_MAX, 0, 7, counts[k], 4321, IHEX_FINISHED | IHEX_CR_WAITS));
            flags.value = IHEX_CR_WAITS;
            CHECK((finish(8, 0) == code) == small);
            CHECK(small ? all_kept(SIZE_MAX, 0, 7, counts[k], 4321, IHEX_CR_WAITS) : skipped.value == 0);
            end_case();
        }
}

/* every setting of the flags, positions after the end, and counts of used bytes and of digits left out that no call leaves */
static void made_up_states(void)
{
    static const size_t places[] = {0, 21, SIZE_MAX}, counts[] = {0, 1, 522};
    size_t i, k, f;
    begin_case();
    for (f = 0; f < 256; f++)
        for (i = 0; i < 3; i++)
            for (k = 0; k < 3; k++) {
                uint32_t r;
                begin_chunks((uint8_t)f, IHEX_CARRY);
                position.value = places[i];
                line.value = empties.value = SIZE_MAX;
                used.value = counts[k];
                skipped.value = (uint16_t)(257 * f);
                r = feed_text(mixed, 8, 0);
                CHECK(r <= IHEX_START_LINEAR_ADDRESS || (r > IHEX_REFUSED && r <= IHEX_REFUSED + IHEX_POOL_FULL) ||
                      r == ((f & IHEX_FINISHED) ? IHEX_DONE : IHEX_USED_UP));
                CHECK(flags.value < 16 && (flags.value & 3) == (f & 3) && (flags.value & IHEX_FINISHED) >= (f & IHEX_FINISHED));
                CHECK(skipped.value == 0 || r >= IHEX_DONE || r == IHEX_REFUSED + IHEX_POOL_FULL);
            }
    end_case();
}

/* ---- places, and the struct */

static size_t show(uint8_t what, size_t at, size_t n, size_t chunk_len, size_t carry_len)
{
    const uint8_t *chunk = given(&text_, cut_text, chunk_len);
    size_t r;
    begin_chunks(0, carry_len);
    fresh();
    start.value = 77;
    r = ihex_shown(what, at, n, chunk, chunk_len, carry(), carry_len, &start.value);
    CHECK(fenced() && untouched(&carry_) && same(&text_, cut_text));
    return r;
}

static void shown_places(void)
{
    unsigned what;
    CHECK(show(IHEX_IN_CHUNK, 3, 5, 8, 0) == 5 && start.value == 3);
    CHECK(show(IHEX_IN_CHUNK, 3, 6, 8, 0) == 5 && start.value == 3);
    CHECK(show(IHEX_IN_CHUNK, 3, SIZE_MAX, 8, 600) == 5 && start.value == 3);
    CHECK(show(IHEX_IN_CHUNK, 8, 1, 8, 600) == 0 && start.value == 8);
    CHECK(show(IHEX_IN_CHUNK, 9, 1, 8, 600) == 0 && start.value == 0);
    CHECK(show(IHEX_IN_CHUNK, SIZE_MAX, SIZE_MAX, 8, 600) == 0 && start.value == 0);
    CHECK(show(IHEX_IN_CHUNK, 0, 1, 0, 600) == 0 && start.value == 0);
    CHECK(show(IHEX_IN_CARRY, 0, 522, 8, 522) == 522 && start.value == 0);
    CHECK(show(IHEX_IN_CARRY, 9, 523, 8, 522) == 522 && start.value == 0);
    CHECK(show(IHEX_IN_CARRY, SIZE_MAX, SIZE_MAX, 8, 0) == 0 && start.value == 0);
    begin_case();
    for (what = 0; what < 256; what++)
        if (what != IHEX_IN_CHUNK && what != IHEX_IN_CARRY)
            CHECK(show((uint8_t)what, 1, 1, 8, 600) == 0 && start.value == 0);
    end_case();
}

static void struct_of_chunks(void)
{
    size_t k, n = strlen(cut_text);
    /* the flags stand fifth, also where a state is written in one go */
    static const struct ihex_chunks begins = {0, 0, 0, 0, IHEX_STOP_AFTER_EOF, 0, 0, 0, 0};
    CHECK(begins.flags == IHEX_STOP_AFTER_EOF && begins.skipped == 0);
    CHECK(sizeof(struct ihex_chunks) == 7 * sizeof(size_t) && offsetof(struct ihex_chunks, from) == 5 * sizeof(size_t));
    for (k = 1; k < 8; k++)
        stepwise(cut_text, n, k, IHEX_STOP_AFTER_EOF);
}

/* ---- one record written */

/* a pool that holds its positions */
static const uint8_t *counted_pool(size_t len)
{
    size_t i;
    uint8_t *pool = lend(&pool_, len);
    for (i = 0; i < len; i++)
        pool[i] = (uint8_t)i;
    return pool;
}

static int counted(void)
{
    size_t i;
    for (i = 0; i < pool_.len; i++)
        if (pool_.all[EDGE + i] != (uint8_t)i)
            return 0;
    return pool_.all[EDGE - 1] == GUARD && pool_.all[EDGE + pool_.len] == GUARD;
}

static uint32_t write_record(uint8_t type, uint32_t number, uint16_t second, size_t at, size_t len, size_t pool_len, size_t out_len)
{
    const uint8_t *pool = counted_pool(pool_len);
    uint8_t *out = lend(&out_, out_len);
    uint32_t r;
    fresh();
    r = ihex_to_record_string(type, number, second, at, len, pool, pool_len, out, out_len, &a.value);
    CHECK(fenced() && b.value == EDGES && c.value == EDGES && counted());
    return r;
}

/* the output begins with the text, and the value is its length */
static void written_records(void)
{
    CHECK(write_record(IHEX_DATA, 0x0120, 0, 16, 4, 32, 600) == IHEX_OK);
    CHECK(wrote(":0401200010111213" "95"));
    CHECK(write_record(IHEX_DATA, 0xFFFF, 9, 32, 0, 32, 11) == IHEX_OK);
    CHECK(wrote(":00FFFF0002"));
    CHECK(write_record(IHEX_END_OF_FILE, 0xFFFFFFFF, 0xFFFF, SIZE_MAX, SIZE_MAX, 0, 12) == IHEX_OK);
    CHECK(wrote(":00000001FF"));
    CHECK(write_record(IHEX_EXTENDED_SEGMENT_ADDRESS, 0x1200, 9, 9, 9, 0, 15) == IHEX_OK);
    CHECK(wrote(":020000021200EA"));
    CHECK(write_record(IHEX_START_SEGMENT_ADDRESS, 0x1234, 0x5678, 9, 9, 0, 19) == IHEX_OK);
    CHECK(wrote(":0400000312345678E5"));
    CHECK(write_record(IHEX_EXTENDED_LINEAR_ADDRESS, 0xFFFF, 9, 9, 9, 0, 15) == IHEX_OK);
    CHECK(wrote(":02000004FFFFFC"));
    CHECK(write_record(IHEX_START_LINEAR_ADDRESS, 0x12345678, 9, 9, 9, 0, 19) == IHEX_OK);
    CHECK(wrote(":0400000512345678E3"));
}

static void bad_records(void)
{
    static const uint8_t short_types[] = {0, 2, 3, 4};
    size_t i;
    for (i = 0; i < sizeof short_types; i++) {
        CHECK(write_record(short_types[i], 65535, 0, 0, 0, 8, 600) == IHEX_OK);
        CHECK(write_record(short_types[i], 65536, 0, 0, 0, 8, 600) == IHEX_BAD_RECORD);
        CHECK(wrote_nothing(0));
        CHECK(write_record(short_types[i], 0xFFFFFFFF, 0, 0, 0, 8, 600) == IHEX_BAD_RECORD);
    }
    CHECK(write_record(6, 0, 0, 0, 0, 8, 600) == IHEX_BAD_RECORD);
    CHECK(wrote_nothing(0));
    CHECK(write_record(255, 0, 0, 0, 0, 0, 0) == IHEX_BAD_RECORD);
}

/* outside the pool, too long, no room: in this order */
static void refused_records(void)
{
    CHECK(write_record(IHEX_DATA, 0, 0, 29, 4, 32, 600) == IHEX_REFUSED + IHEX_PAYLOAD_OUTSIDE_POOL);
    CHECK(wrote_nothing(0));
    CHECK(write_record(IHEX_DATA, 0, 0, SIZE_MAX, 2, 32, 600) == IHEX_REFUSED + IHEX_PAYLOAD_OUTSIDE_POOL);
    CHECK(write_record(IHEX_DATA, 0, 0, 2, SIZE_MAX, 32, 600) == IHEX_REFUSED + IHEX_PAYLOAD_OUTSIDE_POOL);
    CHECK(write_record(IHEX_DATA, 0, 0, 45, 256, 300, 0) == IHEX_REFUSED + IHEX_PAYLOAD_OUTSIDE_POOL);
    CHECK(write_record(IHEX_DATA, 0, 0, 44, 256, 300, 0) == IHEX_REFUSED + IHEX_DATA_EXCEEDS_MAXIMUM_LENGTH);
    CHECK(wrote_nothing(256));
    CHECK(write_record(IHEX_DATA, 0, 0, 45, 255, 300, 520) == IHEX_REFUSED + IHEX_OUTPUT_FULL);
    CHECK(wrote_nothing(0));
    CHECK(write_record(IHEX_DATA, 0, 0, 45, 255, 300, IHEX_MAX_LINE) == IHEX_OK && a.value == IHEX_MAX_LINE);
    CHECK(write_record(IHEX_END_OF_FILE, 0, 0, 0, 0, 0, 10) == IHEX_REFUSED + IHEX_OUTPUT_FULL);
    CHECK(wrote_nothing(0));
    CHECK(write_record(IHEX_END_OF_FILE, 0, 0, 0, 0, 0, 0) == IHEX_REFUSED + IHEX_OUTPUT_FULL);
}

/* ---- an object written */

static uint32_t write_bytes(const void *bytes, size_t n, size_t pool_len, size_t out_len)
{
    const uint8_t *list = given(&list_, bytes, n);
    const uint8_t *pool = counted_pool(pool_len);
    uint8_t *out = lend(&out_, out_len);
    uint32_t r;
    fresh();
    r = ihex_create_object_file_representation(list, n, pool, pool_len, out, out_len, &a.value);
    CHECK(fenced() && b.value == EDGES && c.value == EDGES && counted() && same(&list_, bytes));
    return r;
}

static uint32_t write_list(const struct ihex_record *list, size_t n, size_t pool_len, size_t out_len)
{
    return write_bytes(list, n * sizeof *list, pool_len, out_len);
}

/* a record of each type */
static const struct ihex_record all[] = {
    {IHEX_EXTENDED_SEGMENT_ADDRESS, 0xEE, 0, 0x1200, 0, 0},
    {IHEX_DATA, 0, 0, 0x0120, 16, 4},
    {IHEX_START_SEGMENT_ADDRESS, 0, 0x5678, 0x1234, 0, 0},
    {IHEX_EXTENDED_LINEAR_ADDRESS, 0, 0, 0xFFFF, 0, 0},
    {IHEX_START_LINEAR_ADDRESS, 0, 0, 0x12345678, 0, 0},
    {IHEX_END_OF_FILE, 0, 0xFFFF, 0xFFFFFFFF, UINT64_MAX, UINT64_MAX},
};

/* a list as its bytes; the data lies at position 0102 */
static const uint8_t listed[] = {
    0, 0xEE, 0, 0, 0x20, 0x01, 0, 0, 0x02, 0x01, 0, 0, 0, 0, 0, 0, 0x03, 0, 0, 0, 0, 0, 0, 0, /* data */
    1, 0xEE, 0, 0, 0, 0, 0, 0, 0, 0, 0, 0, 0, 0, 0, 0, 0, 0, 0, 0, 0, 0, 0, 0,             /* end */
};

static void layout(void)
{
    CHECK(sizeof(struct ihex_record) == IHEX_RECORD_SIZE);
    CHECK(offsetof(struct ihex_record, second) == 2 && offsetof(struct ihex_record, number) == 4);
    CHECK(offsetof(struct ihex_record, at) == 8 && offsetof(struct ihex_record, len) == 16);
    CHECK(write_bytes(listed, 48, 300, 600) == IHEX_OK);
    CHECK(wrote(":03012000020304D3\n:00000001FF\n"));
}

static void written_objects(void)
{
    static const char text[] =
        ":020000021200EA\n:040120001011121395\n:0400000312345678E5\n:02000004FFFFFC\n:0400000512345678E3\n:00000001FF\n";
    size_t n = strlen(text);
    CHECK(write_list(all, 6, 32, 600) == IHEX_OK);
    CHECK(wrote(text));
    CHECK(write_list(all, 6, 32, n) == IHEX_OK);
    CHECK(wrote(text));
    CHECK(write_list(all, 6, 32, n - 1) == IHEX_REFUSED + IHEX_OUTPUT_FULL);
    CHECK(wrote_nothing(0));
    CHECK(write_list(all, 6, 32, 0) == IHEX_REFUSED + IHEX_OUTPUT_FULL);
    CHECK(write_list(all, 5, 32, 600) == IHEX_REFUSED + IHEX_MISSING_END_OF_FILE_RECORD);
    CHECK(wrote_nothing(0));
    CHECK(write_list(all + 5, 1, 0, 12) == IHEX_OK);
    CHECK(wrote(":00000001FF\n"));
    CHECK(write_list(NULL, 0, 32, 600) == IHEX_REFUSED + IHEX_MISSING_END_OF_FILE_RECORD);
    CHECK(wrote_nothing(0));
    CHECK(write_list(NULL, 0, 0, 0) == IHEX_REFUSED + IHEX_MISSING_END_OF_FILE_RECORD);
}

/* no list: before all else */
static void bad_lists(void)
{
    struct ihex_record some[4];
    size_t i;
    for (i = 1; i < sizeof listed; i++)
        if (i != 24)
            CHECK(write_bytes(listed, i, 0, 0) == IHEX_BAD_RECORD && wrote_nothing(0));
    memcpy(some, all + 2, sizeof some);
    some[1].number = 65536;
    CHECK(write_list(some, 4, 32, 600) == IHEX_BAD_RECORD && wrote_nothing(0));
    CHECK(write_list(some, 2, 32, 600) == IHEX_BAD_RECORD && wrote_nothing(0));
    some[1].number = 65535;
    CHECK(write_list(some, 4, 32, 600) == IHEX_OK);
    some[3].type = 6;
    CHECK(write_list(some, 4, 32, 0) == IHEX_BAD_RECORD && wrote_nothing(0));
}

/* 13, 14, then the first record with 11 or 12, then 15 */
static void refused_objects(void)
{
    struct ihex_record some[4];
    memset(some, 0, sizeof some);
    some[0].type = some[1].type = IHEX_END_OF_FILE;
    CHECK(write_list(some, 3, 32, 600) == IHEX_REFUSED + IHEX_MISSING_END_OF_FILE_RECORD && wrote_nothing(0));
    some[2].type = IHEX_END_OF_FILE;
    CHECK(write_list(some, 3, 32, 600) == IHEX_REFUSED + IHEX_MULTIPLE_END_OF_FILE_RECORDS && wrote_nothing(3));
    some[0].type = IHEX_DATA;
    some[0].len = 301;
    CHECK(write_list(some, 3, 300, 0) == IHEX_REFUSED + IHEX_MULTIPLE_END_OF_FILE_RECORDS && wrote_nothing(2));
    some[1].type = IHEX_DATA;
    some[1].len = 256;
    CHECK(write_list(some, 3, 300, 0) == IHEX_REFUSED + IHEX_PAYLOAD_OUTSIDE_POOL && wrote_nothing(0));
    CHECK(write_list(some, 3, 301, 0) == IHEX_REFUSED + IHEX_DATA_EXCEEDS_MAXIMUM_LENGTH && wrote_nothing(301));
    some[0].len = 255;
    CHECK(write_list(some, 3, 301, 0) == IHEX_REFUSED + IHEX_DATA_EXCEEDS_MAXIMUM_LENGTH && wrote_nothing(256));
    some[1].at = UINT64_MAX;
    CHECK(write_list(some, 3, 301, 0) == IHEX_REFUSED + IHEX_PAYLOAD_OUTSIDE_POOL && wrote_nothing(0));
    some[1].at = 46;
    some[1].len = 255;
    CHECK(write_list(some, 3, 301, 2 * 522 + 11) == IHEX_REFUSED + IHEX_OUTPUT_FULL && wrote_nothing(0));
    CHECK(write_list(some, 3, 301, 2 * 522 + 12) == IHEX_OK && a.value == 2 * 522 + 12);
}

/* ---- loads */

/* the marks of so many places, given a byte for each, 1 or 0 */
static void pack(uint8_t *marks, const uint8_t *marked, size_t places)
{
    size_t p;
    memset(marks, 0, packed_len(places));
    for (p = 0; p < places; p++)
        marks[p / 8] = (uint8_t)(marks[p / 8] + (marked[p] << p % 8));
}

/* a text of an end record alone */
static const char end_line[] = ":00000001FF";

static void loads_in_windows(void)
{
    static const char doc[] = ":020000021200EA\n:010005007783\n:00000001FF\n";
    CHECK(load(doc, 0x12000, 8) == IHEX_OK);
    CHECK(loaded(1, "00000100", 5, "\x77"));
    CHECK(load(doc, 0x12005, 1) == IHEX_OK);
    CHECK(loaded(1, "1", 0, "\x77"));
    CHECK(load(doc, 0x12000, 5) == IHEX_REFUSED + IHEX_OUTSIDE_WINDOW);
    CHECK(not_loaded(0x12005, 0, 2));
    CHECK(load(doc, 0x12006, 8) == IHEX_REFUSED + IHEX_OUTSIDE_WINDOW);
    CHECK(not_loaded(0x12005, 0, 2));
    CHECK(load(doc, 0, 0) == IHEX_REFUSED + IHEX_OUTSIDE_WINDOW);
    CHECK(not_loaded(0x12005, 0, 2));

    /* the last statement stands; text after the end is not read; no data at all */
    CHECK(load(":0100000011EE\n:0100000022DD\n:00000001FF\n:G\n", 0, 2) == IHEX_OK);
    CHECK(loaded(2, "10", 0, "\x22"));
    CHECK(load(end_line, 0xFFFFFFFF, 0) == IHEX_OK);
    CHECK(loaded(0, "", 0, ""));
    CHECK(load(end_line, 0, 3) == IHEX_OK);
    CHECK(loaded(0, "000", 0, ""));
}

/* whether a full page from a segment's base on has the record's bytes at its two ends, and nothing else */
static int at_both_ends(void)
{
    size_t i;
    if (a.value != 1 || line.value != 0 || page_.len != IHEX_MAX_PAGE || marks_.len != IHEX_MAX_MARKS)
        return 0;
    for (i = 0; i < IHEX_MAX_PAGE; i++) {
        int stated = i == 0 || i == IHEX_MAX_PAGE - 1;
        if (unpacked(marks_.all + EDGE, i) != stated || page_.all[EDGE + i] != (i == 0 ? 0xBB : stated ? 0xAA : OLD))
            return 0;
    }
    return guarded(&page_) && guarded(&marks_);
}

/* a record across offset FFFF: it wraps in a segment, and before any extension record; under a linear base it goes on */
static void loads_across_segments(void)
{
    static const struct {
        const char *text;
        uint32_t base;
        size_t line;
        uint8_t start;
        uint64_t ip;
    } wraps[] = {
        {":02FFFF00AABB9B\n:00000001FF\n", 0, 1, IHEX_NO_START, 0},
        {":020000020000FC\n:02FFFF00AABB9B\n:00000001FF\n", 0, 2, IHEX_NO_START, 0},
        {":020000021200EA\n:02FFFF00AABB9B\n:00000001FF\n", 0x12000, 2, IHEX_NO_START, 0},
        {":02000002F0000C\n:02FFFF00AABB9B\n:00000001FF\n", 0xF0000, 2, IHEX_NO_START, 0},
        {":02000002FFFFFE\n:02FFFF00AABB9B\n:00000001FF\n", 0xFFFF0, 2, IHEX_NO_START, 0},
        {":020000040001F9\n:020000021200EA\n:02FFFF00AABB9B\n:00000001FF\n", 0x12000, 3, IHEX_NO_START, 0},
        {":020000021200EA\n:0400000300003800C1\n:02FFFF00AABB9B\n:00000001FF\n", 0x12000, 3, IHEX_START_SEGMENT_ADDRESS, 0x3800},
    };
    size_t i;
    for (i = 0; i < sizeof wraps / sizeof *wraps; i++) {
        const char *text = wraps[i].text;
        uint32_t base = wraps[i].base;
        CHECK(load(text, base, IHEX_MAX_PAGE) == IHEX_OK);
        CHECK(at_both_ends() && starts(wraps[i].start, 0, wraps[i].ip));
        CHECK(load(text, base + 0xFFFF, 2) == IHEX_REFUSED + IHEX_OUTSIDE_WINDOW);
        CHECK(not_loaded(base, 0, wraps[i].line));
        CHECK(load(text, base, 8) == IHEX_REFUSED + IHEX_OUTSIDE_WINDOW);
        CHECK(not_loaded(base + 0xFFFF, 0, wraps[i].line));
    }
    /* inside the window, outside, and inside again */
    CHECK(load(":03FFFE001122339A\n:00000001FF\n", 0, IHEX_MAX_PAGE - 1) == IHEX_REFUSED + IHEX_OUTSIDE_WINDOW);
    CHECK(not_loaded(0xFFFF, 0, 1));
    CHECK(load(":020000040000FA\n:02FFFF00AABB9B\n:00000001FF\n", 0xFFFF, 2) == IHEX_OK);
    CHECK(loaded(1, "11", 0, "\xAA\xBB"));
    CHECK(load(":020000021200EA\n:020000040001F9\n:02FFFF00AABB9B\n:00000001FF\n", 0x1FFFF, 2) == IHEX_OK);
    CHECK(loaded(1, "11", 0, "\xAA\xBB"));
    CHECK(load(":02000004FFFFFC\n:02FFFF00AABB9B\n:00000001FF\n", 0xFFFFFFFF, 1) == IHEX_REFUSED + IHEX_OUTSIDE_WINDOW);
    CHECK(not_loaded(0, 0, 2));
    CHECK(load(":02000004FFFFFC\n:02FFFF00AABB9B\n:00000001FF\n", 0, 1) == IHEX_REFUSED + IHEX_OUTSIDE_WINDOW);
    CHECK(not_loaded(0xFFFFFFFF, 0, 2));
    CHECK(load(":02000004FFFFFC\n:01FFFF00AA57\n:00000001FF\n", 0xFFFFFFFF, 1) == IHEX_OK);
    CHECK(loaded(1, "1", 0, "\xAA"));
}

/* refusals of lines, with their numbers, and of texts without an end */
static void refused_loads(void)
{
    CHECK(load(":0100000011EE\n\n\r\n:00000001FE\n:00000001FF\n", 0, 2) == IHEX_REFUSED + IHEX_CHECKSUM_MISMATCH);
    CHECK(not_loaded(0xFF, 0xFE, 4));
    CHECK(load(":00000006FA", 0, 2) == IHEX_REFUSED + IHEX_UNSUPPORTED_RECORD_TYPE);
    CHECK(not_loaded(6, 0, 1));
    CHECK(load(":0100000011EE\nx", 0, 2) == IHEX_REFUSED + IHEX_MISSING_START_CODE);
    CHECK(not_loaded(0, 0, 2));
    CHECK(load(":0100000011EE\n", 0, 2) == IHEX_REFUSED + IHEX_MISSING_END_OF_FILE_RECORD);
    CHECK(not_loaded(0, 0, 0));
    CHECK(load("", 0, 0) == IHEX_REFUSED + IHEX_MISSING_END_OF_FILE_RECORD);
    CHECK(not_loaded(0, 0, 0));
}

/* the place of a byte that is not a digit, with its line; what stands after that line is not read */
static void places_in_loads(void)
{
    static const char *const behinds[] = {"", "\n:00000001FF\n", "\r\n0\n"};
    size_t i, k, m;
    for (i = 0; i < OFFENDERS; i++)
        for (k = 0; k < RESTS; k++)
            for (m = 0; m < 3; m++) {
                begin_case();
                spoil(":0100000011EE\n\n\r\n", offenders[i].at, rests[k], behinds[m]);
                CHECK(load(spoilt, 0, 2) == IHEX_REFUSED + IHEX_CONTAINS_INVALID_CHARACTERS);
                CHECK(not_loaded(offenders[i].named, 0, 4));
                end_case();
            }
    CHECK(load(":00000001FF\r", 0, 2) == IHEX_REFUSED + IHEX_CONTAINS_INVALID_CHARACTERS);
    CHECK(not_loaded(11, 0, 1));
    CHECK(load(":00000001FF\r\r\n", 0, 2) == IHEX_REFUSED + IHEX_CONTAINS_INVALID_CHARACTERS);
    CHECK(not_loaded(11, 0, 1));
    CHECK(load(":00000001FF\r\n:G", 0, 2) == IHEX_OK);
    CHECK(loaded(0, "00", 0, ""));
    CHECK(load("\n0G\n:G\n", 0, 2) == IHEX_REFUSED + IHEX_MISSING_START_CODE);
    CHECK(not_loaded(0, 0, 2));
    CHECK(load(":0100020011EC\n:G\n", 0, 2) == IHEX_REFUSED + IHEX_OUTSIDE_WINDOW);
    CHECK(not_loaded(2, 0, 1));
}

/* ---- the start */

/* starts that differ in one point each: CS and IP, another CS with the same address, that address, the digits of the first as an address, 0 by
 * both types, and two addresses that differ in one digit */
static const struct start {
    const char *line, *small;
    uint8_t kind;
    uint64_t x, y;
} all_starts[] = {
    {":0400000310000000E9", ":0400000310000000e9", IHEX_START_SEGMENT_ADDRESS, 0x1000, 0},
    {":040000030FFF0010DB", ":040000030fff0010db", IHEX_START_SEGMENT_ADDRESS, 0x0FFF, 0x10},
    {":0400000500010000F6", ":0400000500010000f6", IHEX_START_LINEAR_ADDRESS, 0x10000, 0},
    {":0400000510000000E7", ":0400000510000000e7", IHEX_START_LINEAR_ADDRESS, 0x10000000, 0},
    {":0400000300000000F9", ":0400000300000000f9", IHEX_START_SEGMENT_ADDRESS, 0, 0},
    {":0400000500000000F7", ":0400000500000000f7", IHEX_START_LINEAR_ADDRESS, 0, 0},
    {":04000005ABCDEF127E", ":04000005aBcDeF127e", IHEX_START_LINEAR_ADDRESS, 0xABCDEF12, 0},
    {":04000005ABCDEF028E", ":04000005abcdef028e", IHEX_START_LINEAR_ADDRESS, 0xABCDEF02, 0},
    {":04000003FFFFFFFFFD", ":04000003ffffFFFFfd", IHEX_START_SEGMENT_ADDRESS, 0xFFFF, 0xFFFF},
    {":04000005FFFFFFFFFB", ":04000005ffffffffFB", IHEX_START_LINEAR_ADDRESS, 0xFFFFFFFF, 0},
};

#define STARTS (sizeof all_starts / sizeof *all_starts)

/* the text of up to four lines, null for none, with this line end */
static const char *text_of(const char *end, const char *one, const char *two, const char *three, const char *four)
{
    static char text[200];
    const char *lines[] = {one, two, three, four};
    size_t i, n = 0;
    text[0] = 0;
    for (i = 0; i < 4; i++)
        if (lines[i])
            n += (size_t)sprintf(text + n, "%s%s", lines[i], end);
    return text;
}

static int starts_as(const struct start *s)
{
    return starts(s->kind, s->x, s->y);
}

static const char one_byte[] = ":0100000011EE";

/* a start by itself and more than once, in capitals and small letters; after the end record; and with no end record */
static void is_started(const struct start *s)
{
    begin_case();
    CHECK(load(text_of("\n", s->line, one_byte, end_line, NULL), 0, 2) == IHEX_OK && placed(1, "10", 0, "\x11") && starts_as(s));
    CHECK(load(text_of("\r\n", one_byte, s->small, end_line, NULL), 0, 2) == IHEX_OK && placed(1, "10", 0, "\x11") && starts_as(s));
    CHECK(load(text_of("\n", s->line, "", s->small, end_line), 0, 2) == IHEX_OK && placed(0, "00", 0, "") && starts_as(s));
    CHECK(load(text_of("\n", s->small, s->line, s->line, end_line), 0, 2) == IHEX_OK && placed(0, "00", 0, "") && starts_as(s));
    CHECK(load(text_of("\n", end_line, s->line, NULL, NULL), 0, 2) == IHEX_OK && loaded(0, "00", 0, ""));
    CHECK(load(text_of("\n", s->line, s->line, NULL, NULL), 0, 2) == IHEX_REFUSED + IHEX_MISSING_END_OF_FILE_RECORD);
    CHECK(not_loaded(0, 0, 0));
    end_case();
}

/* a text that is refused with 21 at this line */
static void conflicts(const char *text, size_t l)
{
    CHECK(load(text, 0, 2) == IHEX_REFUSED + IHEX_START_CONFLICT && not_loaded(0, 0, l));
}

/* two starts that differ, also on lines that do not touch; the second after the end record; and refusals 21, 6 and 17 in the order of the text */
static void is_conflict(const struct start *s, const struct start *other)
{
    static const char refused[] = ":00000001FE", outside[] = ":0100020011EC";
    begin_case();
    conflicts(text_of("\n", s->line, other->line, end_line, NULL), 2);
    conflicts(text_of("\n", s->line, one_byte, s->small, other->line), 4);
    conflicts(text_of("\r\n", "", s->line, other->small, s->line), 3);
    conflicts(text_of("\n", s->line, other->line, refused, end_line), 2);
    conflicts(text_of("\n", s->line, other->line, outside, end_line), 2);
    CHECK(load(text_of("\n", s->line, refused, other->line, end_line), 0, 2) == IHEX_REFUSED + IHEX_CHECKSUM_MISMATCH);
    CHECK(not_loaded(0xFF, 0xFE, 2));
    CHECK(load(text_of("\n", s->line, outside, other->line, end_line), 0, 2) == IHEX_REFUSED + IHEX_OUTSIDE_WINDOW);
    CHECK(not_loaded(2, 0, 2));
    CHECK(load(text_of("\n", s->line, end_line, other->line, NULL), 0, 2) == IHEX_OK && placed(0, "00", 0, "") && starts_as(s));
    end_case();
}

static void starts_in_loads(void)
{
    size_t i, k;
    CHECK(load(text_of("\n", one_byte, end_line, NULL, NULL), 0, 2) == IHEX_OK && loaded(1, "10", 0, "\x11"));
    for (i = 0; i < STARTS; i++) {
        is_started(&all_starts[i]);
        for (k = 0; k < STARTS; k++)
            if (k != i)
                is_conflict(&all_starts[i], &all_starts[k]);
    }
    /* the address field of a start record is not part of the start */
    CHECK(load(":04000005ABCDEF127E\n:04FACE05ABCDEF12B6\n:00000001FF", 0, 2) == IHEX_OK && starts(IHEX_START_LINEAR_ADDRESS, 0xABCDEF12, 0));
    CHECK(load_with(text_of("\n", all_starts[0].line, all_starts[1].line, NULL, NULL), 0, 2, 2) == IHEX_REFUSED + IHEX_BAD_WINDOW);
    CHECK(not_loaded(0, 0, 0));
}

static void windows(void)
{
    CHECK(load_with(end_line, 0, 2, 2) == IHEX_REFUSED + IHEX_BAD_WINDOW);
    CHECK(not_loaded(0, 0, 0));
    CHECK(load_with(end_line, 0, 0, 1) == IHEX_REFUSED + IHEX_BAD_WINDOW);
    CHECK(load(":G", 0, IHEX_MAX_PAGE + 1) == IHEX_REFUSED + IHEX_BAD_WINDOW);
    CHECK(not_loaded(0, 0, 0));
    CHECK(load_with(":G", 0, IHEX_MAX_PAGE + 1, IHEX_MAX_MARKS) == IHEX_REFUSED + IHEX_BAD_WINDOW);
    CHECK(load(end_line, 0, IHEX_MAX_PAGE) == IHEX_OK && a.value == 0 && untouched(&page_));
    CHECK(load(end_line, 0xFFFFFFFF, 2) == IHEX_REFUSED + IHEX_BAD_WINDOW);
    CHECK(load(end_line, 0xFFFF0000, IHEX_MAX_PAGE) == IHEX_OK);
    CHECK(load(end_line, 0xFFFF0001, IHEX_MAX_PAGE) == IHEX_REFUSED + IHEX_BAD_WINDOW);
}

/* ---- a full page, written and loaded again */

#define PAGE_RECORDS (IHEX_MAX_PAGE / 16)
#define PAGE_TEXT (PAGE_RECORDS * (11 + 2 * 16 + 1) + 12)

static uint8_t dump[IHEX_MAX_PAGE], written[PAGE_TEXT + 1], shown[IHEX_MAX_PAGE], set[IHEX_MAX_MARKS];
static struct ihex_record list[PAGE_RECORDS + 1];

static uint32_t write_full_page(size_t out_len, uint64_t *value)
{
    memset(written, OLD, sizeof written);
    return ihex_create_object_file_representation(list, sizeof list, dump, sizeof dump, written, out_len, value);
}

static void full_page(void)
{
    size_t i, at_line;
    uint8_t no_start;
    uint64_t value, records, none, nothing;
    for (i = 0; i < IHEX_MAX_PAGE; i++)
        dump[i] = (uint8_t)(i * 7 + i / 256);
    for (i = 0; i < PAGE_RECORDS; i++) {
        list[i].number = (uint32_t)(16 * i);
        list[i].at = 16 * i;
        list[i].len = 16;
    }
    list[PAGE_RECORDS].type = IHEX_END_OF_FILE;

    CHECK(write_full_page(PAGE_TEXT - 1, &value) == IHEX_REFUSED + IHEX_OUTPUT_FULL && value == 0);
    for (i = 0; i < sizeof written && written[i] == OLD; i++)
        ;
    CHECK(i == sizeof written);
    CHECK(write_full_page(PAGE_TEXT, &value) == IHEX_OK && value == PAGE_TEXT);
    CHECK(written[PAGE_TEXT] == OLD && memcmp(written + PAGE_TEXT - 12, ":00000001FF\n", 12) == 0);
    CHECK(ihex_load(written, PAGE_TEXT, 0, shown, sizeof shown, set, sizeof set, &at_line, &no_start, &records, &none, &nothing) == IHEX_OK);
    CHECK(records == PAGE_RECORDS && no_start == IHEX_NO_START && none == 0 && nothing == 0 && at_line == 0);
    CHECK(memcmp(shown, dump, sizeof dump) == 0);
    CHECK(all_are(0xFF, set, sizeof set));
}

/* ---- a page written back */

#define END_LINE ":00000001FF\n"

/* what is to be written; `marked` has a byte for each place, 1 or 0, and `unused` the bits that are set after the last place */
static struct {
    uint32_t first;
    size_t page_len, marks_len;
    uint8_t unused;
    uint8_t page[IHEX_MAX_PAGE + 1], marked[IHEX_MAX_PAGE + 1], marks[IHEX_MAX_PAGE];
} window;

/* a window with nothing marked, and AB at each place */
static void open_window(uint32_t first, size_t places)
{
    window.first = first;
    window.page_len = places;
    window.marks_len = packed_len(places);
    window.unused = 0;
    memset(window.page, 0xAB, sizeof window.page);
    memset(window.marked, 0, sizeof window.marked);
}

static void mark(size_t at, size_t n)
{
    memset(window.marked + at, 1, n);
}

/* bytes that tell one place from another */
static void fill_window(void)
{
    size_t i;
    for (i = 0; i < window.page_len; i++)
        window.page[i] = (uint8_t)(i * 7 + i / 256);
}

/* the marks of the window, packed */
static const uint8_t *given_marks(void)
{
    memset(window.marks, 0, sizeof window.marks);
    pack(window.marks, window.marked, window.page_len);
    if (window.unused)
        window.marks[window.page_len / 8] |= window.unused;
    return given(&marks_, window.marks, window.marks_len);
}

static uint32_t page_file_length(void)
{
    const uint8_t *page = given(&page_, window.page, window.page_len);
    const uint8_t *marks = given_marks();
    uint32_t r;
    fresh();
    r = ihex_page_file_length(window.first, page, window.page_len, marks, window.marks_len, &a.value);
    CHECK(fenced() && b.value == EDGES && c.value == EDGES && same(&page_, window.page) && same(&marks_, window.marks));
    return r;
}

/* where the file goes: one that is longer than other outputs has a room of its own */
static struct lent *file;

static uint32_t page_file(size_t out_len)
{
    const uint8_t *page = given(&page_, window.page, window.page_len);
    const uint8_t *marks = given_marks();
    uint8_t *out;
    uint32_t r;
    file = out_len <= MOST ? &out_ : &file_;
    out = lend(file, out_len);
    fresh();
    r = ihex_write_page(window.first, page, window.page_len, marks, window.marks_len, out, out_len, &a.value);
    CHECK(fenced() && b.value == EDGES && c.value == EDGES && same(&page_, window.page) && same(&marks_, window.marks));
    return r;
}

/* how many data records a file has: a line's type stands after its colon, length and address */
static uint64_t data_records(const char *text, size_t n)
{
    uint64_t count = 0;
    size_t i;
    for (i = 0; i + 9 < n; i++)
        if (text[i] == ':' && text[i + 7] == '0' && text[i + 8] == '0')
            count++;
    return count;
}

/* the file that was just written, loaded into the same window: all marks are stated anew, unmarked bytes are kept, and there is no start */
static int loads_back(const char *text, size_t n)
{
    size_t i, places = window.page_len, marks_len = window.marks_len;
    uint8_t *page = lend(&page_, places), *marks = lend(&marks_, marks_len);
    fresh();
    if (ihex_load(file->all + EDGE, n, window.first, page, places, marks, marks_len, &line.value, &started.value, &a.value, &b.value,
                  &c.value) != IHEX_OK)
        return 0;
    if (a.value != data_records(text, n) || !starts(IHEX_NO_START, 0, 0) || !fenced() || !same(&marks_, window.marks))
        return 0;
    for (i = 0; i < places; i++)
        if (page[i] != (window.marked[i] ? window.page[i] : OLD))
            return 0;
    return guarded(&page_) && same(file, text);
}

/* whatever the bytes at unmarked places are */
static void turn_unmarked(void)
{
    size_t i;
    for (i = 0; i < window.page_len; i++)
        if (!window.marked[i])
            window.page[i] = (uint8_t)~window.page[i];
}

/* one test: the window has this file, with more room, with just enough and with too little */
static void has_file(const char *text, size_t n)
{
    begin_case();
    CHECK(page_file_length() == IHEX_OK && a.value == n);
    CHECK(page_file(n - 1) == IHEX_REFUSED + IHEX_OUTPUT_FULL && a.value == 0 && untouched(file));
    CHECK(page_file(0) == IHEX_REFUSED + IHEX_OUTPUT_FULL && a.value == 0 && untouched(file));
    CHECK(page_file(n + MORE) == IHEX_OK && a.value == n && holds(file, 0, text, n));
    turn_unmarked();
    CHECK(page_file_length() == IHEX_OK && a.value == n);
    CHECK(page_file(n) == IHEX_OK && a.value == n && same(file, text));
    CHECK(loads_back(text, n));
    end_case();
}

/* one test: neither function takes the window, whatever the room is */
static void has_no_file(uint32_t refusal, uint64_t value)
{
    begin_case();
    CHECK(page_file_length() == IHEX_REFUSED + refusal && a.value == value);
    CHECK(page_file(MORE) == IHEX_REFUSED + refusal && a.value == value && untouched(file));
    CHECK(page_file(0) == IHEX_REFUSED + refusal && a.value == value && untouched(file));
    end_case();
}

/* the file that a window should have, made place by place */
static char wanted[IHEX_MAX_PAGE_FILE];
static size_t wanted_len;

static void want_byte(uint8_t byte)
{
    static const char digits[] = "0123456789ABCDEF";
    wanted[wanted_len++] = digits[byte / 16];
    wanted[wanted_len++] = digits[byte % 16];
}

/* a line with n bytes of payload; none is written for a data record without any */
static void want_line(uint8_t type, uint32_t offset, const uint8_t *bytes, size_t n)
{
    uint8_t head[4], sum = 0;
    size_t i;
    if (type == IHEX_DATA && n == 0)
        return;
    head[0] = (uint8_t)n;
    head[1] = (uint8_t)(offset / 256);
    head[2] = (uint8_t)offset;
    head[3] = type;
    wanted[wanted_len++] = ':';
    for (i = 0; i < 4 + n; i++) {
        uint8_t byte = i < 4 ? head[i] : bytes[i - 4];
        want_byte(byte);
        sum = (uint8_t)(sum + byte);
    }
    want_byte((uint8_t)-sum);
    wanted[wanted_len++] = '\n';
}

static void want_page(void)
{
    uint8_t record[16], upper[2];
    uint32_t offset = 0, base = UINT32_MAX;
    size_t p, n = 0;
    wanted_len = 0;
    for (p = 0; p < window.page_len; p++) {
        uint32_t address = window.first + (uint32_t)p;
        if (n == 16 || !window.marked[p] || address % 65536 == 0) {
            want_line(IHEX_DATA, offset, record, n);
            n = 0;
        }
        if (!window.marked[p])
            continue;
        if (base != address / 65536) {
            base = address / 65536;
            upper[0] = (uint8_t)(base / 256);
            upper[1] = (uint8_t)base;
            want_line(IHEX_EXTENDED_LINEAR_ADDRESS, 0, upper, 2);
        }
        if (n == 0)
            offset = address % 65536;
        record[n++] = window.page[p];
    }
    want_line(IHEX_DATA, offset, record, n);
    want_line(IHEX_END_OF_FILE, 0, NULL, 0);
}

static void has_wanted_file(void)
{
    want_page();
    has_file(wanted, wanted_len);
}

/* the window has this file, and it is the one that is wanted place by place */
static void has_text(const char *text)
{
    has_file(text, strlen(text));
    want_page();
    CHECK(wanted_len == strlen(text) && memcmp(wanted, text, wanted_len) == 0);
}

#define AB4 "ABABABAB"
#define AB16 AB4 AB4 AB4 AB4

/* a run across a multiple of 65,536 is cut there, and a gap across it has the type 04 record after it */
static void pages_across_a_multiple(void)
{
    open_window(0xFFFE, 20);
    mark(0, 20);
    window.marked[18] = 0;
    has_text(":020000040000FA\n:02FFFE00ABABAB\n:020000040001F9\n:10000000" AB16 "40\n:01001100AB43\n" END_LINE);
    open_window(0xFFF0, 40);
    mark(8, 25);
    has_text(":020000040000FA\n:08FFF800" AB4 AB4 "A9\n:020000040001F9\n:10000000" AB16 "40\n:01001000AB44\n" END_LINE);
    open_window(0xFFFE, 6);
    mark(0, 1);
    mark(3, 2);
    has_text(":020000040000FA\n:01FFFE00AB57\n:020000040001F9\n:02000100ABABA7\n" END_LINE);
    open_window(0xFFFE, 6);
    mark(2, 1);
    has_text(":020000040001F9\n:01000000AB54\n" END_LINE);
    open_window(0xFFFE, 6);
    mark(1, 1);
    has_text(":020000040000FA\n:01FFFF00AB56\n" END_LINE);
    open_window(0x7FFFFFFF, 2);
    mark(0, 2);
    has_text(":020000047FFF7C\n:01FFFF00AB56\n:0200000480007A\n:01000000AB54\n" END_LINE);
}

/* records are counted from the run's start, not from a multiple of 16 */
static void pages_cut_into_records(void)
{
    open_window(0, 40);
    mark(3, 32);
    has_text(":020000040000FA\n:10000300" AB16 "3D\n:10001300" AB16 "2D\n" END_LINE);
    open_window(0, 40);
    mark(3, 5);
    mark(9, 17);
    has_text(":020000040000FA\n:05000300" AB4 "ABA1\n:10000900" AB16 "37\n:01001900AB3B\n" END_LINE);
    open_window(0xFFFFFFFF, 1);
    mark(0, 1);
    has_text(":02000004FFFFFC\n:01FFFF00AB56\n" END_LINE);
}

/* the end record stands alone */
static void pages_without_marks(void)
{
    static const size_t lengths[] = {0, 1, 17, IHEX_MAX_PAGE};
    static const uint32_t firsts[] = {0, 0x8001, 0xFFFF0000};
    size_t i, k;
    for (i = 0; i < sizeof lengths / sizeof *lengths; i++)
        for (k = 0; k < sizeof firsts / sizeof *firsts; k++) {
            open_window(firsts[k], lengths[i]);
            has_text(END_LINE);
        }
    open_window(0xFFFFFFFF, 0);
    has_text(END_LINE);
    open_window(0xFFFFFFFF, 1);
    has_text(END_LINE);
}

/* one run in a window that it fills, and in one with a place on either side */
static void runs_in_pages(void)
{
    static const size_t runs[] = {1, 2, 15, 16, 17, 31, 32, 33, 255, 256, 257, 65534, 65535, 65536};
    static const uint32_t firsts[] = {0, 1, 0xFFF8, 0xFFFF, 0x10000, 0x18001, 0x7FFF8000, 0xFFFEFFFF, 0xFFFF0000};
    size_t i, k;
    for (i = 0; i < sizeof runs / sizeof *runs; i++)
        for (k = 0; k < sizeof firsts / sizeof *firsts; k++) {
            open_window(firsts[k], runs[i]);
            fill_window();
            mark(0, runs[i]);
            has_wanted_file();
            if (firsts[k] % 65536 == 0)
                CHECK(wanted_len == 16 + 2 * runs[i] + 12 * ((runs[i] + 15) / 16) + 12);
            if (runs[i] + 2 > IHEX_MAX_PAGE)
                continue;
            open_window(firsts[k], runs[i] + 2);
            fill_window();
            mark(1, runs[i]);
            has_wanted_file();
        }
}

/* marks of another length, too many places, an end beyond 2^32: before unused bits and room */
static void pages_in_bad_windows(void)
{
    static const struct {
        uint32_t first;
        size_t page_len, marks_len;
    } bad[] = {
        {0, 0, 1}, {0, 1, 0}, {0, 2, 2}, {0, 3, 3}, {0, 8, 2}, {0, 9, 1}, {0, 17, 2}, {0, 17, 4}, {0, 64, 64}, {0, IHEX_MAX_PAGE, IHEX_MAX_MARKS - 1},
        {0, IHEX_MAX_PAGE, IHEX_MAX_MARKS + 1}, {0, IHEX_MAX_PAGE + 1, IHEX_MAX_MARKS}, {0, IHEX_MAX_PAGE + 1, IHEX_MAX_MARKS + 1},
        {0xFFFFFFFF, 2, 1}, {0xFFFFFFF0, 17, 3}, {0xFFFF0001, IHEX_MAX_PAGE, IHEX_MAX_MARKS}, {0xFFFFFFFF, IHEX_MAX_PAGE, IHEX_MAX_MARKS},
    };
    size_t i, k;
    for (i = 0; i < sizeof bad / sizeof *bad; i++)
        for (k = 0; k < 3; k++) {
            open_window(bad[i].first, bad[i].page_len);
            window.marks_len = bad[i].marks_len;
            if (k > 0)
                mark(0, bad[i].page_len);
            if (k > 1)
                window.unused = 0x80;
            has_no_file(IHEX_BAD_WINDOW, 0);
        }
}

/* windows that end at 2^32, or hold all places that one may have */
static void pages_in_last_windows(void)
{
    static const struct {
        uint32_t first;
        size_t places;
    } last[] = {{0xFFFFFFFF, 1}, {0xFFFFFFF0, 16}, {0xFFFFFFEF, 17}, {0xFFFF0000, 65536}, {0, 65536}, {0x8000, 65536}};
    size_t i, p;
    for (i = 0; i < sizeof last / sizeof *last; i++) {
        open_window(last[i].first, last[i].places);
        fill_window();
        mark(0, last[i].places);
        has_wanted_file();
        for (p = 0; p < last[i].places; p += 3)
            window.marked[p] = 0;
        has_wanted_file();
        open_window(last[i].first, last[i].places);
        mark(last[i].places - 1, 1);
        has_wanted_file();
    }
}

/* the window with this last byte of its marks: its file, or the lowest set bit after the last place is named, before any want of room */
static void has_last_byte(uint8_t byte)
{
    size_t p, places = window.page_len, end = 8 * window.marks_len;
    window.unused = 0;
    for (p = end - 8; p < places; p++)
        window.marked[p] = byte >> p % 8 & 1;
    for (p = places; p < end && !(byte >> p % 8 & 1); p++)
        ;
    if (p == end) {
        has_wanted_file();
        return;
    }
    window.unused = (uint8_t)(byte >> places % 8 << places % 8);
    has_no_file(IHEX_BAD_MARK, p);
}

/* every last byte of the marks of a few places, and each of its bits in the longest rows; the marks of the other places alter nothing */
static void pages_with_unused_bits(void)
{
    static const size_t few[] = {1, 3, 7, 8, 9, 15, 16, 17}, many[] = {65529, 65530, 65535, IHEX_MAX_PAGE};
    size_t i, k;
    for (i = 0; i < sizeof few / sizeof *few; i++)
        for (k = 0; k < 256; k++) {
            open_window(0xFFFA, few[i]);
            fill_window();
            mark(0, k % 2 ? few[i] / 2 : 0);
            has_last_byte((uint8_t)k);
        }
    for (i = 0; i < sizeof many / sizeof *many; i++)
        for (k = 0; k < 8; k++) {
            open_window(0x8000, many[i]);
            fill_window();
            mark(k, many[i] / 2);
            has_last_byte((uint8_t)(1 << k));
            has_last_byte((uint8_t)(0xFF << k));
        }
    /* 3 places with the marks 22: the second place is marked, and so is the unused bit 5 */
    open_window(0, 3);
    mark(1, 1);
    window.unused = 0x20;
    has_no_file(IHEX_BAD_MARK, 5);
    CHECK(window.marks[0] == 0x22);
}

/* a whole window with every second place marked, but two side by side at a multiple of 65,536: no file is longer */
static void greatest_files(void)
{
    static const size_t before[] = {1, 3, 32769, 65535};
    size_t i, p;
    CHECK(IHEX_MAX_PAGE_FILE == 7 * IHEX_MAX_PAGE + 58);
    for (i = 0; i < sizeof before / sizeof *before; i++) {
        open_window((uint32_t)(0x20000 - before[i]), IHEX_MAX_PAGE);
        fill_window();
        for (p = 0; p < IHEX_MAX_PAGE; p++)
            window.marked[p] = p < before[i] ? p % 2 == 0 : p % 2 == 1;
        has_wanted_file();
        CHECK(wanted_len == IHEX_MAX_PAGE_FILE);
        window.marked[before[i]] = 0;
        has_wanted_file();
        CHECK(wanted_len == IHEX_MAX_PAGE_FILE - 14 - (before[i] == 65535 ? 16 : 0));
    }
}

/* a window that mostly crosses a multiple of 65,536 or ends close to 2^32, with runs and gaps put together from lengths that are drawn */
static void draw_window(void)
{
    static const uint32_t longest[] = {2, 5, 20, 70};
    uint32_t places = draw(300), most = longest[draw(4)];
    size_t p = 0, n;
    open_window(draw(65536) << 16 | draw(65536), places);
    if (draw(4) > 0)
        window.first = (draw(65535) + 1) * 65536 - draw(places + 2);
    else if (draw(2) == 0)
        window.first = 0 - (places + draw(3));
    if (places > 0 && window.first > 0 - places)
        window.first = 0 - places;
    for (n = 0; n < places; n++)
        window.page[n] = (uint8_t)draw(256);
    while (p < places) {
        n = 1 + draw(most);
        if (n > places - p)
            n = places - p;
        mark(p, draw(2) ? n : 0);
        p += n + draw(2);
    }
}

static void drawn_pages(void)
{
    size_t i;
    for (i = 0; i < 4000; i++) {
        draw_window();
        has_wanted_file();
        if (i % 8 == 0 && window.page_len % 8 > 0) {
            size_t bad = window.page_len % 8 + draw((uint32_t)(8 - window.page_len % 8));
            window.unused = (uint8_t)((2 * draw(128) + 1) << bad);
            has_no_file(IHEX_BAD_MARK, window.page_len / 8 * 8 + bad);
        }
    }
}

static void written_pages(void)
{
    pages_across_a_multiple();
    pages_cut_into_records();
    pages_without_marks();
    runs_in_pages();
    pages_in_bad_windows();
    pages_in_last_windows();
    pages_with_unused_bits();
    greatest_files();
    drawn_pages();
}

/* ---- loads into packed marks */

static const size_t lengths_of_windows[] = {0, 1, 7, 8, 9, 15, 16, 17, 65535, IHEX_MAX_PAGE};
#define LENGTHS (sizeof lengths_of_windows / sizeof *lengths_of_windows)
#define SHORT_LENGTHS (LENGTHS - 2) /* without the last two */

/* a text that states n places from one on, with a record for each of these bytes: all n places hold it */
static const char *stating(size_t at, size_t n, const char *fills)
{
    uint8_t bytes[IHEX_MAX_PAYLOAD];
    wanted_len = 0;
    for (; *fills; fills++) {
        memset(bytes, *fills, n);
        want_line(IHEX_DATA, (uint32_t)at, bytes, n);
    }
    want_line(IHEX_END_OF_FILE, 0, NULL, 0);
    wanted[wanted_len] = 0;
    return wanted;
}

/* the count, and n marked places from one on, which hold a byte; no other place is marked, no unused bit set and no other byte changed */
static int run_is_loaded(uint64_t count, size_t at, size_t n, char byte)
{
    char bytes[IHEX_MAX_PAYLOAD];
    size_t p;
    memset(bytes, byte, n);
    for (p = 0; p < 8 * marks_.len; p++)
        if (unpacked(marks_.all + EDGE, p) != (at <= p && p < at + n))
            return 0;
    return a.value == count && starts(IHEX_NO_START, 0, 0) && guarded(&marks_) && holds(&page_, at, bytes, n);
}

/* whether the page is as it was, and the marks are what they were set to */
static int kept(const uint8_t *marks)
{
    return untouched(&page_) && same(&marks_, marks);
}

/* one test: marks whose bytes are OLD, but the last this one. Accepted loads leave nothing of them, and refused loads all */
static void loads_upon(size_t places, uint8_t last)
{
    static const char outside[] = ":0100000011EE\n:020000040001F9\n:0100000011EE\n:00000001FF\n";
    static uint8_t held[IHEX_MAX_MARKS];
    size_t n = packed_len(places);
    memset(held, OLD, n);
    held[n - 1] = last;
    begin_case();
    given(&marks_, held, n);
    CHECK(load_upon("", 0, places, n) == IHEX_REFUSED + IHEX_MISSING_END_OF_FILE_RECORD && kept(held));
    CHECK(load_upon(outside, 0, places, n) == IHEX_REFUSED + IHEX_OUTSIDE_WINDOW && kept(held));
    CHECK(load_upon(":0100000011EF\n", 0, places, n) == IHEX_REFUSED + IHEX_CHECKSUM_MISMATCH && kept(held));
    CHECK(load_upon(end_line, 0, places, n) == IHEX_OK && run_is_loaded(0, 0, 0, 0));
    given(&marks_, held, n);
    CHECK(load_upon(stating(places - 1, 1, "u"), 0, places, n) == IHEX_OK && run_is_loaded(1, places - 1, 1, 'u'));
    given(&marks_, held, n);
    CHECK(load_upon(stating(0, 1, "v"), 0, places, n) == IHEX_OK && run_is_loaded(1, 0, 1, 'v'));
    end_case();
}

/* each bit of the last byte, by itself, all and none */
static void bits_before_loads(void)
{
    size_t i, k;
    for (i = 1; i < LENGTHS; i++) {
        for (k = 0; k < 8; k++)
            loads_upon(lengths_of_windows[i], (uint8_t)(1 << k));
        loads_upon(lengths_of_windows[i], 0);
        loads_upon(lengths_of_windows[i], 0xFF);
    }
    /* the loader refuses no marks for what they hold */
    lend(&marks_, 1)[0] = 0xFF;
    CHECK(load_upon(end_line, 0, 6, 1) == IHEX_OK && loaded(0, "000000", 0, ""));
    CHECK(load(end_line, 0, 0) == IHEX_OK && loaded(0, "", 0, ""));
}

/* one test: no page of so many places is written with marks of that length */
static void has_no_file_with(size_t places, size_t marks_len)
{
    open_window(0, places);
    window.marks_len = marks_len;
    has_no_file(IHEX_BAD_WINDOW, 0);
}

/* marks a byte too short and one too long, and with a byte a place */
static void lengths_of_marks(void)
{
    size_t i, n, places;
    for (i = 0; i < LENGTHS; i++) {
        places = lengths_of_windows[i];
        n = packed_len(places);
        CHECK(load_with(end_line, 0, places, n) == IHEX_OK && run_is_loaded(0, 0, 0, 0));
        CHECK(load_with(end_line, 0, places, n + 1) == IHEX_REFUSED + IHEX_BAD_WINDOW && not_loaded(0, 0, 0));
        has_no_file_with(places, n + 1);
        if (n == 0)
            continue;
        CHECK(load_with(end_line, 0, places, n - 1) == IHEX_REFUSED + IHEX_BAD_WINDOW && not_loaded(0, 0, 0));
        has_no_file_with(places, n - 1);
        if (n == places)
            continue;
        CHECK(load_with(end_line, 0, places, places) == IHEX_REFUSED + IHEX_BAD_WINDOW && not_loaded(0, 0, 0));
        has_no_file_with(places, places);
    }
}

/* each run in windows of a few places, stated once and twice: the later byte stands, and a mark stays 1 */
static void runs_in_loads(void)
{
    size_t i, at, n, places;
    for (i = 0; i < SHORT_LENGTHS; i++) {
        places = lengths_of_windows[i];
        for (at = 0; at < places; at++) {
            begin_case();
            for (n = 1; n <= places - at; n++) {
                CHECK(load(stating(at, n, "u"), 0, places) == IHEX_OK && run_is_loaded(1, at, n, 'u'));
                CHECK(load(stating(at, n, "uv"), 0, places) == IHEX_OK && run_is_loaded(2, at, n, 'v'));
            }
            end_case();
        }
    }
}

/* the longest record from each place of a byte on, in a row of some bytes and at the end of a full page */
static void long_runs_in_loads(void)
{
    size_t at;
    for (at = 0; at < 17; at++) {
        CHECK(load(stating(at, 255, "uv"), 0, 255 + at) == IHEX_OK && run_is_loaded(2, at, 255, 'v'));
        CHECK(load(stating(at, 255, "u"), 0, 290) == IHEX_OK && run_is_loaded(1, at, 255, 'u'));
        CHECK(load(stating(65536 - 255 - at, 255, "u"), 0, IHEX_MAX_PAGE) == IHEX_OK && run_is_loaded(1, 65536 - 255 - at, 255, 'u'));
    }
}

static void packed_marks(void)
{
    CHECK(marks_round_up());
    CHECK(marks_take_expressions(7, 2));
    CHECK(marks_of_the_most_places());
    CHECK(marks_are_asked());
    bits_before_loads();
    lengths_of_marks();
    runs_in_loads();
    long_runs_in_loads();
}

int main(void)
{
    reader = ihex_read_record;
    loader = ihex_load;
    checksums();
    lines_without_data();
    lines_with_data();
    longest_line();
    pairs_of_bytes();
    places_in_lines();
    stops();
    text_with_full_pool();
    line_ends();
    places_in_texts();
    states();
    cut_texts();
    dumps_in_chunks();
    waiting_CR();
    long_lines();
    places_in_chunks();
    bytes_behind_521();
    places_of_CR();
    counts_of_skipped();
    counts_that_are_made_up();
    counts_taken_in_one_go();
    counts_with_nothing_begun();
    chunks_with_full_pool();
    small_carry();
    made_up_states();
    shown_places();
    struct_of_chunks();
    written_records();
    bad_records();
    refused_records();
    layout();
    written_objects();
    bad_lists();
    refused_objects();
    loads_in_windows();
    loads_across_segments();
    refused_loads();
    places_in_loads();
    starts_in_loads();
    windows();
    full_page();
    written_pages();
    packed_marks();
    printf("%d passed, %d failed\n", passed, failed);
    return failed != 0;
}
