/* Calls ihex_ask on telling texts, with guard bytes around the text and every number that is lent. Then it holds ihex_ask, on texts by chance,
 * to a plain model, to ihex_load and to ihex_load_table. The last line is 'N passed, M failed'. */
#include "once.h"

#include "lent.h"
#include "low.h"
#include "refused.h"

/* ---- what an ask returns */

struct answer {
    uint32_t code;
    size_t line;
    uint64_t a, b;
};

static struct answer stated(uint8_t byte)
{
    struct answer is = {IHEX_OK, 0, byte, 0};
    return is;
}

static const struct answer not_stated = {IHEX_NOT_STATED, 0, 0, 0};

static struct answer refused(uint32_t why, uint64_t x, uint64_t y, size_t l)
{
    struct answer is = {R(why), l, x, y};
    return is;
}

static int alike(struct answer x, struct answer y)
{
    return x.code == y.code && x.line == y.line && x.a == y.a && x.b == y.b;
}

/* ---- a plain model: a walk over lines, digits, records, and the address of each byte */

#define MOST_STATED 9000
#define NO_DIGIT 16

/* what the text comes to that was read last */
static struct {
    struct answer end; /* IHEX_OK where it is accepted, else the refusal */
    size_t n;          /* how many bytes were stated up to there, and each with its address, in order */
    uint32_t address[MOST_STATED];
    uint8_t byte[MOST_STATED];
    int linear; /* the base in force */
    uint32_t base;
    unsigned start[5]; /* the first start: its type, 0 for none, and its bytes */
} plain;

static unsigned value_of(uint8_t c)
{
    if (c >= '0' && c <= '9')
        return c - (unsigned)'0';
    if (c >= 'A' && c <= 'F')
        return c - (unsigned)'A' + 10;
    return c >= 'a' && c <= 'f' ? c - (unsigned)'a' + 10 : NO_DIGIT;
}

/* byte i of a line */
static unsigned byte_of(const uint8_t *l, size_t i)
{
    return 16 * value_of(l[1 + 2 * i]) + value_of(l[2 + 2 * i]);
}

/* the number of a line's refusal, with its values; 0 where it is a record */
static uint32_t why_not(const uint8_t *l, size_t n, uint64_t *x, uint64_t *y)
{
    static const size_t sizes[] = {0, 0, 2, 4, 2, 4};
    size_t i, bytes = n / 2;
    unsigned sum = 0, type;
    if (l[0] != ':')
        return IHEX_MISSING_START_CODE;
    for (i = 1; i < n; i++)
        if (value_of(l[i]) == NO_DIGIT) {
            *x = i < 65535 ? i : 65535;
            return IHEX_CONTAINS_INVALID_CHARACTERS;
        }
    if (n < 11 || n > 521 || n % 2 == 0)
        return n < 11 ? IHEX_RECORD_TOO_SHORT : n > 521 ? IHEX_RECORD_TOO_LONG : IHEX_RECORD_NOT_EVEN_LENGTH;
    for (i = 0; i + 1 < bytes; i++)
        sum += byte_of(l, i);
    *x = (256 - sum % 256) % 256;
    *y = byte_of(l, bytes - 1);
    if (*x != *y)
        return IHEX_CHECKSUM_MISMATCH;
    *x = *y = 0;
    type = byte_of(l, 3);
    if (byte_of(l, 0) != bytes - 5)
        return IHEX_PAYLOAD_LENGTH_MISMATCH;
    if (type > 5) {
        *x = type;
        return IHEX_UNSUPPORTED_RECORD_TYPE;
    }
    return type != IHEX_DATA && bytes - 5 != sizes[type] ? IHEX_INVALID_LENGTH_FOR_TYPE : 0;
}

/* the bytes of a data record, each with its address */
static void state_bytes(const uint8_t *l)
{
    uint32_t offset = 256 * byte_of(l, 1) + byte_of(l, 2), i;
    for (i = 0; i < byte_of(l, 0) && plain.n < MOST_STATED; i++) {
        plain.address[plain.n] = plain.base + (plain.linear ? offset + i : (offset + i) % 65536);
        plain.byte[plain.n++] = (uint8_t)byte_of(l, 4 + i);
    }
}

/* whether a start is the first, or the first again */
static int keeps_start(const uint8_t *l)
{
    unsigned is[5], i;
    for (i = 0; i < 5; i++)
        is[i] = byte_of(l, 3 + i);
    if (plain.start[0] == 0)
        memcpy(plain.start, is, sizeof is);
    return memcmp(plain.start, is, sizeof is) == 0;
}

/* takes a line, and says whether the reading goes on after it */
static int goes_on(const uint8_t *l, size_t n, size_t number)
{
    uint64_t x = 0, y = 0;
    uint32_t why = why_not(l, n, &x, &y);
    unsigned type = why ? 0 : byte_of(l, 3);
    plain.end = why ? refused(why, x, y, number) : stated(0);
    if (why || type == IHEX_END_OF_FILE)
        return 0;
    if (type == IHEX_DATA) {
        state_bytes(l);
    } else if (type == IHEX_EXTENDED_SEGMENT_ADDRESS || type == IHEX_EXTENDED_LINEAR_ADDRESS) {
        plain.linear = type == IHEX_EXTENDED_LINEAR_ADDRESS;
        plain.base = (256 * byte_of(l, 4) + byte_of(l, 5)) * (plain.linear ? 65536u : 16u);
    } else if (!keeps_start(l)) {
        plain.end = refused(IHEX_START_CONFLICT, 0, 0, number);
        return 0;
    }
    return 1;
}

static void read_plainly(const uint8_t *bytes, size_t n)
{
    size_t at = 0, number = 0;
    memset(&plain, 0, sizeof plain);
    while (at < n) {
        size_t end = at, size;
        while (end < n && bytes[end] != '\n')
            end++;
        size = end - at;
        if (end < n && size > 0 && bytes[end - 1] == '\r')
            size--;
        number++;
        if (size > 0 && !goes_on(bytes + at, size, number))
            return;
        at = end + 1;
    }
    plain.end = refused(IHEX_MISSING_END_OF_FILE_RECORD, 0, 0, 0);
}

/* what the text that was read last says at an address: the last byte stated there */
static struct answer plainly(uint32_t address)
{
    size_t i = plain.n;
    if (plain.end.code != IHEX_OK)
        return plain.end;
    while (i-- > 0)
        if (plain.address[i] == address)
            return stated(plain.byte[i]);
    return not_stated;
}

/* ---- an ask */

/* the text that is asked, which the model has read */
static const uint8_t *asked;
static size_t asked_len;

static void take(const void *bytes, size_t n)
{
    asked = given(&text_, bytes, n);
    asked_len = n;
    read_plainly(bytes, n);
}

static uint32_t ask(uint32_t address)
{
    fresh();
    line.value = (size_t)EDGES;
    return ihex_ask(asked, asked_len, address, &line.value, &a.value, &b.value);
}

/* whether an ask returns this, in three numbers and nothing beside them */
static int asks(uint32_t address, struct answer wanted)
{
    return ask(address) == wanted.code && line.value == wanted.line && values(wanted.a, wanted.b, EDGES);
}

/* the library and the model both return it */
static int both(uint32_t address, struct answer wanted)
{
    return asks(address, wanted) && alike(plainly(address), wanted);
}

/* addresses about the ends of segments, of 64 KiB, of 1 MiB and of all, and a few others; the first are low */
static const uint32_t corners[] = {
    0, 1, 2, 5, 6, 0x7FFF, 0xFFFE, 0xFFFF, 0x10000, 0x10001, 0x11FFF, 0x12000, 0x12001, 0x12005, 0x1FFFF, 0x20000, 0x21FFE, 0x21FFF, 0x22000,
    0x22001, 0xEFFFF, 0xF0000, 0xFFFEF, 0xFFFF0, 0xFFFF1, 0xFFFFF, 0x100000, 0x10FFEE, 0x10FFEF, 0x10FFF0, 0x10FFF1, 0x10FFFF, 0x110000,
    0x7FFFFFFF, 0x80000000, 0x80000005, 0xFFFEFFFF, 0xFFFF0000, 0xFFFF0005, 0xFFFFFFEF, 0xFFFFFFFE, 0xFFFFFFFF,
};

#define LOW_CORNERS 20

/* how far from a byte that is stated a slip would show, modulo 2^32 */
static const uint32_t shifts[] = {
    0, 1, 2, 16, 255, 256, 0x10000, 0x100000, 0x1000000, 0x80000000, 0xFFFFFFFF, 0xFFFFFFFE, 0xFFFFFFF0, 0xFFFFFF01, 0xFFFFFF00, 0xFFFF0000,
    0xFFF00000,
};

/* ---- what a text states, by name */

/* bytes that a text states, from an address on */
struct run {
    uint32_t first;
    const char *bytes;
    size_t n;
};

static struct answer by_runs(const struct run *runs, size_t n, uint32_t address)
{
    size_t i;
    for (i = 0; i < n; i++)
        if (address - runs[i].first < runs[i].n)
            return stated((uint8_t)runs[i].bytes[address - runs[i].first]);
    return not_stated;
}

/* the text states these runs and nothing else, as far as asks about them and at the corners tell */
static void states_only(const char *text, const struct run *runs, size_t n)
{
    size_t i, k, s;
    begin_case();
    take(text, strlen(text));
    for (i = 0; i < n; i++)
        for (k = 0; k < runs[i].n; k++)
            for (s = 0; s < (k == 0 || k + 1 == runs[i].n ? COUNT(shifts) : 1); s++) {
                uint32_t address = runs[i].first + (uint32_t)k + shifts[s];
                CHECK(both(address, by_runs(runs, n, address)));
            }
    for (i = 0; i < COUNT(corners); i++)
        CHECK(both(corners[i], by_runs(runs, n, corners[i])));
    CHECK(same(&text_, text));
    end_case();
}

static void states_nothing(const char *text)
{
    states_only(text, NULL, 0);
}

#define RUNS(...) (const struct run[]){__VA_ARGS__}
#define STATES(text, ...) states_only(text, RUNS(__VA_ARGS__), sizeof RUNS(__VA_ARGS__) / sizeof(struct run))

/* the text is refused like that at each corner, whether a byte is stated there or not */
static void refused_at_all(const void *text, size_t n, struct answer wanted)
{
    size_t i;
    begin_case();
    take(text, n);
    for (i = 0; i < COUNT(corners); i++)
        CHECK(both(corners[i], wanted));
    CHECK(same(&text_, text));
    end_case();
}

static void refuses(const char *text, uint32_t why, uint64_t x, uint64_t y, size_t l)
{
    refused_at_all(text, strlen(text), refused(why, x, y, l));
}

#define END ":00000001FF\n"
#define DATA ":0100000011EE\n"
#define OTHER ":0100000022DD\n"
#define OVER ":02FFFF00AABB9B\n"
#define SEGMENT_0 ":020000020000FC\n"
#define SEGMENT_1000 ":020000021000EC\n"
#define SEGMENT_1001 ":020000021001EB\n"
#define SEGMENT_1200 ":020000021200EA\n"
#define SEGMENT_F000 ":02000002F0000C\n"
#define SEGMENT_FFFF ":02000002FFFFFE\n"
#define LINEAR_0 ":020000040000FA\n"
#define LINEAR_1 ":020000040001F9\n"
#define LINEAR_10 ":020000040010EA\n"
#define LINEAR_FFFF ":02000004FFFFFC\n"
#define FAR_START ":0400000310000000E9\n"
#define NEAR_START ":040000030FFF0010DB\n"
#define FLAT_START ":0400000510000000E7\n"
#define START ":04000005000000CD2A\n"
#define OTHER_START ":04000005000000CE29\n"

/* a record across FFFF: in a segment it goes on at the segment's beginning, and from a linear base at the next address, modulo 2^32 */
static void ends_of_segments(void)
{
    STATES(OVER END, {0xFFFF, "\xAA", 1}, {0, "\xBB", 1});
    STATES(SEGMENT_0 OVER END, {0xFFFF, "\xAA", 1}, {0, "\xBB", 1});
    STATES(SEGMENT_1200 OVER END, {0x21FFF, "\xAA", 1}, {0x12000, "\xBB", 1});
    STATES(SEGMENT_F000 OVER END, {0xFFFFF, "\xAA", 1}, {0xF0000, "\xBB", 1});
    STATES(SEGMENT_FFFF OVER END, {0x10FFEF, "\xAA", 1}, {0xFFFF0, "\xBB", 1});
    STATES(LINEAR_0 OVER END, {0xFFFF, "\xAA\xBB", 2});
    STATES(LINEAR_1 OVER END, {0x1FFFF, "\xAA\xBB", 2});
    STATES(LINEAR_10 OVER END, {0x10FFFF, "\xAA\xBB", 2});
    STATES(LINEAR_FFFF OVER END, {0xFFFFFFFF, "\xAA", 1}, {0, "\xBB", 1});
    /* more than one byte on either side */
    STATES(":04FFFE00AABBCCDDF1\n" END, {0xFFFE, "\xAA\xBB", 2}, {0, "\xCC\xDD", 2});
    STATES(SEGMENT_FFFF ":04FFFE00AABBCCDDF1\n" END, {0x10FFEE, "\xAA\xBB", 2}, {0xFFFF0, "\xCC\xDD", 2});
    STATES(LINEAR_FFFF ":04FFFE00AABBCCDDF1\n" END, {0xFFFFFFFE, "\xAA\xBB", 2}, {0, "\xCC\xDD", 2});
    /* both ends, by a record each */
    STATES(":01FFFF0011F0\n" OTHER END, {0xFFFF, "\x11", 1}, {0, "\x22", 1});
    STATES(SEGMENT_FFFF ":01FFFF0011F0\n" OTHER END, {0x10FFEF, "\x11", 1}, {0xFFFF0, "\x22", 1});
    STATES(LINEAR_FFFF ":01FFFF0011F0\n" OTHER END, {0xFFFFFFFF, "\x11", 1}, {0xFFFF0000, "\x22", 1});
}

/* the latest extension record holds alone, and a start changes no base */
static void bases(void)
{
    STATES(DATA END, {0, "\x11", 1});
    STATES(SEGMENT_1200 ":010005007783\n" END, {0x12005, "\x77", 1});
    STATES(LINEAR_1 SEGMENT_1200 DATA END, {0x12000, "\x11", 1});
    STATES(SEGMENT_1200 LINEAR_1 DATA END, {0x10000, "\x11", 1});
    STATES(SEGMENT_1200 SEGMENT_FFFF DATA END, {0xFFFF0, "\x11", 1});
    STATES(LINEAR_1 LINEAR_FFFF DATA END, {0xFFFF0000, "\x11", 1});
    STATES(LINEAR_FFFF LINEAR_0 DATA END, {0, "\x11", 1});
    STATES(LINEAR_FFFF SEGMENT_0 OVER END, {0xFFFF, "\xAA", 1}, {0, "\xBB", 1});
    STATES(LINEAR_FFFF START OVER END, {0xFFFFFFFF, "\xAA", 1}, {0, "\xBB", 1});
    STATES(SEGMENT_1200 FAR_START OVER END, {0x21FFF, "\xAA", 1}, {0x12000, "\xBB", 1});
    STATES(DATA LINEAR_1 OTHER SEGMENT_1200 DATA END, {0, "\x11", 1}, {0x10000, "\x22", 1}, {0x12000, "\x11", 1});
    /* an extension record with an offset, and one in small letters */
    STATES(":02123404FFFFB6\n" DATA END, {0xFFFF0000, "\x11", 1});
    STATES(":02000002ffffFe\n" DATA END, {0xFFFF0, "\x11", 1});
    /* an extension record after the data changes nothing */
    STATES(DATA LINEAR_FFFF SEGMENT_FFFF END, {0, "\x11", 1});
}

/* an address that is stated twice: the last record that states it holds, from whatever base */
static void stated_twice(void)
{
    STATES(DATA OTHER END, {0, "\x22", 1});
    STATES(OTHER DATA END, {0, "\x11", 1});
    STATES(DATA DATA OTHER DATA ":0100000033CC\n" END, {0, "\x33", 1});
    STATES(DATA ":0100000000FF\n" END, {0, "\0", 1});
    STATES(":040000001122334452\n:02000100556642\n" END, {0, "\x11\x55\x66\x44", 4});
    STATES(":02000100556642\n:040000001122334452\n" END, {0, "\x11\x22\x33\x44", 4});
    /* by a segment and by a linear base, by two segments, and across a segment's end */
    STATES(SEGMENT_1000 DATA LINEAR_1 OTHER END, {0x10000, "\x22", 1});
    STATES(LINEAR_1 OTHER SEGMENT_1000 DATA END, {0x10000, "\x11", 1});
    STATES(SEGMENT_1000 ":0100100011DE\n" SEGMENT_1001 OTHER END, {0x10010, "\x22", 1});
    STATES(SEGMENT_1001 OTHER SEGMENT_1000 ":0100100011DE\n" END, {0x10010, "\x11", 1});
    STATES(OVER DATA END, {0xFFFF, "\xAA", 1}, {0, "\x11", 1});
    STATES(DATA OVER END, {0xFFFF, "\xAA", 1}, {0, "\xBB", 1});
    STATES(LINEAR_FFFF OVER LINEAR_0 DATA END, {0xFFFFFFFF, "\xAA", 1}, {0, "\x11", 1});
    STATES(DATA LINEAR_FFFF OVER END, {0xFFFFFFFF, "\xAA", 1}, {0, "\xBB", 1});
    /* a record without data states nothing, and takes nothing back */
    STATES(DATA ":0000000000\n" END, {0, "\x11", 1});
    states_nothing(":0000000000\n:00FFFF0002\n" END);
}

/* ---- texts that are made */

#define MOST_TEXT 16000

static char text[MOST_TEXT];

/* puts the line of a record, and an LF */
static void put_record(unsigned type, unsigned offset, const uint8_t *bytes, size_t n)
{
    char *at = text + strlen(text);
    unsigned sum = (unsigned)n + offset / 256 + offset % 256 + type;
    size_t i;
    at += sprintf(at, ":%02X%04X%02X", (unsigned)n, offset, type);
    for (i = 0; i < n; i++) {
        at += sprintf(at, "%02X", bytes[i]);
        sum += bytes[i];
    }
    sprintf(at, "%02X\n", (256 - sum % 256) % 256);
}

static void put_base(unsigned type, unsigned number)
{
    const uint8_t bytes[] = {(uint8_t)(number / 256), (uint8_t)number};
    put_record(type, 0, bytes, sizeof bytes);
}

/* the model's answers about each byte that is stated, and at the corners */
static void as_the_model(void)
{
    size_t i, s;
    for (i = 0; i < plain.n; i++)
        for (s = 0; s < (i < 2 || i + 2 >= plain.n ? COUNT(shifts) : 1); s++)
            CHECK(asks(plain.address[i] + shifts[s], plainly(plain.address[i] + shifts[s])));
    for (i = 0; i < COUNT(corners); i++)
        CHECK(asks(corners[i], plainly(corners[i])));
}

/* records of 0, 1, 2, 16, 254 and 255 bytes about the ends of what a base reaches, alone and before and after another record */
static void sizes(void)
{
    static const size_t counts[] = {0, 1, 2, 16, 254, 255};
    static const unsigned offsets[] = {0, 1, 0x8000, 0xFF00, 0xFF01, 0xFF02, 0xFFEF, 0xFFF0, 0xFFF1, 0xFFFE, 0xFFFF};
    static const unsigned numbers[][2] = {{2, 0}, {2, 0x1200}, {2, 0xF001}, {2, 0xFFFF}, {4, 0}, {4, 1}, {4, 0xFFFF}};
    uint8_t bytes[IHEX_MAX_PAYLOAD];
    size_t i, k, m, other;
    for (i = 0; i < sizeof bytes; i++)
        bytes[i] = (uint8_t)(7 * i + 3);
    for (i = 0; i < COUNT(counts); i++)
        for (k = 0; k < COUNT(offsets); k++)
            for (m = 0; m < COUNT(numbers); m++) {
                begin_case();
                for (other = 0; other < 3; other++) {
                    text[0] = 0;
                    put_base(numbers[m][0], numbers[m][1]);
                    if (other == 1)
                        put_record(IHEX_DATA, (offsets[k] + 65535) % 65536, (const uint8_t *)"\x01\x02", 2);
                    put_record(IHEX_DATA, offsets[k], bytes, counts[i]);
                    if (other == 2)
                        put_record(IHEX_DATA, (offsets[k] + (unsigned)counts[i]) % 65536, (const uint8_t *)"\x01\x02", 2);
                    strcat(text, END);
                    take(text, strlen(text));
                    CHECK(plain.end.code == IHEX_OK && plain.n == counts[i] + (other ? 2 : 0));
                    as_the_model();
                }
                CHECK(same(&text_, text));
                end_case();
            }
}

/* the address in the first record, in the last one, and in each between */
static void each_record(void)
{
    unsigned i;
    text[0] = 0;
    for (i = 0; i < 300; i++) {
        uint8_t byte = (uint8_t)(i % 251);
        put_record(IHEX_DATA, 3 * i, &byte, 1);
    }
    strcat(text, END);
    take(text, strlen(text));
    begin_case();
    for (i = 0; i < 300; i++)
        CHECK(both(3 * i, stated((uint8_t)(i % 251))) && both(3 * i + 1, not_stated) && both(3 * i + 2, not_stated));
    end_case();
}

/* every byte, at its address and nowhere else */
static void every_byte(void)
{
    unsigned i;
    begin_case();
    for (i = 0; i < 256; i++) {
        uint8_t byte = (uint8_t)i;
        text[0] = 0;
        put_base(IHEX_EXTENDED_LINEAR_ADDRESS, 257 * i);
        put_record(IHEX_DATA, 257 * (255 - i), &byte, 1);
        strcat(text, END);
        take(text, strlen(text));
        CHECK(both(0x01010000u * i + 257 * (255 - i), stated(byte)) && both(0x01010000u * i + 257 * (255 - i) + 1, not_stated));
    }
    end_case();
}

/* ---- refusals */

/* two starts that differ are 21 at the line of the later one; the same start again is not */
static void starts_in_asks(void)
{
    static const char *const all[] = {FAR_START, NEAR_START, FLAT_START, START, OTHER_START, ":0400000300CD00002C\n", ":04000003000000CD2C\n",
                                      ":0400000500010000F6\n"};
    char made[300];
    size_t i, k;
    for (i = 0; i < COUNT(all); i++)
        for (k = 0; k < COUNT(all); k++) {
            sprintf(made, "%s%s\n%s%s", all[i], DATA, all[k], END);
            if (i == k)
                STATES(made, {0, "\x11", 1});
            else
                refuses(made, IHEX_START_CONFLICT, 0, 0, 4);
        }
    STATES(START DATA ":04000005000000cd2a\n" START END, {0, "\x11", 1});
    STATES(START ":04ABCD05000000CDB2\n" DATA END, {0, "\x11", 1});
    STATES(DATA START END OTHER_START, {0, "\x11", 1});
    states_nothing(START END);
    refuses(DATA START START OTHER_START START END, IHEX_START_CONFLICT, 0, 0, 4);
    refuses(START OTHER_START, IHEX_START_CONFLICT, 0, 0, 2);
    refuses(START OTHER_START "x\n" END, IHEX_START_CONFLICT, 0, 0, 2);
    refuses(START "x\n" OTHER_START END, IHEX_MISSING_START_CODE, 0, 0, 2);
    refuses(START START, IHEX_MISSING_END_OF_FILE_RECORD, 0, 0, 0);
}

/* no end record: 13 with line 0, whatever was found */
static void without_an_end(void)
{
    refuses("", IHEX_MISSING_END_OF_FILE_RECORD, 0, 0, 0);
    refuses("\n", IHEX_MISSING_END_OF_FILE_RECORD, 0, 0, 0);
    refuses("\r\n\n\r\n", IHEX_MISSING_END_OF_FILE_RECORD, 0, 0, 0);
    refuses(DATA, IHEX_MISSING_END_OF_FILE_RECORD, 0, 0, 0);
    refuses(":0100000011EE", IHEX_MISSING_END_OF_FILE_RECORD, 0, 0, 0);
    refuses(DATA OTHER "\n\n", IHEX_MISSING_END_OF_FILE_RECORD, 0, 0, 0);
    refuses(LINEAR_FFFF OVER, IHEX_MISSING_END_OF_FILE_RECORD, 0, 0, 0);
    states_nothing(END);
    states_nothing(":00000001FF");
    states_nothing(":00123401b9\r\n");
    states_nothing(LINEAR_FFFF SEGMENT_FFFF END);
}

/* each refusal of a line, with its line and values, before a byte is found, after it, and after the end record */
static void refused_lines(void)
{
    char made[200];
    size_t i;
    for (i = 0; i < COUNT(bad_lines); i++) {
        sprintf(made, "%s\n%s%s", bad_lines[i].line, DATA, END);
        refuses(made, bad_lines[i].why, bad_lines[i].a, bad_lines[i].b, 1);
        sprintf(made, "%s\n\r\n%s\n%s", DATA, bad_lines[i].line, END);
        refuses(made, bad_lines[i].why, bad_lines[i].a, bad_lines[i].b, 4);
        sprintf(made, "%s%s%s\r\n%s", DATA, SEGMENT_1200, bad_lines[i].line, DATA);
        refuses(made, bad_lines[i].why, bad_lines[i].a, bad_lines[i].b, 3);
        sprintf(made, "%s%s\n:G\n", DATA, bad_lines[i].line);
        refuses(made, bad_lines[i].why, bad_lines[i].a, bad_lines[i].b, 2);
        sprintf(made, "%s%s%s\n", DATA, END, bad_lines[i].line);
        STATES(made, {0, "\x11", 1});
    }
    /* the header's example */
    refuses(DATA ":00000001FE\n", IHEX_CHECKSUM_MISMATCH, 0xFF, 0xFE, 2);
    take(DATA ":00000001FE\n", strlen(DATA) + 12);
    CHECK(ask(5) == R(IHEX_CHECKSUM_MISMATCH) && line.value == 2 && values(0xFF, 0xFE, EDGES));
    CHECK(ask(0) == R(IHEX_CHECKSUM_MISMATCH) && line.value == 2 && values(0xFF, 0xFE, EDGES));
}

/* long lines, and numbers of lines in one byte, two and three */
static void far_away(void)
{
    static char made[MOST];
    static const size_t places[] = {255, 256, 520, 521, 522, 65534, 65535, 65536, 69000};
    static const size_t empty[] = {0, 1, 254, 255, 256, 65533, 65534, 65535, 70000};
    size_t i;
    for (i = 0; i < COUNT(places); i++) {
        strcpy(made, DATA ":");
        memset(made + strlen(made), '0', 69999);
        made[strlen(DATA) + places[i]] = 'G';
        strcpy(made + strlen(DATA) + 70000, "\n" END);
        refuses(made, IHEX_CONTAINS_INVALID_CHARACTERS, places[i] < 65535 ? places[i] : 65535, 0, 2);
        strcpy(made + strlen(DATA) + places[i], "\n" END);
        refuses(made, places[i] > 521 ? IHEX_RECORD_TOO_LONG : places[i] % 2 ? IHEX_PAYLOAD_LENGTH_MISMATCH : IHEX_RECORD_NOT_EVEN_LENGTH, 0, 0, 2);
    }
    for (i = 0; i < COUNT(empty); i++) {
        memset(made, '\n', empty[i]);
        strcpy(made + empty[i], DATA "x\n" END);
        refuses(made, IHEX_MISSING_START_CODE, 0, 0, empty[i] + 2);
        strcpy(made + empty[i], START OTHER_START END);
        refuses(made, IHEX_START_CONFLICT, 0, 0, empty[i] + 2);
        strcpy(made + empty[i], DATA END);
        STATES(made, {0, "\x11", 1});
    }
}

/* ---- lines, and what lies about them */

static void line_ends(void)
{
    STATES(":0100000011EE\r\n:00000001FF\r\n", {0, "\x11", 1});
    STATES(":0100000011EE\r\n:00000001FF", {0, "\x11", 1});
    STATES("\n\r\n\n:0100000011EE\n\r\n:00000001FF\n", {0, "\x11", 1});
    STATES(":0100000011ee\n:00000001ff\n", {0, "\x11", 1});
    /* empty lines are counted */
    refuses("\n\n" DATA "\r\n" ":00000001FE\n", IHEX_CHECKSUM_MISMATCH, 0xFF, 0xFE, 5);
    refuses("\r\n" DATA "x", IHEX_MISSING_START_CODE, 0, 0, 3);
    /* a CR that belongs to its line */
    refuses(":0100000011EE\r\r\n" END, IHEX_CONTAINS_INVALID_CHARACTERS, 13, 0, 1);
    refuses(DATA ":00000001FF\r", IHEX_CONTAINS_INVALID_CHARACTERS, 11, 0, 2);
    refuses(DATA "\r", IHEX_MISSING_START_CODE, 0, 0, 2);
    refuses(DATA "\r\r\n" END, IHEX_MISSING_START_CODE, 0, 0, 2);
    refused_at_all(":0100000011EE\0\n" END, strlen(DATA) + strlen(END) + 1, refused(IHEX_CONTAINS_INVALID_CHARACTERS, 13, 0, 1));
    refused_at_all("\0\n" DATA END, strlen(DATA) + strlen(END) + 2, refused(IHEX_MISSING_START_CODE, 0, 0, 1));
}

/* what follows the end record changes nothing: each byte, alone and many times, and lines that would change the answer */
static void after_the_end(void)
{
    static const char head[] = DATA END;
    static const char *const tails[] = {OTHER, OTHER END, "x\n", ":G", ":00000001FE\n", SEGMENT_FFFF DATA, "\r", "\n\n", END, OTHER_START START,
                                        ":0100000022", "\n" OTHER "\n" END};
    uint8_t made[200];
    char whole[200];
    size_t n = strlen(head), i, count;
    memcpy(made, head, n);
    for (i = 0; i < 256; i++)
        for (count = 1; count <= 64; count *= 8) {
            begin_case();
            memset(made + n, (int)i, count);
            take(made, n + count);
            CHECK(both(0, stated(0x11)) && both(5, not_stated) && both(1, not_stated) && both(0xFFFFFFFF, not_stated) && same(&text_, made));
            end_case();
        }
    for (i = 0; i < COUNT(tails); i++) {
        sprintf(whole, "%s%s", head, tails[i]);
        STATES(whole, {0, "\x11", 1});
        sprintf(whole, "%s%s%s", START, END, tails[i]);
        states_nothing(whole);
    }
    /* directly after its last digit a byte belongs to its line */
    for (i = 0; i < 256; i++) {
        made[n - 1] = (uint8_t)i;
        if (i == '\n')
            continue;
        refused_at_all(made, n, value_of((uint8_t)i) == NO_DIGIT ? refused(IHEX_CONTAINS_INVALID_CHARACTERS, 11, 0, 2)
                                                                 : refused(IHEX_RECORD_NOT_EVEN_LENGTH, 0, 0, 2));
    }
}

static const char document[] = SEGMENT_1200 ":010005007783\r\n" LINEAR_FFFF ":04012000102030403B\n\n" START OVER SEGMENT_FFFF DATA LINEAR_10
    ":0000000000\n" SEGMENT_0 ":04012000102030403b\n" OVER ":00000001FF\r\n" OTHER;

/* each part from its beginning, and each part to its end, of a text that goes on before and after it */
static void cuts(void)
{
    size_t n = strlen(document), i, k;
    take(document, n);
    for (i = 0; i <= n; i++)
        for (k = 0; k < 2; k++) {
            begin_case();
            asked = text_.all + EDGE + (k ? i : 0);
            asked_len = k ? n - i : i;
            read_plainly(asked, asked_len);
            as_the_model();
            end_case();
        }
    CHECK(same(&text_, document));
}

/* the text may lie anywhere, and an empty one nowhere */
static void alignments(void)
{
    static uint8_t room[64 + sizeof document];
    size_t n = strlen(document), shift;
    for (shift = 0; shift < 64; shift++) {
        begin_case();
        memset(room, GUARD, sizeof room);
        memcpy(room + shift, document, n);
        asked = room + shift;
        asked_len = n;
        read_plainly(asked, n);
        as_the_model();
        CHECK(memcmp(room + shift, document, n) == 0 && all_are(GUARD, room, shift) && all_are(GUARD, room + shift + n, sizeof room - shift - n));
        end_case();
    }
    asked = NULL;
    asked_len = 0;
    CHECK(asks(0, refused(IHEX_MISSING_END_OF_FILE_RECORD, 0, 0, 0)) && asks(0xFFFFFFFF, refused(IHEX_MISSING_END_OF_FILE_RECORD, 0, 0, 0)));
    asked = room + 1;
    CHECK(asks(0, refused(IHEX_MISSING_END_OF_FILE_RECORD, 0, 0, 0)));
}

/* ---- beside the loader, by name */

/* what is to be returned of a place of the page or the pool that was loaded last: its byte if it is marked */
static struct answer at_place(size_t place)
{
    return unpacked(marks_.all + EDGE, place) ? stated(page_.all[EDGE + place]) : not_stated;
}

/* so it is at each place of the window, and so many of them are marked */
static unsigned as_the_page(uint32_t first, size_t place, size_t places)
{
    unsigned found = 0;
    size_t p;
    for (p = 0; p < places; p++) {
        CHECK(asks(first + (uint32_t)p, at_place(place + p)));
        found += at_place(place + p).code == IHEX_OK;
    }
    return found;
}

static void beside_the_loader(void)
{
    static const char example[] = SEGMENT_1200 ":010005007783\n" END, over[] = OVER END;
    CHECK(load(example, 0x12000, 8) == IHEX_OK && loaded(1, "00000100", 5, "\x77"));
    take(example, strlen(example));
    CHECK(ask(0x12005) == IHEX_OK && line.value == 0 && values(0x77, 0, EDGES));
    CHECK(ask(0x12004) == IHEX_NOT_STATED && line.value == 0 && values(0, 0, EDGES));
    /* a load with the byte outside is refused, an ask is not */
    CHECK(load(example, 0x12006, 8) == R(IHEX_OUTSIDE_WINDOW) && not_loaded(0x12005, 0, 2));
    take(example, strlen(example));
    CHECK(ask(0x12006) == IHEX_NOT_STATED && line.value == 0 && values(0, 0, EDGES));
    CHECK(load(over, 0xFFFF, 2) == R(IHEX_OUTSIDE_WINDOW) && not_loaded(0, 0, 1));
    take(over, strlen(over));
    CHECK(ask(0xFFFF) == IHEX_OK && line.value == 0 && values(0xAA, 0, EDGES));
    CHECK(ask(0) == IHEX_OK && line.value == 0 && values(0xBB, 0, EDGES));
    CHECK(ask(0x10000) == IHEX_NOT_STATED && line.value == 0 && values(0, 0, EDGES));
    /* a full page, each place of it */
    CHECK(load(over, 0, IHEX_MAX_PAGE) == IHEX_OK && a.value == 1);
    begin_case();
    CHECK(as_the_page(0, 0, IHEX_MAX_PAGE) == 2);
    end_case();
}

/* ---- once */

#define WATCHED_RECORDS 340

/* The text is read once, from front to back. A load reads it twice, so a step back is seen. */
static void reads_once(void)
{
    static const uint8_t bytes[16] = {1};
    static uint8_t page[IHEX_MAX_PAGE], marks[IHEX_MAX_MARKS], kind;
    unsigned i;
    size_t n;
    text[0] = 0;
    for (i = 0; i < WATCHED_RECORDS; i++)
        put_record(0, 16 * i, bytes, sizeof bytes);
    strcat(text, END);
    n = strlen(text);
    CHECK(watch(text, n));
    CHECK(ihex_ask(watched.all, n, 0, &line.value, &a.value, &b.value) == IHEX_OK && a.value == 1);
    CHECK(watched.back == 0 && watched.forward + 1 == watched.pages && watched.pages > 2);
    unwatch();
    CHECK(watch(text, n));
    CHECK(ihex_load(watched.all, n, 0, page, sizeof page, marks, sizeof marks, &line.value, &kind, &a.value, &b.value, &c.value) == IHEX_OK);
    CHECK(watched.back > 0);
    unwatch();
}

/* ---- by chance */

/* what a record crosses: the address before and the one after, and the base by which it does */
static const struct seam {
    uint32_t before, after;
    unsigned type, number;
} seams[] = {
    {0xFFFF, 0, 2, 0},       {0x21FFF, 0x12000, 2, 0x1200}, {0xFFFFF, 0xF0000, 2, 0xF000}, {0x10FFEF, 0xFFFF0, 2, 0xFFFF},
    {0xFFFF, 0x10000, 4, 0}, {0x1FFFF, 0x20000, 4, 1},      {0xFFFFF, 0x100000, 4, 0xF},   {0xFFFFFFFF, 0, 4, 0xFFFF},
};

/* the first of them are those of segments */
#define SEGMENTS 4

#define NEAR 40

/* on which side of the seam the records of a text begin */
static enum { EITHER, BEFORE, AFTER } side;

static uint32_t draw_address(const struct seam *near)
{
    int before = side == EITHER ? (int)draw(2) : side == BEFORE;
    return before ? near->before - draw(NEAR) : near->after + draw(NEAR);
}

/* the base in force */
static uint32_t base;

static uint32_t base_of(unsigned type, unsigned number)
{
    return number * (type == IHEX_EXTENDED_LINEAR_ADDRESS ? 65536u : 16u);
}

static void set_base(unsigned type, unsigned number)
{
    put_base(type, number);
    base = base_of(type, number);
}

/* the base by which a record crosses there, or one from which an address can be reached */
static void draw_base(const struct seam *near, uint32_t address)
{
    uint32_t whole = address / 16, back = draw(3) ? (draw(2) ? 0 : 4095) : draw(4096);
    if (draw(2) && address - base_of(near->type, near->number) <= 0xFFFF) {
        set_base(near->type, near->number);
    } else if (whole < 0x10FFF && draw(2)) {
        if (back > whole)
            back = whole;
        if (whole - back > 0xFFFF)
            back = whole - 0xFFFF;
        set_base(IHEX_EXTENDED_SEGMENT_ADDRESS, whole - back);
    } else {
        set_base(IHEX_EXTENDED_LINEAR_ADDRESS, address >> 16);
    }
}

static void draw_data(const struct seam *near)
{
    uint8_t bytes[IHEX_MAX_PAYLOAD];
    uint32_t address = draw_address(near);
    size_t n = draw(20) ? draw(20) : draw(IHEX_MAX_PAYLOAD + 1), i;
    for (i = 0; i < n; i++)
        bytes[i] = (uint8_t)draw(256);
    if (draw(4) == 0 || (address - base > 0xFFFF && draw(16)))
        draw_base(near, address);
    put_record(IHEX_DATA, (address - base) % 65536, bytes, n);
}

/* A text near a seam: data, extension records and starts; at times empty lines, CRs, a line that is refused, another start, or no end record. */
static void draw_text(const struct seam *near)
{
    static const char *const bad[] = {"x\n", ":G\n", ":\n", ":0100000011EE0\n", ":0100000011EF\n", ":01000000FF\n", ":00000006FA\n", ":0100000100FE\n",
                                      OTHER_START};
    unsigned lines = draw(8), where = draw(lines + 1), fault = draw(4) ? COUNT(bad) : draw(COUNT(bad)), i;
    text[0] = 0;
    base = 0;
    side = draw(3) == 0 ? EITHER : draw(2) ? BEFORE : AFTER;
    if (draw(2))
        set_base(near->type, near->number);
    for (i = 0; i <= lines; i++) {
        if (i == where && fault < COUNT(bad))
            strcat(text, bad[fault]);
        if (i < lines)
            draw_data(near);
        if (draw(8) == 0)
            strcat(text, START);
        if (draw(8) == 0)
            strcat(text, draw(2) ? "\n" : "\r\n");
    }
    if (draw(16))
        strcat(text, draw(3) ? END : END DATA "x\n");
}

/* how often each kind of load came to pass */
static unsigned accepted, marked, refused_loads, outside;

/* asks at some addresses of a text whose load was refused: the same refusal, or, where a byte lay outside, another answer */
static void as_refused(const struct seam *near, struct answer is)
{
    int lies_outside = is.code == R(IHEX_OUTSIDE_WINDOW), i;
    outside += (unsigned)lies_outside;
    refused_loads += (unsigned)!lies_outside;
    for (i = 0; i < 6; i++) {
        uint32_t address = i < 4 ? draw_address(near) : corners[draw(COUNT(corners))];
        if (lies_outside)
            CHECK(asks(address, plainly(address)) && ask(address) != R(IHEX_OUTSIDE_WINDOW));
        else
            CHECK(asks(address, is));
    }
}

/* one load of the text that was drawn, and asks about each place */
static void as_loaded(const struct seam *near, uint32_t first, size_t places)
{
    uint32_t code = load(text, first, places);
    struct answer is = {code, line.value, a.value, b.value};
    if (code != IHEX_OK) {
        as_refused(near, is);
        return;
    }
    accepted++;
    marked += as_the_page(first, 0, places);
}

/* a window with the address, of 1 to 600 places, that ends by 2^32 */
static void draw_window(const struct seam *near)
{
    size_t places = draw(3) ? 1 + draw(160) : 1 + draw(600);
    uint32_t address = draw_address(near), ahead = draw((uint32_t)places), first = address < ahead ? 0 : address - ahead;
    if ((uint64_t)first + places > (uint64_t)1 << 32)
        first = (uint32_t)(((uint64_t)1 << 32) - places);
    as_loaded(near, first, places);
}

/* texts by chance: each is held to the model, and to its loads into six windows */
static void as_one_window(void)
{
    int round, i;
    for (round = 0; round < 1500; round++) {
        const struct seam *near = seams + draw(COUNT(seams));
        begin_case();
        draw_text(near);
        take(text, strlen(text));
        if (plain.n < 400)
            as_the_model();
        for (i = 0; i < 3; i++)
            draw_window(near);
        as_loaded(near, near->after, 80);
        as_loaded(near, near->before - 79, 80);
        as_loaded(near, corners[draw(LOW_CORNERS)], 1 + draw(100));
        CHECK(same(&text_, text));
        end_case();
    }
    CHECK(accepted > 1000 && marked > 10000 && refused_loads > 1000 && outside > 1000);
}

/* pages of the 65,536 places of a segment: the places at both its ends, and some others */
static void as_a_full_page(void)
{
    int round;
    unsigned found = 0;
    for (round = 0; round < 60; round++) {
        const struct seam *near = seams + draw(SEGMENTS);
        size_t p;
        begin_case();
        draw_text(near);
        take(text, strlen(text));
        if (load(text, near->after, IHEX_MAX_PAGE) == IHEX_OK) {
            for (p = 0; p < IHEX_MAX_PAGE; p += p < 300 || p > 65236 ? 1 : 97)
                CHECK(asks(near->after + (uint32_t)p, at_place(p)));
            found++;
        }
        end_case();
    }
    CHECK(found > 10);
}

/* ---- through a table */

LENT(table_, 4 * IHEX_WINDOW_SIZE);

static struct ihex_window rows[4];

/* windows of both owners on both sides of the seam, of some length each and anywhere in the pool; returns the pool's length */
static size_t draw_table(const struct seam *near)
{
    size_t place = draw(4), i;
    for (i = 0; i < COUNT(rows); i++) {
        uint64_t length = draw(3) ? 300 : 1 + draw(60);
        unsigned turn = (unsigned)(i + near->number) % 4;
        rows[turn].owner = 1 + turn % 2;
        rows[turn].first = turn / 2 ? near->after : near->before - (uint32_t)(length - 1);
        rows[turn].length = length;
        rows[turn].place = place;
        place += length + draw(4);
    }
    return place;
}

/* what a load of the text that was drawn returns, through the table, for an owner */
static struct answer load_through(uint32_t owner, size_t pool_len)
{
    uint8_t spelt[sizeof rows], *end = spelt, *pool = lend(&page_, pool_len), *marks = lend(&marks_, packed_len(pool_len));
    const uint8_t *table;
    struct answer is;
    size_t i;
    for (i = 0; i < COUNT(rows); i++)
        end = put(put(put(put(end, rows[i].owner, 4), rows[i].first, 4), rows[i].length, 8), rows[i].place, 8);
    table = given(&table_, spelt, (size_t)(end - spelt));
    fresh();
    is.code = ihex_load_table(asked, asked_len, owner, table, table_.len, pool, pool_len, marks, marks_.len, &line.value, &started.value, &a.value,
                              &b.value, &c.value);
    is.line = line.value;
    is.a = a.value;
    is.b = b.value;
    return is;
}

/* each place of the owner's windows, after a load that was accepted */
static void as_the_windows(uint32_t owner)
{
    size_t i;
    for (i = 0; i < COUNT(rows); i++)
        if (rows[i].owner == owner)
            marked += as_the_page(rows[i].first, (size_t)rows[i].place, (size_t)rows[i].length);
}

/* texts by chance, each held to its load through a table */
static void as_a_table(void)
{
    int round;
    accepted = marked = refused_loads = outside = 0;
    for (round = 0; round < 900; round++) {
        const struct seam *near = seams + draw(COUNT(seams));
        uint32_t owner = 1 + draw(2);
        struct answer is;
        begin_case();
        draw_text(near);
        take(text, strlen(text));
        is = load_through(owner, draw_table(near));
        CHECK(is.code != R(IHEX_BAD_TABLE));
        if (is.code == IHEX_OK) {
            accepted++;
            as_the_windows(owner);
        } else {
            as_refused(near, is);
        }
        CHECK(same(&text_, text));
        end_case();
    }
    CHECK(accepted > 200 && marked > 2000 && refused_loads > 150 && outside > 50);
}

int main(void)
{
    loader = ihex_load;
    ends_of_segments();
    bases();
    stated_twice();
    sizes();
    each_record();
    every_byte();
    starts_in_asks();
    without_an_end();
    refused_lines();
    far_away();
    line_ends();
    after_the_end();
    cuts();
    alignments();
    beside_the_loader();
    reads_once();
    as_one_window();
    as_a_full_page();
    as_a_table();
    printf("%d passed, %d failed\n", passed, failed);
    return failed != 0;
}
