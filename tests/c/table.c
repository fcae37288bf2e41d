/* Calls ihex_check_table, ihex_load_table and ihex_load_srecords_table on telling tables and texts, with guard bytes around every buffer and
 * number that is lent. The last line is 'N passed, M failed'. */
#include "lent.h"
#include "kinds.h"
#include "low.h"

LENT(table_, MOST);

#define MOST_POOL IHEX_MAX_PAGE

typedef struct ihex_window window;

/* ---- texts of both kinds */

/* puts a data record */
static void data(uint32_t address, const char *bytes)
{
    data_of(address, bytes, strlen(bytes));
}

/* the start that a text states which states none but by its end */
static int no_other_start(void)
{
    return starts(kind == INTEL ? IHEX_NO_START : IHEX_START_LINEAR_ADDRESS, 0, 0);
}

/* ---- a load through a table */

/* the table's bytes, each number low byte first */
static uint8_t spelt[(IHEX_MOST_WINDOWS + 4) * IHEX_WINDOW_SIZE];

static size_t spell(const window *rows, size_t n)
{
    uint8_t *at = spelt;
    size_t i;
    for (i = 0; i < n; i++)
        at = put(put(put(put(at, rows[i].owner, 4), rows[i].first, 4), rows[i].length, 8), rows[i].place, 8);
    return (size_t)(at - spelt);
}

/* a load of the text through the first table_len bytes that are spelt, upon what page_, which is the pool, and marks_ hold */
static uint32_t load_through(uint32_t owner, size_t table_len)
{
    size_t n = strlen(text);
    const uint8_t *bytes = given(&text_, text, n), *table = given(&table_, spelt, table_len);
    uint8_t *pool = page_.len ? page_.all + EDGE : NULL, *marks = marks_.len ? marks_.all + EDGE : NULL;
    uint32_t r;
    fresh();
    line.value = 77;
    started.value = 77;
    r = (kind == INTEL ? ihex_load_table : ihex_load_srecords_table)(bytes, n, owner, table, table_len, pool, page_.len, marks, marks_.len,
                                                                     &line.value, &started.value, &a.value, &b.value, &c.value);
    CHECK(same(&text_, text) && same(&table_, spelt) && fenced() && guarded(&page_) && guarded(&marks_));
    return r;
}

static uint32_t through(uint32_t owner, const window *rows, size_t n, size_t pool_len)
{
    lend(&page_, pool_len);
    lend(&marks_, packed_len(pool_len));
    return load_through(owner, spell(rows, n));
}

/* What a load left, one character a place of the pool: '1' for the owner's that is marked and holds the next of these bytes, '0' for the
 * owner's that is not marked, and '.' for any other. Bytes and marks of the others, and bits after the last place, are OLD's. */
static int left(const char *places, const char *bytes)
{
    size_t p, n = strlen(places);
    uint8_t old = OLD;
    if (page_.len != n || marks_.len != packed_len(n) || !guarded(&page_) || !guarded(&marks_))
        return 0;
    for (p = 0; p < 8 * marks_.len; p++) {
        char is = p < n ? places[p] : '.';
        if (unpacked(marks_.all + EDGE, p) != (is == '.' ? unpacked(&old, p % 8) : is == '1'))
            return 0;
        if (p < n && page_.all[EDGE + p] != (is == '1' ? (uint8_t)*bytes++ : OLD))
            return 0;
    }
    return *bytes == 0;
}

/* ---- tables that are refused, and tables that are not */

static uint32_t checked(size_t table_len, size_t pool_len, size_t marks_len)
{
    uint32_t r = ihex_check_table(given(&table_, spelt, table_len), table_len, pool_len, marks_len);
    CHECK(same(&table_, spelt));
    return r;
}

/* the table that is spelt is refused, with each kind of text and for each owner, whatever the text is */
static void refused_with(size_t table_len, size_t pool_len, size_t marks_len)
{
    static const char *const texts[][3] = {{"", "x", ":0100000011EE\n:00000001FF\n"}, {"", "x", "S104000011EA\nS9030000FC\n"}};
    uint32_t owner;
    size_t i;
    begin_case();
    CHECK(checked(table_len, pool_len, marks_len) == R(IHEX_BAD_TABLE));
    for (kind = INTEL; kind <= SRECORDS; kind++)
        for (i = 0; i < 3; i++)
            for (owner = 0; owner <= 3; owner++) {
                strcpy(text, texts[kind][i]);
                lend(&page_, pool_len);
                lend(&marks_, marks_len);
                CHECK(load_through(owner, table_len) == R(IHEX_BAD_TABLE) && not_loaded(0, 0, 0));
            }
    end_case();
}

/* it is not refused: the end alone, of each kind of text, is accepted for both owners, and for no other */
static void taken_with(size_t table_len, size_t pool_len)
{
    static const uint32_t others[] = {0, 3, 257, 0x10001, 0x80000002, 0xFFFFFFFF};
    uint32_t owner;
    size_t i;
    begin_case();
    CHECK(checked(table_len, pool_len, packed_len(pool_len)) == IHEX_OK);
    for (kind = INTEL; kind <= SRECORDS; kind++) {
        begin_text(kind);
        end();
        for (owner = 1; owner <= 2; owner++) {
            lend(&page_, pool_len);
            lend(&marks_, packed_len(pool_len));
            CHECK(load_through(owner, table_len) == IHEX_OK && no_other_start() && a.value == 0 && untouched(&page_));
        }
        for (i = 0; i < COUNT(others); i++) {
            lend(&page_, pool_len);
            lend(&marks_, packed_len(pool_len));
            CHECK(load_through(others[i], table_len) == R(IHEX_BAD_TABLE) && not_loaded(0, 0, 0));
        }
    }
    end_case();
}

/* both orders of two windows, each also with a window of nothing between them */
static void pair(window one, window two, size_t pool_len, int good)
{
    window rows[3];
    size_t order, between;
    for (order = 0; order < 2; order++)
        for (between = 0; between < 2; between++) {
            size_t n = 0;
            rows[n++] = order ? two : one;
            if (between) {
                window nothing = {1, 0, 0, 0};
                rows[n++] = nothing;
            }
            rows[n++] = order ? one : two;
            if (good)
                taken_with(spell(rows, n), pool_len);
            else
                refused_with(spell(rows, n), pool_len, packed_len(pool_len));
        }
}

static void single(window row, size_t pool_len, int good)
{
    if (good)
        taken_with(spell(&row, 1), pool_len);
    else
        refused_with(spell(&row, 1), pool_len, packed_len(pool_len));
}

#define WINDOW(owner, first, length, place) ((window){owner, first, length, place})
#define HALF ((uint64_t)1 << 63)
#define FOUR_G ((uint64_t)1 << 32)

/* one window: its owner, its end in the addresses, and its end in the pool */
static void single_windows(void)
{
    static const uint32_t others[] = {0, 3, 0x101, 0x10002, 0x01000000, 0xFFFFFFFF};
    size_t i;
    for (i = 0; i < COUNT(others); i++) {
        single(WINDOW(others[i], 0, 4, 0), 8, 0);
        single(WINDOW(others[i], 0, 0, 0), 8, 0);
    }
    for (i = 1; i <= 2; i++) {
        uint32_t owner = (uint32_t)i;
        single(WINDOW(owner, 0xFFFFFFFC, 4, 0), 8, 1);
        single(WINDOW(owner, 0xFFFFFFFD, 4, 0), 8, 0);
        single(WINDOW(owner, 0xFFFFFFFF, 1, 7), 8, 1);
        single(WINDOW(owner, 0xFFFFFFFF, 2, 0), 8, 0);
        single(WINDOW(owner, 0xFFFFFFFF, 0, 0), 8, 1);
        single(WINDOW(owner, 0xFFFF0000, 65536, 0), MOST_POOL, 1);
        single(WINDOW(owner, 0xFFFF0001, 65536, 0), MOST_POOL, 0);
        single(WINDOW(owner, 0, 4, 4), 8, 1);
        single(WINDOW(owner, 0, 4, 5), 8, 0);
        single(WINDOW(owner, 0, 8, 0), 8, 1);
        single(WINDOW(owner, 0, 9, 0), 8, 0);
        single(WINDOW(owner, 0, 1, 0), 0, 0);
    }
}

/* a window of no address at the end of the pool and beyond it; sums that would wrap */
static void ends_and_sums(void)
{
    single(WINDOW(1, 0, 0, 8), 8, 1);
    single(WINDOW(1, 0, 0, 9), 8, 0);
    single(WINDOW(2, 0, 0, 0), 0, 1);
    single(WINDOW(2, 0, 0, 1), 0, 0);
    single(WINDOW(1, 0, 0, UINT64_MAX), 8, 0);
    single(WINDOW(1, 0, HALF, HALF), 8, 0);
    single(WINDOW(1, 0, UINT64_MAX, 1), 8, 0);
    single(WINDOW(1, 0, UINT64_MAX - 3, 8), 8, 0);
    single(WINDOW(1, 4, UINT64_MAX - 3, 0), 8, 0);
    single(WINDOW(1, 0, 8, UINT64_MAX - 7), 8, 0);
    single(WINDOW(1, 0, FOUR_G, 0), 8, 0);
    single(WINDOW(1, 0, FOUR_G + 4, 0), 8, 0);
    single(WINDOW(1, 0, 4, FOUR_G), 8, 0);
    single(WINDOW(1, 0, 4, HALF), 8, 0);
}

/* pool and marks, with no window and with one */
static void pools_and_marks(void)
{
    static const size_t pools[] = {0, 1, 7, 8, 9, 15, 16, 17, 65528, 65535, 65536};
    const window row = {1, 0x100, 0, 0};
    size_t i, n;
    for (i = 0; i < COUNT(pools); i++)
        for (n = 0; n < 2; n++) {
            size_t marks = packed_len(pools[i]);
            taken_with(spell(&row, n), pools[i]);
            refused_with(spell(&row, n), pools[i], marks + 1);
            if (marks > 0)
                refused_with(spell(&row, n), pools[i], marks - 1);
        }
    refused_with(spell(&row, 0), 65537, 8193);
    refused_with(spell(&row, 1), 65537, 8193);
    refused_with(spell(&row, 1), 65537, 8192);
    refused_with(spell(&row, 1), 65544, 8193);
    CHECK(ihex_check_table(NULL, 0, SIZE_MAX, IHEX_MARKS(SIZE_MAX)) == R(IHEX_BAD_TABLE));
    CHECK(ihex_check_table(NULL, 0, HALF, HALF / 8) == R(IHEX_BAD_TABLE));
    CHECK(ihex_check_table(NULL, 0, 0, SIZE_MAX) == R(IHEX_BAD_TABLE));
}

/* up to 16 windows, and 17; a part of a window is left over */
static void how_many(void)
{
    window rows[IHEX_MOST_WINDOWS + 1];
    size_t i, n;
    for (i = 0; i <= IHEX_MOST_WINDOWS; i++)
        rows[i] = WINDOW((uint32_t)(1 + i % 2), (uint32_t)(7 * i), 1, 16 - i);
    for (n = 0; n <= IHEX_MOST_WINDOWS; n++)
        taken_with(spell(rows, n), 17);
    refused_with(spell(rows, IHEX_MOST_WINDOWS + 1), 17, 3);
    for (i = 0; i <= IHEX_MOST_WINDOWS; i++)
        rows[i] = WINDOW(1, 0, 0, 0);
    taken_with(spell(rows, IHEX_MOST_WINDOWS), 0);
    refused_with(spell(rows, IHEX_MOST_WINDOWS + 1), 0, 0);
    spell(rows, IHEX_MOST_WINDOWS + 1);
    for (n = 0; n <= IHEX_MOST_WINDOWS; n += IHEX_MOST_WINDOWS / 2)
        for (i = 1; i < IHEX_WINDOW_SIZE; i++)
            refused_with(n * IHEX_WINDOW_SIZE + i, 0, 0);
}

/* windows that share a place, or an address of one owner: one inside the other, at one end, by one alone; and windows that touch */
static void overlaps(void)
{
    static const struct {
        uint64_t length, at, other_length, other_at;
        int share;
    } rows[] = {
        {4, 4, 4, 4, 1}, {4, 4, 4, 0, 0}, {4, 4, 4, 8, 0}, {4, 4, 4, 1, 1}, {4, 4, 4, 7, 1}, {8, 2, 2, 5, 1}, {8, 2, 2, 2, 1},
        {8, 2, 2, 8, 1}, {8, 2, 2, 0, 0}, {8, 2, 2, 10, 0}, {1, 5, 1, 5, 1}, {1, 5, 1, 4, 0}, {8, 0, 0, 4, 0}, {8, 0, 0, 0, 0},
        {8, 0, 0, 8, 0}, {0, 4, 0, 4, 0},
    };
    size_t i;
    for (i = 0; i < COUNT(rows); i++) {
        uint64_t n = rows[i].length, at = rows[i].at, m = rows[i].other_length, other = rows[i].other_at;
        int apart = !rows[i].share;
        /* in places, for one owner and for two */
        pair(WINDOW(1, 0x100, n, at), WINDOW(1, 0x200, m, other), 12, apart);
        pair(WINDOW(1, 0x100, n, at), WINDOW(2, 0x200, m, other), 12, apart);
        pair(WINDOW(2, 0x100, n, at), WINDOW(2, 0x200, m, other), 12, apart);
        /* in addresses: good for two owners */
        pair(WINDOW(1, (uint32_t)at, n, 0), WINDOW(1, (uint32_t)other, m, 12), 24, apart);
        pair(WINDOW(2, (uint32_t)at, n, 0), WINDOW(2, (uint32_t)other, m, 12), 24, apart);
        pair(WINDOW(1, (uint32_t)at, n, 0), WINDOW(2, (uint32_t)other, m, 12), 24, 1);
        pair(WINDOW(1, 0xFFFFFFF0u + (uint32_t)at, n, 12), WINDOW(1, 0xFFFFFFF0u + (uint32_t)other, m, 0), 24, apart);
    }
    /* the addresses do not go round */
    pair(WINDOW(1, 0xFFFFFFFC, 4, 0), WINDOW(1, 0, 4, 4), 8, 1);
    /* numbers that are equal in their low 32 bits */
    pair(WINDOW(1, 0, 4, 0), WINDOW(1, 8, 4, FOUR_G), 8, 0);
}

/* each two of 16 windows, alike in their places or in one address; no other two share either */
static void each_two(void)
{
    window rows[IHEX_MOST_WINDOWS];
    size_t i, k;
    for (i = 0; i < COUNT(rows); i++)
        for (k = 0; k < i; k++) {
            size_t n;
            for (n = 0; n < COUNT(rows); n++)
                rows[n] = WINDOW(1, (uint32_t)(16 * n), 2, 2 * n);
            taken_with(spell(rows, COUNT(rows)), 32);
            rows[i].place = rows[k].place;
            refused_with(spell(rows, COUNT(rows)), 32, 4);
            rows[i].place = 2 * i;
            rows[i].first = rows[k].first + 1;
            refused_with(spell(rows, COUNT(rows)), 32, 4);
            rows[i].owner = 2;
            taken_with(spell(rows, COUNT(rows)), 32);
        }
}

/* whether two stretches have a number in common, by a walk over both */
static int common(uint64_t at, uint64_t n, uint64_t other, uint64_t m)
{
    uint64_t i, k;
    for (i = 0; i < n; i++)
        for (k = 0; k < m; k++)
            if (at + i == other + k)
                return 1;
    return 0;
}

/* window number i of all with an owner from 0 to 2, and a first address, a length and a place up to 3 */
static window numbered(unsigned i)
{
    return WINDOW(i / 64, i / 16 % 4, i / 4 % 4, i % 4);
}

/* each two of those, with a pool of 4 */
static void every_small_pair(void)
{
    unsigned i, k;
    for (i = 0; i < 192; i++) {
        begin_case();
        for (k = 0; k < 192; k++) {
            window rows[2] = {numbered(i), numbered(k)};
            int bad = i < 64 || k < 64 || rows[0].place + rows[0].length > 4 || rows[1].place + rows[1].length > 4 ||
                      common(rows[0].place, rows[0].length, rows[1].place, rows[1].length) ||
                      (rows[0].owner == rows[1].owner && common(rows[0].first, rows[0].length, rows[1].first, rows[1].length));
            CHECK(checked(spell(rows, 2), 4, 1) == (bad ? R(IHEX_BAD_TABLE) : IHEX_OK));
        }
        end_case();
    }
}

/* on a little-endian machine a table is an array of the struct */
static void the_struct(void)
{
    static const window rows[] = {{2, 0x12345678, 3, 0x21}, {1, 0xFFFFFFFF, 1, 0}, {1, 0, 0, 0x0807060504030201}};
    static const uint8_t bytes[] = {2, 0, 0, 0, 0x78, 0x56, 0x34, 0x12, 3, 0, 0, 0, 0, 0, 0, 0, 0x21, 0, 0, 0, 0, 0, 0, 0};
    static const uint8_t last[] = {1, 2, 3, 4, 5, 6, 7, 8};
    CHECK(sizeof(window) == IHEX_WINDOW_SIZE && spell(rows, 3) == sizeof rows);
    CHECK(memcmp(rows, spelt, sizeof rows) == 0 && memcmp(bytes, rows, sizeof bytes) == 0);
    CHECK(memcmp(spelt + sizeof rows - sizeof last, last, sizeof last) == 0);
}

/* ---- loads */

static void without_windows(void)
{
    for (kind = INTEL; kind <= SRECORDS; kind++) {
        begin_text(kind);
        data(0, "\x11");
        end();
        CHECK(through(1, NULL, 0, 11) == R(IHEX_OUTSIDE_WINDOW) && not_loaded(0, 0, line_of(1)));
        CHECK(through(2, NULL, 0, 0) == R(IHEX_OUTSIDE_WINDOW) && not_loaded(0, 0, line_of(1)));
        begin_text(kind);
        data(5, "");
        end();
        CHECK(through(2, NULL, 0, 11) == IHEX_OK && a.value == 1 && no_other_start() && left("...........", ""));
        begin_text(kind);
        end();
        CHECK(through(1, NULL, 0, 11) == IHEX_OK && a.value == 0 && no_other_start() && left("...........", ""));
        CHECK(through(1, NULL, 0, 0) == IHEX_OK && a.value == 0 && left("", ""));
    }
}

/* an empty window inside another takes nothing from it, before it and after it in the table */
static void empty_windows(void)
{
    static const window rows[] = {{1, 4, 0, 4}, {1, 0, 8, 0}, {1, 4, 0, 8}, {2, 4, 0, 2}};
    for (kind = INTEL; kind <= SRECORDS; kind++) {
        begin_text(kind);
        data(3, "\x11\x22\x33");
        end();
        CHECK(through(1, rows, COUNT(rows), 8) == IHEX_OK && a.value == 1 && left("00011100", "\x11\x22\x33"));
        CHECK(through(2, rows, COUNT(rows), 8) == R(IHEX_OUTSIDE_WINDOW) && not_loaded(3, 0, line_of(1)));
    }
}

/* only the owner's places change: nobody's, the other owner's and the unused bits stay, whatever they hold */
static void own_places(void)
{
    static const window rows[] = {{1, 0x100, 3, 6}, {2, 0x100, 2, 1}, {1, 0x200, 1, 4}};
    for (kind = INTEL; kind <= SRECORDS; kind++) {
        begin_text(kind);
        end();
        CHECK(through(1, rows, COUNT(rows), 11) == IHEX_OK && left("....0.000..", ""));
        CHECK(through(2, rows, COUNT(rows), 11) == IHEX_OK && left(".00........", ""));
        begin_text(kind);
        data(0x101, "\x11");
        end();
        CHECK(through(1, rows, COUNT(rows), 11) == IHEX_OK && left("....0.010..", "\x11"));
        CHECK(through(2, rows, COUNT(rows), 11) == IHEX_OK && left(".01........", "\x11"));
        begin_text(kind);
        data(0x200, "\x22");
        data(0x100, "\x33\x44\x55");
        data(0x101, "\x66");
        end();
        CHECK(through(1, rows, COUNT(rows), 11) == IHEX_OK && a.value == 3 && left("....1.111..", "\x22\x33\x66\x55"));
        CHECK(through(2, rows, COUNT(rows), 11) == R(IHEX_OUTSIDE_WINDOW) && not_loaded(0x200, 0, line_of(1)));
    }
}

/* a record in two windows, in three, and from the last address to the first */
static void spans(void)
{
    static const window near[] = {{1, 100, 4, 4}, {1, 104, 2, 0}}, far[] = {{2, 0xFFFFFFFE, 2, 3}, {2, 0, 2, 0}};
    static const window three[] = {{1, 0x12, 2, 0}, {1, 0x10, 2, 4}, {2, 0x14, 2, 2}, {1, 0x14, 1, 7}};
    for (kind = INTEL; kind <= SRECORDS; kind++) {
        begin_text(kind);
        data(103, "\x11\x22\x33");
        end();
        CHECK(through(1, near, 2, 8) == IHEX_OK && left("11..0001", "\x22\x33\x11"));
        begin_text(kind);
        data(102, "\x11\x22\x33\x44\x55");
        end();
        CHECK(through(1, near, 2, 8) == R(IHEX_OUTSIDE_WINDOW) && not_loaded(106, 0, line_of(1)));
        begin_text(kind);
        data(0xFFFFFFFF, "\x11\x22");
        end();
        CHECK(through(2, far, 2, 5) == IHEX_OK && left("10.01", "\x22\x11"));
        CHECK(through(2, far, 1, 5) == R(IHEX_OUTSIDE_WINDOW) && not_loaded(0, 0, line_of(1)));
        CHECK(through(2, far + 1, 1, 5) == R(IHEX_OUTSIDE_WINDOW) && not_loaded(0xFFFFFFFF, 0, line_of(1)));
        begin_text(kind);
        data(0x10, "\x11\x22\x33\x44\x55");
        end();
        CHECK(through(1, three, 4, 8) == IHEX_OK && left("11..11.1", "\x33\x44\x11\x22\x55"));
        CHECK(through(1, three, 3, 8) == R(IHEX_OUTSIDE_WINDOW) && not_loaded(0x14, 0, line_of(1)));
    }
}

/* Intel's segments: a record goes on at its segment's start */
static void segments(void)
{
    static const window rows[] = {{1, 0xFFFF, 1, 0}, {1, 0, 1, 5}, {2, 0x12000, 2, 1}, {2, 0x21FFF, 1, 4}};
    begin_text(INTEL);
    strcpy(text, ":02FFFF00AABB9B\n:00000001FF\n");
    CHECK(through(1, rows, 4, 6) == IHEX_OK && a.value == 1 && left("1....1", "\xAA\xBB"));
    CHECK(through(2, rows, 4, 6) == R(IHEX_OUTSIDE_WINDOW) && not_loaded(0xFFFF, 0, 1));
    strcpy(text, ":020000021200EA\n:03FFFF00AABBCCCE\n:00000001FF\n");
    CHECK(through(2, rows, 4, 6) == IHEX_OK && left(".11.1.", "\xBB\xCC\xAA"));
    strcpy(text, ":020000040001F9\n:02FFFF00AABB9B\n:00000001FF\n");
    CHECK(through(2, rows, 4, 6) == R(IHEX_OUTSIDE_WINDOW) && not_loaded(0x1FFFF, 0, 2));
}

/* 16 windows of two addresses each, in the pool in another order: window i at place 2 * (7 * i modulo 16) */
static size_t mixed(size_t i)
{
    return 2 * (7 * i % IHEX_MOST_WINDOWS);
}

/* what a load leaves in the pool and says of it; byte i of the walk is i + 1 */
static int walked(size_t step)
{
    char places[33], bytes[33];
    size_t i, k;
    memset(places, '.', 32);
    places[32] = 0;
    for (i = 0; i < IHEX_MOST_WINDOWS; i += step)
        for (k = 0; k < 2; k++) {
            places[mixed(i) + k] = '1';
            bytes[mixed(i) + k] = (char)(2 * i + k + 1);
        }
    for (i = k = 0; i < 32; i++)
        if (places[i] == '1')
            bytes[k++] = bytes[i];
    bytes[k] = 0;
    return left(places, bytes);
}

/* a text that walks through all windows: record by record through windows apart, and by one record where they touch; then those of one
 * owner alone, with the other's between them */
static void walks(void)
{
    window rows[IHEX_MOST_WINDOWS];
    char bytes[33];
    size_t i, apart;
    for (i = 0; i < 32; i++)
        bytes[i] = (char)(i + 1);
    bytes[32] = 0;
    for (kind = INTEL; kind <= SRECORDS; kind++)
        for (apart = 0; apart < 2; apart++) {
            for (i = 0; i < COUNT(rows); i++)
                rows[i] = WINDOW(1, (uint32_t)(apart ? 0x01230000u * i + 1 : 0x1000 + 2 * i), 2, mixed(i));
            begin_text(kind);
            for (i = 0; i < COUNT(rows) && apart; i++) {
                char two[] = {bytes[2 * i], bytes[2 * i + 1], 0};
                data(rows[i].first, two);
            }
            if (!apart)
                data(0x1000, bytes);
            end();
            CHECK(through(1, rows, COUNT(rows), 32) == IHEX_OK && a.value == (apart ? 16 : 1) && walked(1));
            CHECK(through(2, rows, COUNT(rows), 32) == R(IHEX_OUTSIDE_WINDOW) && not_loaded(rows[0].first, 0, line_of(1)));
            for (i = 1; i < COUNT(rows); i += 2)
                rows[i].owner = 2;
            CHECK(through(1, rows, COUNT(rows), 32) == R(IHEX_OUTSIDE_WINDOW) && not_loaded(rows[1].first, 0, line_of(apart ? 2 : 1)));
            begin_text(kind);
            for (i = 0; i < COUNT(rows); i += 2) {
                char two[] = {bytes[2 * i], bytes[2 * i + 1], 0};
                data(rows[i].first, two);
            }
            end();
            CHECK(through(1, rows, COUNT(rows), 32) == IHEX_OK && a.value == 8 && walked(2));
        }
}

/* a full pool in one window and in 16 */
static void full_pool(void)
{
    window rows[IHEX_MOST_WINDOWS];
    size_t n, i;
    begin_text(INTEL);
    data(0xFFFF, "\x11\x22");
    data(0x7FFF, "\x33");
    end();
    for (n = 1; n <= IHEX_MOST_WINDOWS; n += 15) {
        size_t part = MOST_POOL / n;
        for (i = 0; i < n; i++)
            rows[i] = WINDOW(2, (uint32_t)(i * part + 1), part, (n - 1 - i) * part);
        CHECK(through(2, rows, n, MOST_POOL) == IHEX_OK && a.value == 2);
        for (i = 0; i < MOST_POOL; i++) {
            size_t address = (n - 1 - i / part) * part + i % part + 1;
            int is = address == 0xFFFF ? 0x11 : address == 0x10000 ? 0x22 : address == 0x7FFF ? 0x33 : -1;
            if (unpacked(marks_.all + EDGE, i) != (is >= 0) || page_.all[EDGE + i] != (is >= 0 ? is : OLD))
                break;
        }
        CHECK(i == MOST_POOL);
    }
}

/* every refusal that decides in the text changes nothing, with windows of both owners */
static void refusals(void)
{
    static const window rows[] = {{1, 0, 4, 5}, {2, 8, 4, 0}, {1, 0x10000, 1, 4}};
    static const struct {
        int kind;
        const char *text;
        uint32_t why;
        uint64_t a, b;
        size_t line;
    } all[] = {
        {INTEL, ":0100000011EE\n", IHEX_MISSING_END_OF_FILE_RECORD, 0, 0, 0},
        {INTEL, "", IHEX_MISSING_END_OF_FILE_RECORD, 0, 0, 0},
        {INTEL, ":0100000011EE\nx\n:00000001FF\n", IHEX_MISSING_START_CODE, 0, 0, 2},
        {INTEL, ":0100000011EE\n\n:G\n:00000001FF\n", IHEX_CONTAINS_INVALID_CHARACTERS, 1, 0, 3},
        {INTEL, ":0100000011EE\n:00000001FE\n", IHEX_CHECKSUM_MISMATCH, 0xFF, 0xFE, 2},
        {INTEL, ":0100000011EE\n:0100080011E6\n:00000001FF\n", IHEX_OUTSIDE_WINDOW, 8, 0, 2},
        {INTEL, ":020003001122C8\n:00000001FF\n", IHEX_OUTSIDE_WINDOW, 4, 0, 1},
        {INTEL, ":04000005000000CD2A\n:0100000011EE\n:04000005000000CE29\n:00000001FF\n", IHEX_START_CONFLICT, 0, 0, 3},
        {SRECORDS, "S104000011EA\n", IHEX_MISSING_END_OF_FILE_RECORD, 0, 0, 0},
        {SRECORDS, "S104000011EA\n:00000001FF\nS9030000FC\n", IHEX_MISSING_START_CODE, 0, 0, 2},
        {SRECORDS, "S104000011EA\nS104000811E2\nS9030000FC\n", IHEX_OUTSIDE_WINDOW, 8, 0, 2},
        {SRECORDS, "S104000011EA\nS5030002FA\nS9030000FC\n", IHEX_COUNT_MISMATCH, 2, 1, 2},
        {SRECORDS, "S6030000FC\nS9030000FC\n", IHEX_UNSUPPORTED_RECORD_TYPE, 6, 0, 1},
    };
    size_t i;
    for (i = 0; i < COUNT(all); i++) {
        begin_text(all[i].kind);
        strcpy(text, all[i].text);
        CHECK(through(1, rows, COUNT(rows), 11) == R(all[i].why) && not_loaded(all[i].a, all[i].b, all[i].line));
    }
}

/* a start is told as without a table, and what follows the line at which the load stops changes nothing */
static void starts_and_ends(void)
{
    static const window row = {1, 0, 4, 1};
    static const char *const rests[] = {"", ":0100000099 66\n", "x\n", ":04000005000000CE29\n", "S1040000996 2\n"};
    size_t i;
    for (i = 0; i < COUNT(rests); i++) {
        begin_text(INTEL);
        sprintf(text, ":0100020011EC\n:04000005000000CD2A\n:00000001FF\n%s", rests[i]);
        CHECK(through(1, &row, 1, 6) == IHEX_OK && starts(IHEX_START_LINEAR_ADDRESS, 0xCD, 0) && a.value == 1 && left(".0010.", "\x11"));
        sprintf(text, ":0400000312000010D7\n:00000001FF\n%s", rests[i]);
        CHECK(through(1, &row, 1, 6) == IHEX_OK && starts(IHEX_START_SEGMENT_ADDRESS, 0x1200, 0x10) && left(".0000.", ""));
        sprintf(text, ":0100020011EC\n:00000001FE\n%s", rests[i]);
        CHECK(through(1, &row, 1, 6) == R(IHEX_CHECKSUM_MISMATCH) && not_loaded(0xFF, 0xFE, 2));
        begin_text(SRECORDS);
        sprintf(text, "S104000211E8\nS5030001FB\nS8041234565F\n%s", rests[i]);
        CHECK(through(1, &row, 1, 6) == IHEX_OK && starts(IHEX_START_LINEAR_ADDRESS, 0x123456, 0) && a.value == 1 && left(".0010.", "\x11"));
    }
}

/* ---- by chance */

/* a text of a few records from a small address on, mostly one that is accepted */
static void draw_text(uint32_t first, uint32_t addresses)
{
    char bytes[9];
    uint32_t records = draw(5);
    size_t i;
    begin_text(draw(2) ? INTEL : SRECORDS);
    while (records-- > 0) {
        size_t n = draw(9);
        for (i = 0; i < n; i++)
            bytes[i] = (char)(1 + draw(255));
        bytes[n] = 0;
        data(first + draw(addresses), bytes);
    }
    if (draw(12) == 0)
        strcat(text, "x\n");
    if (draw(12) > 0)
        end();
}

/* one window that fills the pool: the load is that of the one-window loader, but for the unused bits */
static void as_one_window(void)
{
    int round;
    for (round = 0; round < 3000; round++) {
        static uint8_t pool[40], bits[5];
        size_t places = draw(40), p;
        uint32_t first = draw(3) ? draw(40) : (uint32_t)(0xFFFFFFD8u + draw((uint32_t)(41 - places)));
        window row = {1 + draw(2), first, places, 0};
        struct answer is;
        begin_case();
        draw_text(first - draw(4), (uint32_t)places + 4);
        is = answered(through(row.owner, &row, 1, places));
        memcpy(pool, page_.all + EDGE, places);
        memcpy(bits, marks_.all + EDGE, packed_len(places));
        loader = kind == INTEL ? ihex_load : ihex_load_srecords;
        CHECK(alike(is, answered(load(text, first, places))) && memcmp(pool, page_.all + EDGE, places) == 0);
        for (p = 0; p < 8 * packed_len(places); p++) {
            uint8_t old = OLD;
            int wanted = p < places ? unpacked(marks_.all + EDGE, p) : unpacked(&old, p % 8);
            CHECK(unpacked(bits, p) == wanted);
        }
        end_case();
    }
}

/* the buffers of a one-window loader of one owner, and the window that stands for them in the pool */
struct alone {
    window row;
    uint8_t page[16], marks[2];
};

/* before the first load they hold what the pool and its marks hold at the window's places */
static void begin_alone(struct alone *own, window row)
{
    uint8_t old = OLD;
    size_t p;
    memset(own, 0, sizeof *own);
    own->row = row;
    for (p = 0; p < row.length; p++) {
        own->page[p] = OLD;
        own->marks[p / 8] |= (uint8_t)(unpacked(&old, (row.place + p) % 8) << p % 8);
    }
}

/* whether an owner's window in the pool holds what its own loader holds */
static int agree(const struct alone *own)
{
    size_t p;
    for (p = 0; p < own->row.length; p++) {
        size_t place = own->row.place + p;
        if (page_.all[EDGE + place] != own->page[p] || unpacked(marks_.all + EDGE, place) != unpacked(own->marks, p))
            return 0;
    }
    return 1;
}

/* one load by an owner: through the table that is spelt, and by its own loader, both upon what they hold */
static void one_turn(struct alone *own, size_t table_len)
{
    const window *row = &own->row;
    size_t places = row->length;
    struct answer is;
    uint32_t code;
    draw_text(row->first - draw(3), (uint32_t)places + 3);
    is = answered(load_through(row->owner, table_len));
    loader = kind == INTEL ? ihex_load : ihex_load_srecords;
    code = loader((const uint8_t *)text, strlen(text), row->first, own->page, places, own->marks, packed_len(places), &line.value,
                  &started.value, &a.value, &b.value, &c.value);
    CHECK(alike(is, answered(code)));
}

/* a row of loads by two owners in turn by chance: each owner's places are what its own loader leaves, and the others stay */
static void two_in_turn(void)
{
    int round;
    for (round = 0; round < 1000; round++) {
        size_t places = 1 + draw(16), others = 1 + draw(16), before = draw(3), between = draw(4), p, i;
        size_t second = before + places + between;
        const window rows[] = {{1, draw(30), places, before}, {2, draw(30), others, second}};
        struct alone own[2];
        uint8_t old = OLD;
        size_t table_len = spell(rows, 2);
        begin_alone(own, rows[0]);
        begin_alone(own + 1, rows[1]);
        begin_case();
        lend(&page_, second + others + draw(3));
        lend(&marks_, packed_len(page_.len));
        for (i = 0; i < 6; i++) {
            one_turn(own + draw(2), table_len);
            CHECK(agree(own) && agree(own + 1));
        }
        for (p = 0; p < 8 * marks_.len; p++)
            if (p < before || (p >= before + places && p < second) || p >= second + others)
                CHECK(unpacked(marks_.all + EDGE, p) == unpacked(&old, p % 8) && (p >= page_.len || page_.all[EDGE + p] == OLD));
        end_case();
    }
}

/* what one owner loads reads back through the one-window loader: the two kinds of load hold their places alike */
static void beside_the_loader(void)
{
    static const window row = {2, 0x12000, 8, 0};
    loader = ihex_load;
    begin_text(INTEL);
    strcpy(text, ":020000021200EA\n:010005007783\n:00000001FF\n:0100050011E9\n");
    CHECK(through(2, &row, 1, 8) == IHEX_OK && loaded(1, "00000100", 5, "\x77"));
    CHECK(load(text, 0x12000, 8) == IHEX_OK && loaded(1, "00000100", 5, "\x77"));
    CHECK(through(1, &row, 1, 8) == R(IHEX_OUTSIDE_WINDOW) && values(0x12005, 0, 0) && not_loaded(0x12005, 0, 2));
    CHECK(load(text, 0x12006, 8) == R(IHEX_OUTSIDE_WINDOW) && not_loaded(0x12005, 0, 2));
}

int main(void)
{
    the_struct();
    single_windows();
    ends_and_sums();
    pools_and_marks();
    how_many();
    overlaps();
    each_two();
    every_small_pair();
    without_windows();
    empty_windows();
    own_places();
    spans();
    segments();
    walks();
    full_pool();
    refusals();
    starts_and_ends();
    as_one_window();
    two_in_turn();
    beside_the_loader();
    printf("%d passed, %d failed\n", passed, failed);
    return failed != 0;
}
