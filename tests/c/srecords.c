/* Calls the functions of ihex.h for S-records on telling inputs, with guard bytes around every buffer and number that is lent.
 * The last line is 'N passed, M failed'. */
#include "lent.h"
#include "lines.h"
#include <ctype.h>

static const uint8_t types[] = {IHEX_S0, IHEX_S1, IHEX_S2, IHEX_S3, IHEX_S5, IHEX_S7, IHEX_S8, IHEX_S9};

static int is_named(uint32_t type)
{
    return type <= 9 && type != 4 && type != 6;
}

/* how many bytes the address of a type has, and how many bytes of data its record can have */
static size_t width_of(uint32_t type)
{
    return type == 2 || type == 8 ? 3 : type == 3 || type == 7 ? 4 : 2;
}

static size_t most_of(uint32_t type)
{
    return type > 4 ? 0 : 254 - width_of(type);
}

/* ---- lines that are made */

static char made[2 * IHEX_MAX_SRECORD_LINE];

static char *put_byte(char *at, unsigned byte)
{
    return at + sprintf(at, "%02X", byte);
}

/* the line of a record: type, address, data; its checksum makes the low byte of the sum of all bytes FF */
static const char *spell(unsigned type, uint32_t address, const uint8_t *data, size_t n)
{
    size_t i, width = width_of(type);
    unsigned sum = (unsigned)(width + n + 1);
    char *at = put_byte(made + sprintf(made, "S%X", type), sum);
    for (i = 0; i < width; i++) {
        unsigned byte = address >> 8 * (width - 1 - i) & 255;
        at = put_byte(at, byte);
        sum += byte;
    }
    for (i = 0; i < n; i++) {
        at = put_byte(at, data[i]);
        sum += data[i];
    }
    put_byte(at, 255 - sum % 256);
    return made;
}

/* bytes to be data: they go on from byte to byte, and differ from OLD and GUARD at the start */
static const uint8_t *some_bytes(unsigned from)
{
    static uint8_t bytes[300];
    size_t i;
    for (i = 0; i < sizeof bytes; i++)
        bytes[i] = (uint8_t)(from + 3 * i);
    return bytes;
}

/* ---- one line */

/* lines that leave the pool as it was: refused ones, and records that have no data */
static const struct {
    const char *line;
    uint32_t code;
    uint64_t a, b;
} rows[] = {
    {"", R(IHEX_MISSING_START_CODE), 0, 0},
    {":00000001FF", R(IHEX_MISSING_START_CODE), 0, 0},
    {"s9030000FC", R(IHEX_MISSING_START_CODE), 0, 0},
    {" S9030000FC", R(IHEX_MISSING_START_CODE), 0, 0},
    {"9030000FC", R(IHEX_MISSING_START_CODE), 0, 0},
    {"G", R(IHEX_MISSING_START_CODE), 0, 0},
    {"SG", R(IHEX_CONTAINS_INVALID_CHARACTERS), 1, 0},
    {"SS", R(IHEX_CONTAINS_INVALID_CHARACTERS), 1, 0},
    {"S4G", R(IHEX_CONTAINS_INVALID_CHARACTERS), 2, 0},
    {"S1G", R(IHEX_CONTAINS_INVALID_CHARACTERS), 2, 0},
    {"S1030000G", R(IHEX_CONTAINS_INVALID_CHARACTERS), 8, 0},
    {"S9030000FG", R(IHEX_CONTAINS_INVALID_CHARACTERS), 9, 0},
    {"S1 030000FC", R(IHEX_CONTAINS_INVALID_CHARACTERS), 2, 0},
    {"S9030000FC ", R(IHEX_CONTAINS_INVALID_CHARACTERS), 10, 0},
    {"S9030000FC\r", R(IHEX_CONTAINS_INVALID_CHARACTERS), 10, 0},
    {"S9030000FC\n", R(IHEX_CONTAINS_INVALID_CHARACTERS), 10, 0},
    {"S9030000F\xC3\xA9", R(IHEX_CONTAINS_INVALID_CHARACTERS), 9, 0},
    {"S9030000FD:", R(IHEX_CONTAINS_INVALID_CHARACTERS), 10, 0},
    {"S", R(IHEX_RECORD_TOO_SHORT), 0, 0},
    {"S1", R(IHEX_RECORD_TOO_SHORT), 0, 0},
    {"S4", R(IHEX_UNSUPPORTED_RECORD_TYPE), 4, 0},
    {"SA", R(IHEX_UNSUPPORTED_RECORD_TYPE), 10, 0},
    {"Sf", R(IHEX_UNSUPPORTED_RECORD_TYPE), 15, 0},
    {"S6030000FC", R(IHEX_UNSUPPORTED_RECORD_TYPE), 6, 0},
    {"S4030000FD0", R(IHEX_UNSUPPORTED_RECORD_TYPE), 4, 0},
    {"S1030000F", R(IHEX_RECORD_TOO_SHORT), 0, 0},
    {"S103000", R(IHEX_RECORD_TOO_SHORT), 0, 0},
    {"S2030000FC", R(IHEX_RECORD_TOO_SHORT), 0, 0},
    {"S8030000FC", R(IHEX_RECORD_TOO_SHORT), 0, 0},
    {"S3040000FBFB", R(IHEX_RECORD_TOO_SHORT), 0, 0},
    {"S704000000FB", R(IHEX_RECORD_TOO_SHORT), 0, 0},
    {"S9030000FD0", R(IHEX_RECORD_NOT_EVEN_LENGTH), 0, 0},
    {"S9030000FD", R(IHEX_CHECKSUM_MISMATCH), 0xFC, 0xFD},
    {"S1000000FE", R(IHEX_CHECKSUM_MISMATCH), 0xFF, 0xFE},
    {"S904000000FC", R(IHEX_CHECKSUM_MISMATCH), 0xFB, 0xFC},
    {"S1000000FF", R(IHEX_PAYLOAD_LENGTH_MISMATCH), 0, 0},
    {"S1010000FE", R(IHEX_PAYLOAD_LENGTH_MISMATCH), 0, 0},
    {"S1020000FD", R(IHEX_PAYLOAD_LENGTH_MISMATCH), 0, 0},
    {"S1040000FB", R(IHEX_PAYLOAD_LENGTH_MISMATCH), 0, 0},
    {"S903000000FC", R(IHEX_PAYLOAD_LENGTH_MISMATCH), 0, 0},
    {"S904000000FB", R(IHEX_INVALID_LENGTH_FOR_TYPE), 0, 0},
    {"S504000000FB", R(IHEX_INVALID_LENGTH_FOR_TYPE), 0, 0},
    {"S7060000000000F9", R(IHEX_INVALID_LENGTH_FOR_TYPE), 0, 0},
    {"S80500000000FA", R(IHEX_INVALID_LENGTH_FOR_TYPE), 0, 0},
    {"S5030003F9", IHEX_S5, 3, 0},
    {"S503FFFFFE", IHEX_S5, 0xFFFF, 0},
    {"S70512345678E6", IHEX_S7, 0x12345678, 0},
    {"S705FFFFFFFFFE", IHEX_S7, 0xFFFFFFFF, 0},
    {"S80412345FAA", R(IHEX_CHECKSUM_MISMATCH), 0x56, 0xAA},
    {"S804FFFFFFFE", IHEX_S8, 0xFFFFFF, 0},
    {"S9030000FC", IHEX_S9, 0, 0},
    {"S9030000fc", IHEX_S9, 0, 0},
};

static void lines_without_data(void)
{
    size_t i;
    for (i = 0; i < COUNT(rows); i++) {
        CHECK(read_line(rows[i].line, 8, 2) == rows[i].code);
        CHECK(values(rows[i].a, rows[i].b, 0));
        CHECK(untouched(&pool_));
        /* no pool at all, and a position beyond it: none of these is refused for that */
        CHECK(read_line(rows[i].line, 0, 99) == rows[i].code && values(rows[i].a, rows[i].b, 0));
    }
}

static void lines_with_data(void)
{
    static const char line_of_two[] = "S105FFFFAABB97";
    CHECK(read_line(line_of_two, 8, 2) == IHEX_S1 && values(0xFFFF, 2, 2) && holds(&pool_, 2, "\xAA\xBB", 2));
    CHECK(read_line("S105ffffaabb97", 2, 0) == IHEX_S1 && values(0xFFFF, 0, 2) && holds(&pool_, 0, "\xAA\xBB", 2));
    CHECK(read_line("S00600004844521B", 3, 0) == IHEX_S0 && values(0, 0, 3) && holds(&pool_, 0, "HDR", 3));
    CHECK(read_line("S205FFFFFF01FC", 4, 3) == IHEX_S2 && values(0xFFFFFF, 3, 1) && holds(&pool_, 3, "\1", 1));
    CHECK(read_line("S306FFFFFFFF01FC", 1, 0) == IHEX_S3 && values(0xFFFFFFFF, 0, 1) && holds(&pool_, 0, "\1", 1));
    /* a byte short, at each place where that can be; no other byte changes */
    CHECK(read_line(line_of_two, 1, 0) == R(IHEX_POOL_FULL) && values(0, 0, 0) && untouched(&pool_));
    CHECK(read_line(line_of_two, 8, 7) == R(IHEX_POOL_FULL) && values(0, 0, 0) && untouched(&pool_));
    CHECK(read_line(line_of_two, 8, SIZE_MAX) == R(IHEX_POOL_FULL) && untouched(&pool_));
    CHECK(read_line(line_of_two, 0, 0) == R(IHEX_POOL_FULL));
    /* data of no byte has room at the pool's end, and not beyond it */
    CHECK(read_line("S0030001FB", 4, 4) == IHEX_S0 && values(1, 4, 0) && untouched(&pool_));
    CHECK(read_line("S0030000FC", 0, 0) == IHEX_S0 && values(0, 0, 0));
    CHECK(read_line("S0030000FC", 0, 1) == R(IHEX_POOL_FULL) && values(0, 0, 0));
    CHECK(read_line("S1030000FC", 4, 5) == R(IHEX_POOL_FULL));
    CHECK(read_line("S204000000FB", 4, 5) == R(IHEX_POOL_FULL));
    CHECK(read_line("S30500000000FA", 4, 5) == R(IHEX_POOL_FULL));
}

/* 511, 512 and 513 digits after the type, for each type; the pool is judged last */
static void longest_lines(void)
{
    static char digits[700];
    size_t i;
    for (i = 0; i < COUNT(types); i++) {
        memset(digits, '0', sizeof digits);
        digits[0] = 'S';
        digits[1] = (char)('0' + types[i]);
        CHECK(read_bytes(digits, 2 + 511, 300, 0) == R(IHEX_RECORD_NOT_EVEN_LENGTH));
        CHECK(read_bytes(digits, 2 + 512, 300, 0) == R(IHEX_CHECKSUM_MISMATCH) && values(0xFF, 0, 0));
        CHECK(read_bytes(digits, 2 + 513, 300, 0) == R(IHEX_RECORD_TOO_LONG));
        CHECK(read_bytes(digits, 2 + 514, 300, 0) == R(IHEX_RECORD_TOO_LONG) && values(0, 0, 0) && untouched(&pool_));
        digits[513] = 'G';
        CHECK(read_bytes(digits, 2 + 512, 300, 0) == R(IHEX_CONTAINS_INVALID_CHARACTERS) && values(513, 0, 0));
    }
    digits[1] = '4';
    digits[513] = '0';
    CHECK(read_bytes(digits, 602, 300, 0) == R(IHEX_UNSUPPORTED_RECORD_TYPE) && values(4, 0, 0));
    CHECK(strlen(spell(1, 0, some_bytes(0), 252)) == IHEX_MAX_SRECORD_LINE);
}

/* a record of each type with each number of bytes: a pool that they fill, and one that is a byte short. With more bytes than the type can
 * have, the line is too long, and nothing else of it is looked at: its count has three digits */
static void each_length(uint8_t type, size_t n)
{
    size_t most = 254 - width_of(type);
    const char *text = spell(type, 0x1234, some_bytes(1), n);
    const uint8_t *data = some_bytes(1);
    begin_case();
    if (n > most) {
        CHECK(read_line(text, 300, 0) == R(IHEX_RECORD_TOO_LONG));
    } else if (type > 4 && n > 0) {
        CHECK(read_line(text, 300, 0) == R(IHEX_INVALID_LENGTH_FOR_TYPE) && values(0, 0, 0) && untouched(&pool_));
    } else {
        CHECK(read_line(text, n + 1, 1) == type && values(0x1234, type > 4 ? 0 : 1, n) && holds(&pool_, 1, data, n));
        CHECK(read_line(text, n, 0) == type && holds(&pool_, 0, data, n));
        if (n > 0)
            CHECK(read_line(text, n - 1, 0) == R(IHEX_POOL_FULL) && values(0, 0, 0) && untouched(&pool_));
    }
    end_case();
}

static void each_type(void)
{
    size_t i, n;
    for (i = 0; i < COUNT(types); i++)
        for (n = 0; n <= 256 - width_of(types[i]); n++)
            each_length(types[i], n);
}

/* each byte in the place of the type, and each in the place after it */
static void bytes_of_types(void)
{
    int byte;
    for (byte = 0; byte < 256; byte++) {
        char text[] = "S?", more[] = "S9?30000FC";
        int value = isdigit(byte) ? byte - '0' : isxdigit(byte) ? toupper(byte) - 'A' + 10 : -1;
        text[1] = more[2] = (char)byte;
        begin_case();
        CHECK(read_bytes(text, 2, 4, 0) == R(value < 0              ? IHEX_CONTAINS_INVALID_CHARACTERS
                                             : is_named((unsigned)value) ? IHEX_RECORD_TOO_SHORT
                                                                    : IHEX_UNSUPPORTED_RECORD_TYPE));
        CHECK(values(value < 0 ? 1 : is_named((unsigned)value) ? 0 : (uint64_t)value, 0, 0));
        if (value < 0)
            CHECK(read_bytes(more, 10, 4, 0) == R(IHEX_CONTAINS_INVALID_CHARACTERS) && values(2, 0, 0));
        else if (value > 0)
            CHECK(read_bytes(more, 10, 4, 0) == R(IHEX_CHECKSUM_MISMATCH) && values((0xFC - 16 * value) & 0xFF, 0xFC, 0));
        end_case();
    }
}

/* the place of the first byte that is not a digit, up to 65,535 */
static void places_in_lines(void)
{
    static char text[70003];
    static const size_t places[] = {1, 2, 3, 9, 513, 514, 515, 65534, 65535, 65536, 70000};
    size_t i;
    for (i = 0; i < COUNT(places); i++) {
        memset(text, '1', sizeof text - 1);
        text[0] = 'S';
        text[places[i]] = 'G';
        text[places[i] + 1] = ' ';
        CHECK(read_line(text, 8, 0) == R(IHEX_CONTAINS_INVALID_CHARACTERS));
        CHECK(values(places[i] < 65535 ? places[i] : 65535, 0, 0) && untouched(&pool_));
    }
}

/* a wrong digit of the type can be accepted: the checksum does not cover it */
static void wrong_types(void)
{
    CHECK(read_line("S1050000AABB95", 4, 0) == IHEX_S1 && values(0, 0, 2) && holds(&pool_, 0, "\xAA\xBB", 2));
    CHECK(read_line("S2050000AABB95", 4, 0) == IHEX_S2 && values(0xAA, 0, 1) && holds(&pool_, 0, "\xBB", 1));
    CHECK(read_line("S0050000AABB95", 4, 0) == IHEX_S0 && values(0, 0, 2) && holds(&pool_, 0, "\xAA\xBB", 2));
    CHECK(read_line("S3050000AABB95", 4, 0) == IHEX_S3 && values(0xAABB, 0, 0) && untouched(&pool_));
    CHECK(read_line("S7050000AABB95", 4, 0) == IHEX_S7 && values(0xAABB, 0, 0) && untouched(&pool_));
    CHECK(read_line("S5050000AABB95", 4, 0) == R(IHEX_INVALID_LENGTH_FOR_TYPE) && untouched(&pool_));
    CHECK(read_line("S6050000AABB95", 4, 0) == R(IHEX_UNSUPPORTED_RECORD_TYPE) && values(6, 0, 0) && untouched(&pool_));
    CHECK(read_line("S00600004844521B", 4, 0) == IHEX_S0 && values(0, 0, 3) && holds(&pool_, 0, "HDR", 3));
    CHECK(read_line("S10600004844521B", 4, 0) == IHEX_S1 && values(0, 0, 3) && holds(&pool_, 0, "HDR", 3));
    CHECK(read_line("S5030001FB", 4, 0) == IHEX_S5 && values(1, 0, 0) && untouched(&pool_));
    CHECK(read_line("S9030001FB", 4, 0) == IHEX_S9 && values(1, 0, 0) && untouched(&pool_));
}

/* ---- writing */

/* the pool has the bytes from some_bytes(9) */
static uint32_t write_record(uint8_t type, uint32_t address, size_t at, size_t n, size_t pool_len, size_t out_len)
{
    const uint8_t *pool = given(&pool_, some_bytes(9), pool_len);
    uint8_t *out = lend(&out_, out_len);
    uint32_t r;
    fresh();
    r = ihex_to_srecord_string(type, address, at, n, pool, pool_len, out, out_len, &a.value);
    CHECK(same(&pool_, some_bytes(9)) && fenced() && b.value == EDGES);
    return r;
}

static void written_records(void)
{
    CHECK(write_record(IHEX_S1, 0xFFFF, 0, 0, 0, 10) == IHEX_OK && wrote("S103FFFFFE"));
    CHECK(write_record(IHEX_S1, 0, 1, 2, 3, 40) == IHEX_OK && wrote("S10500000C0FDF"));
    CHECK(write_record(IHEX_S0, 1, 3, 0, 3, 40) == IHEX_OK && wrote("S0030001FB"));
    CHECK(write_record(IHEX_S5, 3, 0, 0, 0, 40) == IHEX_OK && wrote("S5030003F9"));
    CHECK(write_record(IHEX_S7, 0xFFFFFFFF, 0, 0, 0, 40) == IHEX_OK && wrote("S705FFFFFFFFFE"));
    CHECK(write_record(IHEX_S8, 0xABCDEF, 0, 0, 0, 40) == IHEX_OK && wrote("S804ABCDEF94"));
    CHECK(write_record(IHEX_S9, 0, 2, 0, 2, 40) == IHEX_OK && wrote("S9030000FC"));
}

/* a written line with its output full, and a byte short; what is read of it is the record again */
static void round_trip(uint8_t type, uint32_t address, size_t n)
{
    static char text[IHEX_MAX_SRECORD_LINE + 1];
    size_t length;
    strcpy(text, spell(type, address, some_bytes(9) + 2, n));
    length = strlen(text);
    begin_case();
    CHECK(write_record(type, address, 2, n, n + 2, length) == IHEX_OK && wrote(text));
    CHECK(write_record(type, address, 2, n, n + 2, length + 9) == IHEX_OK && wrote(text));
    CHECK(write_record(type, address, 2, n, n + 2, length - 1) == R(IHEX_OUTPUT_FULL) && wrote_nothing(0));
    CHECK(write_record(type, address, 2, n, n + 2, 0) == R(IHEX_OUTPUT_FULL) && wrote_nothing(0));
    CHECK(write_record(type, address, 2, n, n + 1, length) == R(IHEX_PAYLOAD_OUTSIDE_POOL) && wrote_nothing(0));
    CHECK(read_line(text, n + 1, 1) == type && values(address, type > 4 ? 0 : 1, n) && holds(&pool_, 1, some_bytes(9) + 2, n));
    end_case();
}

static void round_trips(void)
{
    size_t i, n;
    for (i = 0; i < COUNT(types); i++)
        for (n = 0; n <= most_of(types[i]); n++)
            round_trip(types[i], n % 2 ? 0 : UINT32_MAX >> (32 - 8 * width_of(types[i])), n);
}

/* numbers that are not a type's, whatever else is wrong */
static void bad_types(void)
{
    int type;
    for (type = 0; type < 256; type++)
        if (!is_named((unsigned)type))
            CHECK(write_record((uint8_t)type, UINT32_MAX, 9, 300, 0, 0) == IHEX_BAD_RECORD && wrote_nothing(0));
}

/* each refusal beside the next in the order: 11, 9, 12, 25, 15 */
static void refused_records(void)
{
    CHECK(write_record(IHEX_S9, 0, 1, 0, 0, 40) == R(IHEX_PAYLOAD_OUTSIDE_POOL) && wrote_nothing(0));
    CHECK(write_record(IHEX_S9, 0, 0, 1, 0, 40) == R(IHEX_PAYLOAD_OUTSIDE_POOL) && wrote_nothing(0));
    CHECK(write_record(IHEX_S1, 0, SIZE_MAX, 2, 300, 40) == R(IHEX_PAYLOAD_OUTSIDE_POOL));
    CHECK(write_record(IHEX_S1, 0, 2, SIZE_MAX, 300, 40) == R(IHEX_PAYLOAD_OUTSIDE_POOL));
    CHECK(write_record(IHEX_S1, UINT32_MAX, 0, 300, 299, 0) == R(IHEX_PAYLOAD_OUTSIDE_POOL) && wrote_nothing(0));
    CHECK(write_record(IHEX_S5, 0x10000, 0, 300, 300, 0) == R(IHEX_INVALID_LENGTH_FOR_TYPE) && wrote_nothing(0));
    CHECK(write_record(IHEX_S7, 0, 0, 1, 1, 40) == R(IHEX_INVALID_LENGTH_FOR_TYPE) && wrote_nothing(0));
    CHECK(write_record(IHEX_S0, 0x10000, 0, 253, 253, 0) == R(IHEX_DATA_EXCEEDS_MAXIMUM_LENGTH) && wrote_nothing(253));
    CHECK(write_record(IHEX_S1, 0, 0, 253, 300, 600) == R(IHEX_DATA_EXCEEDS_MAXIMUM_LENGTH) && wrote_nothing(253));
    CHECK(write_record(IHEX_S2, 0, 0, 252, 300, 600) == R(IHEX_DATA_EXCEEDS_MAXIMUM_LENGTH) && wrote_nothing(252));
    CHECK(write_record(IHEX_S3, 0, 0, 251, 300, 600) == R(IHEX_DATA_EXCEEDS_MAXIMUM_LENGTH) && wrote_nothing(251));
    CHECK(write_record(IHEX_S1, 0x10000, 0, 252, 300, 0) == R(IHEX_ADDRESS_TOO_WIDE) && wrote_nothing(0));
    CHECK(write_record(IHEX_S5, 0x10000, 0, 0, 0, 0) == R(IHEX_ADDRESS_TOO_WIDE) && wrote_nothing(0));
    CHECK(write_record(IHEX_S9, 0x10000, 0, 0, 0, 40) == R(IHEX_ADDRESS_TOO_WIDE));
    CHECK(write_record(IHEX_S2, 0x1000000, 0, 251, 300, 0) == R(IHEX_ADDRESS_TOO_WIDE));
    CHECK(write_record(IHEX_S8, UINT32_MAX, 0, 0, 0, 40) == R(IHEX_ADDRESS_TOO_WIDE));
    CHECK(write_record(IHEX_S3, UINT32_MAX, 0, 250, 300, 513) == R(IHEX_OUTPUT_FULL) && wrote_nothing(0));
    CHECK(write_record(IHEX_S3, UINT32_MAX, 0, 250, 300, 514) == IHEX_OK && a.value == 514);
}

/* ---- loads */

static void loads_in_windows(void)
{
    static const char across[] = "S105FFFFAABB97\nS9030000FC\n";
    CHECK(load(across, 0xFFFF, 2) == IHEX_OK && loaded(1, "11", 0, "\xAA\xBB"));
    CHECK(load(across, 0xFFFC, 8) == IHEX_OK && loaded(1, "00011000", 3, "\xAA\xBB"));
    CHECK(load(across, 0, IHEX_MAX_PAGE) == R(IHEX_OUTSIDE_WINDOW) && not_loaded(0x10000, 0, 1));
    CHECK(load(across, 0x10000, 8) == R(IHEX_OUTSIDE_WINDOW) && not_loaded(0xFFFF, 0, 1));
    CHECK(load("S20600FFFFAABB96\nS9030000FC", 0xFFFF, 2) == IHEX_OK && loaded(1, "11", 0, "\xAA\xBB"));
    CHECK(load("S206FFFFFFAABB97\nS9030000FC", 0xFFFFFF, 2) == IHEX_OK && loaded(1, "11", 0, "\xAA\xBB"));
    /* 2^32 wraps, and no window has both ends */
    CHECK(load("S306FFFFFFFFAA53\nS9030000FC", 0xFFFFFFFF, 1) == IHEX_OK && loaded(1, "1", 0, "\xAA"));
    CHECK(load("S307FFFFFFFFAABB97\nS9030000FC", 0xFFFFFFFF, 1) == R(IHEX_OUTSIDE_WINDOW) && not_loaded(0, 0, 1));
    CHECK(load("S307FFFFFFFFAABB97\nS9030000FC", 0, 1) == R(IHEX_OUTSIDE_WINDOW) && not_loaded(0xFFFFFFFF, 0, 1));
    CHECK(load("S307FFFFFFFFAABB97\nS9030000FC", 0xFFFF0000, IHEX_MAX_PAGE) == R(IHEX_OUTSIDE_WINDOW) && not_loaded(0, 0, 1));
    /* the last statement stands; a record without data states nothing, wherever it is */
    CHECK(load("S104000011EA\nS104000022D9\nS9030000FC", 0, 2) == IHEX_OK && loaded(2, "10", 0, "\x22"));
    CHECK(load("S103FFFFFE\nS9030000FC", 0, 2) == IHEX_OK && loaded(1, "00", 0, ""));
    CHECK(load("S9030000FC", 0xFFFFFFFF, 0) == IHEX_OK && loaded(0, "", 0, ""));
    CHECK(load("S104000011EA\nS9030000FC", 0, 0) == R(IHEX_OUTSIDE_WINDOW) && not_loaded(0, 0, 1));
}

/* any end ends any text, and its address is the start; line ends and empty lines are as in Intel HEX, and what follows the end changes nothing */
static void ends_of_texts(void)
{
    static const char *const data[] = {"S104000011EA", "S20500000011E9", "S3060000000011E8"};
    static const struct {
        const char *line;
        uint64_t address;
    } ends[] = {
        {"S9030000FC", 0},           {"S903FFFFFE", 0xFFFF},   {"S9031234B6", 0x1234},         {"S804000000FB", 0},
        {"S8041234565F", 0x123456},  {"S804ffffffFE", 0xFFFFFF}, {"S70500000000FA", 0},        {"S70512345678E6", 0x12345678},
        {"S705FFFFFFFFFE", 0xFFFFFFFF},
    };
    static const char *const behinds[] = {
        "", "\n", "\r\n", "\nS104000122D8\n", "\nx", "\nS5030009F3", "\n:00000001FF\n", "\nS9030000FD\n", "\nS9030001FB\n",
    };
    char text[100];
    size_t i, k, m;
    for (i = 0; i < COUNT(data); i++)
        for (k = 0; k < COUNT(ends); k++)
            for (m = 0; m < COUNT(behinds); m++) {
                begin_case();
                sprintf(text, "%s\n%s%s", data[i], ends[k].line, behinds[m]);
                CHECK(load(text, 0, 3) == IHEX_OK && placed(1, "100", 0, "\x11"));
                CHECK(starts(IHEX_START_LINEAR_ADDRESS, ends[k].address, 0));
                sprintf(text, "\r\n\n%s\r\n\r\n%s%s", data[i], ends[k].line, behinds[m]);
                CHECK(load(text, 0, 3) == IHEX_OK && placed(1, "100", 0, "\x11"));
                CHECK(starts(IHEX_START_LINEAR_ADDRESS, ends[k].address, 0));
                end_case();
            }
    CHECK(load("S104000011EA\n", 0, 2) == R(IHEX_MISSING_END_OF_FILE_RECORD) && not_loaded(0, 0, 0));
    CHECK(load("S5030000FC\n", 0, 2) == R(IHEX_MISSING_END_OF_FILE_RECORD) && not_loaded(0, 0, 0));
    CHECK(load("\r\n\n", 0, 2) == R(IHEX_MISSING_END_OF_FILE_RECORD) && not_loaded(0, 0, 0));
    CHECK(load("", 0, 0) == R(IHEX_MISSING_END_OF_FILE_RECORD) && not_loaded(0, 0, 0));
    CHECK(load("S9030000FC\r", 0, 2) == R(IHEX_CONTAINS_INVALID_CHARACTERS) && not_loaded(10, 0, 1));
    CHECK(load("\r", 0, 2) == R(IHEX_MISSING_START_CODE) && not_loaded(0, 0, 1));
}

/* an S5 is compared with the data records before it: first, twice, in the middle, after an S0 and empty ones */
static void counts_in_texts(void)
{
    static const char none[] = "S5030000FC", one[] = "S5030001FB", two[] = "S5030002FA", end[] = "S9030000FC";
    static const char data[] = "S104000011EA", empty[] = "S1030000FC", header[] = "S004000148B2";
    const struct {
        const char *lines[6];
        uint64_t stated, seen;
        size_t line;
    } refused[] = {
        {{one, end}, 1, 0, 1},
        {{data, none, end}, 0, 1, 2},
        {{data, one, data, one, end}, 1, 2, 4},
        {{header, one, end}, 1, 0, 2},
        {{none, one, end}, 1, 0, 2},
        {{header, data, empty, one, end}, 1, 2, 4},
        {{data, data, data, two, end}, 2, 3, 4},
    }, accepted[] = {
        {{none, end}, 0, 0, 0},
        {{none, none, end}, 0, 0, 0},
        {{data, one, end}, 0, 1, 0},
        {{data, one, one, data, two, end}, 0, 2, 0},
        {{header, data, header, one, end}, 0, 1, 0},
        {{header, empty, empty, two, end}, 0, 2, 0},
        {{empty, data, end}, 0, 2, 0},
    };
    char text[100];
    size_t i, k;
    for (i = 0; i < COUNT(refused); i++) {
        text[0] = 0;
        for (k = 0; k < 6 && refused[i].lines[k]; k++)
            strcat(strcat(text, refused[i].lines[k]), "\n");
        CHECK(load(text, 0, 3) == R(IHEX_COUNT_MISMATCH) && not_loaded(refused[i].stated, refused[i].seen, refused[i].line));
    }
    for (i = 0; i < COUNT(accepted); i++) {
        text[0] = 0;
        for (k = 0; k < 6 && accepted[i].lines[k]; k++)
            strcat(strcat(text, accepted[i].lines[k]), "\n");
        CHECK(load(text, 0, 3) == IHEX_OK && a.value == accepted[i].seen && starts(IHEX_START_LINEAR_ADDRESS, 0, 0));
    }
    /* in the order of the text: a count, a line that is not a record, a byte outside */
    CHECK(load("S5030001FB\nx", 0, 2) == R(IHEX_COUNT_MISMATCH) && not_loaded(1, 0, 1));
    CHECK(load("x\nS5030001FB", 0, 2) == R(IHEX_MISSING_START_CODE) && not_loaded(0, 0, 1));
    CHECK(load("S104FFFF11EC\nS5030005F7", 0, 2) == R(IHEX_OUTSIDE_WINDOW) && not_loaded(0xFFFF, 0, 1));
    CHECK(load("S5030005F7\nS104FFFF11EC", 0, 2) == R(IHEX_COUNT_MISMATCH) && not_loaded(5, 0, 1));
}

/* a count is never taken modulo 65,536 */
static char long_text[65537 * 11 + 100];

static uint32_t load_many(size_t records, const char *last)
{
    size_t i;
    uint8_t *page = lend(&page_, 3), *marks = lend(&marks_, 1);
    for (i = 0; i < records; i++)
        memcpy(long_text + 11 * i, "S1030000FC\n", 11);
    strcpy(long_text + 11 * records, last);
    fresh();
    return ihex_load_srecords((const uint8_t *)long_text, strlen(long_text), 0, page, 3, marks, 1, &line.value, &started.value, &a.value,
                              &b.value, &c.value);
}

static void counts_of_many(void)
{
    CHECK(load_many(65535, "S503FFFFFE\nS9030000FC") == IHEX_OK && loaded(65535, "000", 0, ""));
    CHECK(load_many(65536, "S9030000FC") == IHEX_OK && loaded(65536, "000", 0, ""));
    CHECK(load_many(65536, "S5030000FC\nS9030000FC") == R(IHEX_COUNT_MISMATCH) && not_loaded(0, 65536, 65537));
    CHECK(load_many(65537, "S5030001FB\nS9030000FC") == R(IHEX_COUNT_MISMATCH) && not_loaded(1, 65537, 65538));
}

/* a header is not placed; refusals of lines, with their numbers; kinds of line are not mixed */
static void refused_loads(void)
{
    CHECK(load("S00400FF41BB\nS104000011EA\nS9030000FC", 0, 2) == IHEX_OK && loaded(1, "10", 0, "\x11"));
    CHECK(load("S104000011EA\n\n\r\nS9030000FD\nS9030000FC", 0, 2) == R(IHEX_CHECKSUM_MISMATCH) && not_loaded(0xFC, 0xFD, 4));
    CHECK(load("S6030000FC", 0, 2) == R(IHEX_UNSUPPORTED_RECORD_TYPE) && not_loaded(6, 0, 1));
    CHECK(load("S104000011EA\n:0100000011EE\nS9030000FC", 0, 2) == R(IHEX_MISSING_START_CODE) && not_loaded(0, 0, 2));
    CHECK(load("S104000011EA\ns9030000FC", 0, 2) == R(IHEX_MISSING_START_CODE) && not_loaded(0, 0, 2));
    CHECK(load(":00000001FF\n", 0, 2) == R(IHEX_MISSING_START_CODE) && not_loaded(0, 0, 1));
    CHECK(load("S104000011EA\nS1040000 1EA\n", 0, 2) == R(IHEX_CONTAINS_INVALID_CHARACTERS) && not_loaded(8, 0, 2));
    CHECK(load("S904000000FB\n", 0, 2) == R(IHEX_INVALID_LENGTH_FOR_TYPE) && not_loaded(0, 0, 1));
    CHECK(load("S1000000FF\n", 0, 2) == R(IHEX_PAYLOAD_LENGTH_MISMATCH) && not_loaded(0, 0, 1));
    CHECK(load("S", 0, 2) == R(IHEX_RECORD_TOO_SHORT) && not_loaded(0, 0, 1));
    loader = ihex_load;
    CHECK(load("S9030000FC", 0, 2) == R(IHEX_MISSING_START_CODE) && not_loaded(0, 0, 1));
    loader = ihex_load_srecords;
}

/* the most data of each type is loaded whole */
static void longest_loads(void)
{
    size_t type;
    for (type = 1; type <= 3; type++) {
        char text[IHEX_MAX_SRECORD_LINE + 20];
        size_t n = most_of((unsigned)type);
        sprintf(text, "%s\nS9030000FC", spell((unsigned)type, 0x100, some_bytes(5), n));
        CHECK(load(text, 0x100, n) == IHEX_OK && a.value == 1 && holds(&page_, 0, some_bytes(5), n));
        CHECK(load(text, 0x100, n - 1) == R(IHEX_OUTSIDE_WINDOW) && not_loaded(0x100 + n - 1, 0, 1));
        CHECK(load(text, 0x101, n) == R(IHEX_OUTSIDE_WINDOW) && not_loaded(0x100, 0, 1));
    }
}

static void windows(void)
{
    CHECK(load_with("S9030000FC", 0, 2, 2) == R(IHEX_BAD_WINDOW) && not_loaded(0, 0, 0));
    CHECK(load_with("S9030000FC", 0, 0, 1) == R(IHEX_BAD_WINDOW) && not_loaded(0, 0, 0));
    CHECK(load("x", 0, IHEX_MAX_PAGE + 1) == R(IHEX_BAD_WINDOW) && not_loaded(0, 0, 0));
    CHECK(load("S9030000FC", 0xFFFFFFFF, 2) == R(IHEX_BAD_WINDOW) && not_loaded(0, 0, 0));
    CHECK(load("S9030000FC", 0xFFFF0000, IHEX_MAX_PAGE) == IHEX_OK && a.value == 0 && untouched(&page_));
    CHECK(load("S9030000FC", 0xFFFF0001, IHEX_MAX_PAGE) == R(IHEX_BAD_WINDOW) && not_loaded(0, 0, 0));
}

/* what pool, page and marks held before changes no answer, no byte that is written and no mark; every other byte stays */
static void old_contents(void)
{
    static const char text[] = "S004000148B2\nS105FFFFAABB97\nS5030001FB\nS9030000FC\n";
    uint8_t pool[4], page[4], marks[1];
    int old;
    for (old = 0; old < 256; old++) {
        begin_case();
        memset(pool, old, sizeof pool);
        memset(page, old, sizeof page);
        marks[0] = (uint8_t)old;
        CHECK(ihex_read_srecord((const uint8_t *)"S105FFFFAABB97", 14, pool, 4, 1, &a.value, &b.value, &c.value) == IHEX_S1);
        CHECK(a.value == 0xFFFF && b.value == 1 && c.value == 2);
        CHECK(pool[0] == old && pool[1] == 0xAA && pool[2] == 0xBB && pool[3] == old);
        CHECK(ihex_load_srecords((const uint8_t *)text, sizeof text - 1, 0xFFFE, page, 4, marks, 1, &line.value, &started.value, &a.value,
                                 &b.value, &c.value) == IHEX_OK);
        CHECK(a.value == 1 && starts(IHEX_START_LINEAR_ADDRESS, 0, 0) && marks[0] == 6);
        CHECK(page[0] == old && page[1] == 0xAA && page[2] == 0xBB && page[3] == old);
        marks[0] = (uint8_t)old;
        CHECK(ihex_load_srecords((const uint8_t *)text, 28, 0xFFFE, page, 4, marks, 1, &line.value, &started.value, &a.value, &b.value,
                                 &c.value) == R(IHEX_MISSING_END_OF_FILE_RECORD));
        CHECK(started.value == IHEX_NO_START && page[0] == old && page[1] == 0xAA && marks[0] == old);
        end_case();
    }
}

/* ---- dumps of both kinds, by chance */

#define PLACES 300

static struct {
    uint32_t first, start;
    char intel[20000], srec[20000];
    uint8_t page[PLACES], marks[PLACES];
} dump;

/* a data record of n bytes at a place of the window, in both kinds, and what it leaves */
static void state_both(uint32_t at, size_t n)
{
    uint8_t data[20], sum;
    uint32_t address = dump.first + at;
    size_t i;
    char *text = dump.intel + strlen(dump.intel);
    text += sprintf(text, ":02000004%04X%02X\n", address >> 16, -(6 + (address >> 24) + (address >> 16)) & 255);
    sum = (uint8_t)(n + (address >> 8) + address);
    text += sprintf(text, ":%02X%04X00", (unsigned)n, address & 0xFFFF);
    for (i = 0; i < n; i++) {
        data[i] = (uint8_t)draw(256);
        sum = (uint8_t)(sum + data[i]);
        text = put_byte(text, data[i]);
        dump.page[at + i] = data[i];
        dump.marks[at + i] = 1;
    }
    sprintf(text, "%02X\n", -sum & 255);
    strcat(strcat(dump.srec, spell(address < 0x10000 ? 1 + draw(3) : address < 0x1000000 ? 2 + draw(2) : 3, address, data, n)), "\n");
}

/* the start of both kinds: a type 05, and an end of this type */
static void state_start(unsigned type)
{
    uint32_t start = draw(4) ? draw(UINT32_MAX) >> (32 - 8 * width_of(type)) : 0;
    unsigned sum = 9 + (start >> 24) + (start >> 16) + (start >> 8) + start;
    sprintf(dump.intel + strlen(dump.intel), ":04000005%08lX%02X\n", (unsigned long)start, -sum & 255);
    strcat(strcat(dump.srec, spell(type, start, NULL, 0)), "\n");
    dump.start = start;
}

static void draw_dump(void)
{
    static const uint32_t firsts[] = {0, 0xFFFF - 150, 0xFFFFFF - 150, UINT32_MAX - PLACES + 1, 0x12345678};
    uint32_t records = draw(9), k, n;
    dump.first = firsts[draw(5)];
    memset(dump.page, OLD, PLACES);
    memset(dump.marks, 0, PLACES);
    dump.intel[0] = 0;
    strcpy(dump.srec, draw(2) ? "S004000148B2\n" : "");
    for (k = 1; k <= records; k++) {
        n = draw(20);
        state_both(draw(PLACES + 1 - n), n);
        if (draw(4) == 0)
            strcat(strcat(dump.srec, spell(5, k, NULL, 0)), "\n");
    }
    state_start(7 + draw(3));
    strcat(dump.intel, ":00000001FF\n");
}

/* whether the start, page and marks are what the dump states over a page of OLD */
static int leaves_the_dump(void)
{
    size_t p;
    if (!starts(IHEX_START_LINEAR_ADDRESS, dump.start, 0) || !guarded(&page_) || !guarded(&marks_))
        return 0;
    for (p = 0; p < PLACES; p++)
        if (page_.all[EDGE + p] != dump.page[p] || unpacked(marks_.all + EDGE, p) != dump.marks[p])
            return 0;
    return marks_.all[EDGE + PLACES / 8] >> PLACES % 8 == 0;
}

/* both kinds leave the same start, page and marks; text after the end, and what the marks held, changes nothing */
static void dumps_of_both_kinds(void)
{
    int i;
    size_t n;
    for (i = 0; i < 2000; i++) {
        uint64_t count;
        draw_dump();
        begin_case();
        loader = ihex_load;
        CHECK(load(dump.intel, dump.first, PLACES) == IHEX_OK && leaves_the_dump());
        count = a.value;
        loader = ihex_load_srecords;
        CHECK(load(dump.srec, dump.first, PLACES) == IHEX_OK && leaves_the_dump() && a.value == count);
        for (n = strlen(dump.srec); draw(9) > 0; n++) {
            dump.srec[n] = "S105FFFFAABB97\n:x\r 9"[draw(20)];
            dump.srec[n + 1] = 0;
        }
        memset(lend(&marks_, IHEX_MARKS(PLACES)), (int)draw(256), IHEX_MARKS(PLACES));
        CHECK(load_upon(dump.srec, dump.first, PLACES, IHEX_MARKS(PLACES)) == IHEX_OK && leaves_the_dump() && a.value == count);
        end_case();
    }
}

/* a dump with one wrong digit that is not a type's, and the dump without its end: refused, and no byte changes */
static void damaged_dumps(void)
{
    int i;
    for (i = 0; i < 2000; i++) {
        size_t n, at;
        char was;
        draw_dump();
        n = strlen(dump.srec);
        do
            at = draw((uint32_t)n);
        while (dump.srec[at] == '\n' || dump.srec[at] == 'S' || (at > 0 && dump.srec[at - 1] == 'S'));
        was = dump.srec[at];
        dump.srec[at] = was == '7' ? '8' : '7';
        begin_case();
        CHECK(load(dump.srec, dump.first, PLACES) == R(IHEX_CHECKSUM_MISMATCH));
        CHECK(untouched(&page_) && untouched(&marks_) && a.value != b.value && line.value > 0);
        dump.srec[at] = was;
        for (n--; n > 0 && dump.srec[n - 1] != '\n'; n--)
            continue;
        dump.srec[n] = 0;
        CHECK(load(dump.srec, dump.first, PLACES) == R(IHEX_MISSING_END_OF_FILE_RECORD) && not_loaded(0, 0, 0));
        end_case();
    }
}

int main(void)
{
    reader = ihex_read_srecord;
    loader = ihex_load_srecords;
    usual_start = IHEX_START_LINEAR_ADDRESS;
    lines_without_data();
    lines_with_data();
    longest_lines();
    each_type();
    bytes_of_types();
    places_in_lines();
    wrong_types();
    written_records();
    round_trips();
    bad_types();
    refused_records();
    loads_in_windows();
    ends_of_texts();
    counts_in_texts();
    counts_of_many();
    refused_loads();
    longest_loads();
    windows();
    old_contents();
    dumps_of_both_kinds();
    damaged_dumps();
    printf("%d passed, %d failed\n", passed, failed);
    return failed != 0;
}
