/* Calls ihex_salvage on telling captures, with guard bytes around every buffer and number that is lent, and loads what it saves.
 * The last line is 'N passed, M failed'. */
#include "lent.h"
#include "lines.h"
#include "low.h"
#include "refused.h"

LENT(list_, MOST);

/* ---- a salvage */

/* what a capture should come to: the clean file, and the list */
static char clean[MOST];
static struct ihex_dropped dropped[MOST / IHEX_DROPPED_SIZE];
static size_t entries;

/* the bytes of those entries, each number low byte first */
static uint8_t bytes_of_list[MOST];

static size_t list_len(void)
{
    uint8_t *at = bytes_of_list;
    size_t i;
    for (i = 0; i < entries; i++)
        at = put(put(put(put(at, dropped[i].why, 4), dropped[i].a, 2), dropped[i].b, 2), dropped[i].line, 8);
    return (size_t)(at - bytes_of_list);
}

static void lists(uint32_t why, uint16_t x, uint16_t y, uint64_t number)
{
    struct ihex_dropped entry;
    entry.why = why;
    entry.a = x;
    entry.b = y;
    entry.line = number;
    dropped[entries++] = entry;
}

/* begins what a capture should come to: this file, and no entry yet */
static void should(const char *file)
{
    strcpy(clean, file);
    entries = 0;
}

static uint32_t salvage(const void *text, size_t n, size_t out_len, size_t room)
{
    const uint8_t *bytes = given(&text_, text, n);
    uint8_t *out = lend(&out_, out_len), *list = lend(&list_, room);
    uint32_t r;
    fresh();
    r = ihex_salvage(bytes, n, out, out_len, list, room, &a.value, &b.value);
    CHECK(same(&text_, text));
    return r;
}

/* two numbers and nothing beside them: there is no third */
static int refused(void)
{
    return values(0, 0, EDGES) && wrote_nothing(0) && untouched(&list_);
}

/* the capture comes to that, whatever the room beyond it */
static int saves(const void *text, size_t n, size_t more_out, size_t more_list)
{
    size_t length = strlen(clean), room = list_len();
    return salvage(text, n, length + more_out, room + more_list) == IHEX_OK && values(length, entries, EDGES) && wrote(clean) &&
           holds(&list_, 0, bytes_of_list, room);
}

/* The capture comes to the file and the list that it should: with room that is exactly full, and with more. One byte less of output is 15,
 * with any list; one byte less of list is 22. And the clean file comes to itself, with nothing dropped. */
static void comes_to_bytes(const void *text, size_t n)
{
    static char again[MOST];
    size_t length = strlen(clean), room = list_len(), short_of;
    begin_case();
    CHECK(saves(text, n, 0, 0));
    CHECK(saves(text, n, 1, 1) && saves(text, n, 30, 15) && saves(text, n, 0, 16) && saves(text, n, 12, 40));
    CHECK(n + 13 >= length && saves(text, n, n + 13 - length, 0));
    CHECK(salvage(text, n, length - 1, room) == R(IHEX_OUTPUT_FULL) && refused());
    CHECK(salvage(text, n, length - 1, room + 16) == R(IHEX_OUTPUT_FULL) && refused());
    CHECK(salvage(text, n, 0, 0) == R(IHEX_OUTPUT_FULL) && refused());
    for (short_of = 1; short_of <= room && short_of < 40; short_of++) {
        CHECK(salvage(text, n, length, room - short_of) == R(IHEX_LIST_FULL) && refused());
        CHECK(salvage(text, n, length + 5, room - short_of) == R(IHEX_LIST_FULL) && refused());
        CHECK(salvage(text, n, length - 1, room - short_of) == R(IHEX_OUTPUT_FULL) && refused());
    }
    entries = 0;
    strcpy(again, clean);
    CHECK(saves(again, length, 0, 0) && saves(again, length, 7, 33));
    end_case();
}

static void comes_to(const char *text)
{
    comes_to_bytes(text, strlen(text));
}

/* ---- by name: the lines of the decisions */

#define END ":00000001FF\n"
#define DATA ":0100000011EE\n"
#define SEGMENT ":020000021200EA\n"
#define LINEAR ":020000040001F9\n"
#define START ":04000005000000CD2A\n"
#define ADDED IHEX_MISSING_END_OF_FILE_RECORD, 0, 0, 0

static void undamaged(void)
{
    should(END);
    comes_to(END);
    comes_to(":00000001FF");
    comes_to(":00123401b9\r\n");
    comes_to("\n\r\n" END "\n");
    should(SEGMENT DATA LINEAR DATA START END);
    comes_to(SEGMENT DATA LINEAR DATA START END);
    comes_to(":020000021200ea\r\n:0100000011ee\r\n:020000040001f9\r\n:0100000011Ee\r\n:04000005000000cd2a\r\n:00000001ff\r\n");
    /* what follows the end is not read */
    should(DATA END);
    comes_to(DATA END "x\n");
    comes_to(DATA END ":00000001FE\n" DATA);
    comes_to(DATA END END);
    /* two starts that differ are both kept */
    should(START ":04000005000000CE29\n" ":0400000300003800C1\n" END);
    comes_to(START ":04000005000000CE29\n" ":0400000300003800C1\n" END);
    /* so is an empty data record */
    should(":0000000000\n" END);
    comes_to(":0000000000\n" END);
}

static void ends_added(void)
{
    should(END), lists(ADDED);
    comes_to("");
    should(END), lists(ADDED);
    comes_to("\n\n\r\n");
    should(DATA END), lists(ADDED);
    comes_to(":0100000011EE");
    should(DATA END), lists(ADDED);
    comes_to(DATA "\n");
    should(DATA END), lists(IHEX_MISSING_START_CODE, 0, 0, 2), lists(ADDED);
    comes_to(DATA "x");
    should(DATA END), lists(IHEX_CHECKSUM_MISMATCH, 0xFF, 0xFE, 3), lists(ADDED);
    comes_to(DATA "\n:00000001FE\n\n");
    /* a CR without LF belongs to the line */
    should(DATA END), lists(IHEX_CONTAINS_INVALID_CHARACTERS, 11, 0, 2), lists(ADDED);
    comes_to(DATA ":00000001FF\r");
    should(END), lists(IHEX_MISSING_START_CODE, 0, 0, 1), lists(ADDED);
    comes_to("\r");
}

static void bases(void)
{
    static const char *const set[] = {SEGMENT, LINEAR, ":020000040000FA\n", ":020000020000FC\n", ":02123404FFFFB6\n"};
    static const char *const canonical[] = {SEGMENT, LINEAR, ":020000040000FA\n", ":020000020000FC\n", ":02000004FFFFFC\n"};
    char capture[300], kept[300];
    size_t i;
    /* the base is known at the beginning; a banner makes it unknown */
    should(END), lists(IHEX_MISSING_START_CODE, 0, 0, 1), lists(IHEX_BASE_UNKNOWN, 0, 0, 2), lists(IHEX_BASE_UNKNOWN, 0, 0, 3);
    comes_to("x\n" DATA DATA END);
    /* an empty data record is dropped too, and makes nothing known */
    should(END), lists(IHEX_MISSING_START_CODE, 0, 0, 1), lists(IHEX_BASE_UNKNOWN, 0, 0, 2), lists(IHEX_BASE_UNKNOWN, 0, 0, 3);
    comes_to("x\n:0000000000\n" DATA END);
    /* a start is kept, and makes nothing known */
    should(START END), lists(IHEX_MISSING_START_CODE, 0, 0, 1), lists(IHEX_BASE_UNKNOWN, 0, 0, 3);
    comes_to("x\n" START DATA END);
    should(":0400000300003800C1\n" END), lists(IHEX_MISSING_START_CODE, 0, 0, 1), lists(IHEX_BASE_UNKNOWN, 0, 0, 3);
    comes_to("x\n:0400000300003800C1\n" DATA END);
    for (i = 0; i < COUNT(set); i++) {
        sprintf(capture, "%s:G\n%s%s%s%sx\n%s%s", DATA, DATA, set[i], DATA, DATA, DATA, END);
        sprintf(kept, "%s%s%s%s%s", DATA, canonical[i], DATA, DATA, END);
        should(kept);
        lists(IHEX_CONTAINS_INVALID_CHARACTERS, 1, 0, 2);
        lists(IHEX_BASE_UNKNOWN, 0, 0, 3);
        lists(IHEX_MISSING_START_CODE, 0, 0, 7);
        lists(IHEX_BASE_UNKNOWN, 0, 0, 8);
        comes_to(capture);
    }
    /* an extension record that is refused makes nothing known */
    should(LINEAR DATA END), lists(IHEX_CHECKSUM_MISMATCH, 0xF9, 0xF8, 3), lists(IHEX_BASE_UNKNOWN, 0, 0, 4);
    comes_to(LINEAR DATA ":020000040001F8\n" DATA END);
    should(DATA SEGMENT DATA END), lists(IHEX_INVALID_LENGTH_FOR_TYPE, 0, 0, 2), lists(IHEX_BASE_UNKNOWN, 0, 0, 3);
    comes_to(DATA ":0100000401FA\n" DATA SEGMENT DATA END);
}

/* Each refusal of a line, with its values, at a line that is not the first. */
static void refusals(void)
{
    static char capture[70100], line_of_digits[70001];
    static const size_t places[] = {255, 256, 257, 521, 522, 65534, 65535, 65536, 69999};
    size_t i;
    for (i = 0; i < COUNT(bad_lines); i++) {
        sprintf(capture, "%s\n%s\n%s%s%s%s", DATA, bad_lines[i].line, DATA, LINEAR, DATA, END);
        should(DATA LINEAR DATA END);
        lists(bad_lines[i].why, bad_lines[i].a, bad_lines[i].b, 3);
        lists(IHEX_BASE_UNKNOWN, 0, 0, 4);
        comes_to(capture);
    }
    for (i = 0; i < COUNT(places); i++) {
        memset(line_of_digits, '0', sizeof line_of_digits - 1);
        line_of_digits[0] = ':';
        line_of_digits[places[i]] = 'G';
        sprintf(capture, "%s\n%s", line_of_digits, END);
        should(END);
        lists(IHEX_CONTAINS_INVALID_CHARACTERS, (uint16_t)(places[i] < 65535 ? places[i] : 65535), 0, 1);
        comes_to(capture);
    }
    memset(line_of_digits, '0', sizeof line_of_digits - 1);
    line_of_digits[0] = ':';
    line_of_digits[522] = 0;
    sprintf(capture, "%s\n%s", line_of_digits, END);
    should(END), lists(IHEX_RECORD_TOO_LONG, 0, 0, 1);
    comes_to(capture);
    /* a byte 0 is a byte of a line */
    should(END), lists(IHEX_CONTAINS_INVALID_CHARACTERS, 1, 0, 1), lists(IHEX_BASE_UNKNOWN, 0, 0, 2), lists(ADDED);
    comes_to_bytes(":\0\n" DATA, strlen(DATA) + 3);
}

/* numbers of lines in one byte, two and three */
static void numbers_of_lines(void)
{
    static char capture[66000];
    static const size_t empty[] = {0, 1, 254, 255, 256, 65533, 65534, 65535};
    size_t i;
    for (i = 0; i < COUNT(empty); i++) {
        memset(capture, '\n', empty[i]);
        strcpy(capture + empty[i], "x\n" DATA "\n:G\n" END);
        should(END);
        lists(IHEX_MISSING_START_CODE, 0, 0, empty[i] + 1);
        lists(IHEX_BASE_UNKNOWN, 0, 0, empty[i] + 2);
        lists(IHEX_CONTAINS_INVALID_CHARACTERS, 1, 0, empty[i] + 4);
        comes_to(capture);
    }
}

/* On a little-endian machine a list is an array of the struct. */
static void the_struct(void)
{
    static const char capture[] = "x\n" DATA ":00000001FE\n";
    struct ihex_dropped found[4];
    uint8_t file[64];
    uint64_t length = 77, n = 77;
    CHECK(sizeof(struct ihex_dropped) == IHEX_DROPPED_SIZE);
    CHECK(ihex_salvage((const uint8_t *)capture, strlen(capture), file, sizeof file, (uint8_t *)found, sizeof found, &length, &n) == IHEX_OK);
    CHECK(length == 12 && n == 4 && memcmp(file, END, 12) == 0);
    CHECK(found[0].why == IHEX_MISSING_START_CODE && found[0].line == 1 && found[0].a == 0 && found[0].b == 0);
    CHECK(found[1].why == IHEX_BASE_UNKNOWN && found[1].line == 2 && found[1].a == 0 && found[1].b == 0);
    CHECK(found[2].why == IHEX_CHECKSUM_MISMATCH && found[2].line == 3 && found[2].a == 0xFF && found[2].b == 0xFE);
    CHECK(found[3].why == IHEX_MISSING_END_OF_FILE_RECORD && found[3].line == 0 && found[3].a == 0 && found[3].b == 0);
}

/* ---- document 01's lines, damaged one by one */

static const char *const document[] = {":020000021200EA", ":010005007783",       ":02000004FFFFFC", ":04012000102030403B", ":04000005000000CD2A",
                                       ":02FFFF00AABB9B", ":020000040800F2",     ":0100000041BE",   ":0400000300003800C1", ":0000000000",
                                       ":020000020000FC", ":04012000102030403B", ":00000001FF"};

#define LINES COUNT(document)

static int type_of(const char *l)
{
    return l[8] - '0';
}

/* The lines with one of them replaced by another that is refused with these values: what comes of it, by a loop over the lines. */
static void replaced(size_t at, const char *other, uint32_t why, uint16_t x, uint16_t y)
{
    char capture[600] = "", kept[600] = "";
    int known = 1;
    size_t i;
    should("");
    for (i = 0; i < LINES; i++) {
        strcat(strcat(capture, i == at ? other : document[i]), "\n");
        if (i == at) {
            lists(why, x, y, i + 1);
            known = 0;
        } else if (type_of(document[i]) == 0 && !known) {
            lists(IHEX_BASE_UNKNOWN, 0, 0, i + 1);
        } else {
            strcat(strcat(kept, document[i]), "\n");
            known |= type_of(document[i]) == 2 || type_of(document[i]) == 4;
        }
    }
    if (at == LINES - 1) {
        strcat(kept, END);
        lists(ADDED);
    }
    strcpy(clean, kept);
    comes_to(capture);
}

static void damaged_one_by_one(void)
{
    size_t at, i;
    for (at = 0; at < LINES; at++) {
        char other[64];
        size_t n = strlen(document[at]);
        unsigned stated;
        sscanf(document[at] + n - 2, "%2X", &stated);
        replaced(at, document[at] + 1, IHEX_MISSING_START_CODE, 0, 0);
        for (i = 1; i < n; i++) {
            strcpy(other, document[at]);
            other[i] = 'O';
            replaced(at, other, IHEX_CONTAINS_INVALID_CHARACTERS, (uint16_t)i, 0);
            sprintf(other, "%.*s%s", (int)i, document[at], document[at] + i + 1);
            replaced(at, other, n - 2 < 10 ? IHEX_RECORD_TOO_SHORT : IHEX_RECORD_NOT_EVEN_LENGTH, 0, 0);
            sprintf(other, "%.*s0%s", (int)i, document[at], document[at] + i);
            replaced(at, other, IHEX_RECORD_NOT_EVEN_LENGTH, 0, 0);
        }
        for (i = 0; i < 2; i++) {
            /* the last digit but i, with another value */
            unsigned digit, now;
            char one[2] = {document[at][n - 1 - i], 0};
            sscanf(one, "%1X", &digit);
            now = (digit + 5) % 16;
            strcpy(other, document[at]);
            other[n - 1 - i] = "0123456789ABCDEF"[now];
            replaced(at, other, IHEX_CHECKSUM_MISMATCH, (uint16_t)stated, (uint16_t)(stated + ((int)now - (int)digit) * (i ? 16 : 1)));
        }
        /* all bytes of a record add up to 0 */
        sprintf(other, "%s00", document[at]);
        replaced(at, other, IHEX_PAYLOAD_LENGTH_MISMATCH, 0, 0);
        sprintf(other, "%sFE", document[at]);
        replaced(at, other, IHEX_CHECKSUM_MISMATCH, 0, 0xFE);
    }
}

/* ---- what can be relied on, and what cannot */

/* the byte that a file states at an address, or -1 */
static int stated_at(const char *file, uint32_t address)
{
    if (load_with(file, address, 1, 1) != IHEX_OK || !(marks_.all[EDGE] & 1))
        return -1;
    return page_.all[EDGE];
}

static void limits(void)
{
    /* an older byte is kept */
    should(DATA END), lists(IHEX_CHECKSUM_MISMATCH, 0xDD, 0xDE, 2);
    comes_to(DATA ":0100000022DE\n" END);
    CHECK(stated_at(DATA ":0100000022DD\n" END, 0) == 0x22 && stated_at(clean, 0) == 0x11);
    /* what follows a damaged end record gets in, and its line is listed */
    should(":020000040000FA\n:010000009966\n" END), lists(IHEX_CHECKSUM_MISMATCH, 0xFF, 0xFE, 1);
    comes_to(":00000001FE\n:020000040000FA\n:010000009966\n" END);
    CHECK(stated_at(END ":020000040000FA\n:010000009966\n" END, 0) == -1);
    CHECK(stated_at(":020000040000FA\n:010000009966\n" END, 0) == 0x99);
    /* a line that was emptied, or lost whole */
    should(DATA END);
    comes_to("\n" DATA END);
    comes_to(DATA END);
    CHECK(stated_at(clean, 0) == 0x11 && stated_at(clean, 0x10000) == -1);
    CHECK(stated_at(LINEAR DATA END, 0) == -1 && stated_at(LINEAR DATA END, 0x10000) == 0x11);
    /* two wrong characters that cancel each other */
    CHECK(read_line(":0100000012ED", 1, 0) == IHEX_DATA && values(0, 0, 1) && holds(&pool_, 0, "\x12", 1));
    should(":0100000012ED\n" END);
    comes_to(":0100000012ED\n" END);
    CHECK(stated_at(clean, 0) == 0x12);
}

/* A clean file loads, unless a byte lies outside the window or two starts differ. */
static void clean_files_load(void)
{
    should(DATA END), lists(IHEX_MISSING_START_CODE, 0, 0, 2), lists(IHEX_BASE_UNKNOWN, 0, 0, 3), lists(ADDED);
    comes_to(DATA "x\n" DATA);
    CHECK(load(clean, 0, 2) == IHEX_OK && loaded(1, "10", 0, "\x11"));
    CHECK(load(clean, 1, 2) == R(IHEX_OUTSIDE_WINDOW) && not_loaded(0, 0, 1));
    should(START ":04000005000000CE29\n" END), lists(IHEX_MISSING_START_CODE, 0, 0, 1);
    comes_to("x\n" START ":04000005000000CE29\n" END);
    CHECK(load(clean, 0, 2) == R(IHEX_START_CONFLICT) && not_loaded(0, 0, 2));
}

/* Dumps of 200 places from address 0 on, each byte stated once, with a base before each row of them: of a row some lines are damaged.
 * A byte that the clean file states is the dump's, and a place of a row without a damaged line is stated. */
#define PLACES 200
#define ROW 8

static void random_captures(void)
{
    int round;
    for (round = 0; round < 1000; round++) {
        static char capture[MOST], file[MOST];
        uint8_t byte[PLACES], lost[PLACES];
        size_t p, i;
        int known = 1;
        capture[0] = 0;
        for (p = 0; p < PLACES; p += ROW) {
            char text[64], *at;
            unsigned sum = ROW + (unsigned)p;
            int whole = draw(6) > 0;
            if (draw(3) > 0) {
                /* a base; where it is damaged, or lies after a damaged line that set none, the row is lost */
                strcpy(text, draw(2) ? ":020000020000FC\n" : ":020000040000fa\n");
                if (draw(8) == 0) {
                    text[1 + draw(14)] = 'x';
                    known = 0;
                } else {
                    known = 1;
                }
                strcat(capture, text);
            }
            at = text + sprintf(text, ":%02X%04X00", ROW, (unsigned)p);
            for (i = 0; i < ROW; i++) {
                byte[p + i] = (uint8_t)draw(256);
                sum += byte[p + i];
                at += sprintf(at, "%02X", byte[p + i]);
                lost[p + i] = (uint8_t)!(known && whole);
            }
            sprintf(at, "%02X\n", (0 - sum) & 255);
            if (!whole) {
                i = 1 + draw(12 + 2 * ROW - 2);
                text[i] = text[i] == '7' ? '8' : '7';
                known = 0;
            }
            strcat(capture, text);
        }
        if (draw(3))
            strcat(capture, END DATA);
        begin_case();
        CHECK(salvage(capture, strlen(capture), strlen(capture) + 13, 16 * 80) == IHEX_OK && a.value < MOST);
        memcpy(file, out_.all + EDGE, (size_t)a.value);
        file[a.value] = 0;
        CHECK(load(file, 0, PLACES) == IHEX_OK && starts(IHEX_NO_START, 0, 0));
        for (p = 0; p < PLACES; p++)
            CHECK(unpacked(marks_.all + EDGE, p) == !lost[p] && page_.all[EDGE + p] == (lost[p] ? OLD : byte[p]));
        end_case();
    }
}

int main(void)
{
    reader = ihex_read_record;
    loader = ihex_load;
    undamaged();
    ends_added();
    bases();
    refusals();
    numbers_of_lines();
    the_struct();
    damaged_one_by_one();
    limits();
    clean_files_load();
    random_captures();
    printf("%d passed, %d failed\n", passed, failed);
    return failed != 0;
}
