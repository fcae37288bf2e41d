/* The floor: plain loops over lines that are good, with the tests that a reader or a writer cannot do without.
 * Nothing is proved of them. */
#include <stddef.h>
#include <stdint.h>
#include <string.h>

/* A digit's value, and 16 for all else. */
static const uint8_t DIGIT[256] = {
    [0 ... 255] = 16,
    ['0'] = 0,  ['1'] = 1,  ['2'] = 2,  ['3'] = 3,  ['4'] = 4,  ['5'] = 5,  ['6'] = 6,  ['7'] = 7,
    ['8'] = 8,  ['9'] = 9,  ['A'] = 10, ['B'] = 11, ['C'] = 12, ['D'] = 13, ['E'] = 14, ['F'] = 15,
    ['a'] = 10, ['b'] = 11, ['c'] = 12, ['d'] = 13, ['e'] = 14, ['f'] = 15,
};

static const char CAPITAL[16] = "0123456789ABCDEF";

/* The bytes of n pairs of digits; whether all are digits, and the sum of the bytes. */
static inline int spelt(const uint8_t *digits, size_t n, uint8_t *bytes, uint8_t *sum)
{
    uint8_t seen = 0, total = 0;
    for (size_t i = 0; i < n; i++) {
        uint8_t high = DIGIT[digits[2 * i]], low = DIGIT[digits[2 * i + 1]];
        seen |= high | low;
        bytes[i] = high * 16 + low;
        total += bytes[i];
    }
    *sum = total;
    return seen <= 15;
}

/* A line's bytes into a buffer of 260, and how many there are; 0 where it is no record. */
static size_t decode(const uint8_t *line, size_t len, uint8_t *bytes)
{
    if (len < 11 || len > 521 || len % 2 == 0 || line[0] != ':')
        return 0;
    size_t n = len / 2;
    uint8_t sum;
    if (!spelt(line + 1, n, bytes, &sum) || sum != 0 || bytes[0] != n - 5 || bytes[3] > 5)
        return 0;
    return n;
}

/* How many bytes the address of each type of S-record has, 0 for a type that is not named. */
static const uint8_t WIDTH[16] = {2, 2, 3, 4, 0, 2, 0, 4, 3, 2};

/* The bytes of an S-record from its count on, into a buffer of 256, and how many there are; 0 where it is no record. */
static size_t decode_srecord(const uint8_t *line, size_t len, uint8_t *bytes)
{
    if (len < 10 || len > 514 || len % 2 == 1 || line[0] != 'S')
        return 0;
    size_t n = len / 2 - 1, kind = DIGIT[line[1]];
    uint8_t sum;
    if (kind > 15 || WIDTH[kind] == 0 || n < 2u + WIDTH[kind] || (kind > 4 && n != 2u + WIDTH[kind]))
        return 0;
    if (!spelt(line + 2, n, bytes, &sum) || sum != 255 || bytes[0] != n - 1)
        return 0;
    return n;
}

/* The payload's length, or -1; the payload goes to the pool. */
int64_t floor_read_record(const uint8_t *line, size_t len, uint8_t *pool)
{
    uint8_t bytes[260];
    size_t n = decode(line, len, bytes);
    if (n == 0)
        return -1;
    memcpy(pool, bytes + 4, n - 5);
    return n - 5;
}

/* The data's length of an S-record, or -1; the data goes to the pool. */
int64_t floor_read_srecord(const uint8_t *line, size_t len, uint8_t *pool)
{
    uint8_t bytes[256];
    size_t n = decode_srecord(line, len, bytes);
    if (n == 0)
        return -1;
    size_t head = 1 + WIDTH[DIGIT[line[1]]];
    memcpy(pool, bytes + head, n - 1 - head);
    return n - 1 - head;
}

/* The line that begins at a position: its length; the position moves behind its LF. */
static size_t cut(const uint8_t *text, size_t len, size_t *position)
{
    size_t from = *position, end = from;
    while (end < len && text[end] != '\n')
        end++;
    *position = end < len ? end + 1 : end;
    return end < len && end > from && text[end - 1] == '\r' ? end - 1 - from : end - from;
}

/* How many records a text has, and the sum of the first bytes of their payloads. */
size_t floor_read_text(const uint8_t *text, size_t len, uint8_t *pool, uint64_t *sum)
{
    size_t records = 0;
    for (size_t position = 0; position < len;) {
        size_t from = position, n = cut(text, len, &position);
        if (n == 0)
            continue;
        int64_t payload = floor_read_record(text + from, n, pool);
        if (payload < 0)
            return records;
        records++;
        if (payload > 0)
            *sum += pool[0];
    }
    return records;
}

/* Marks n places from one on: one bit each, the lowest of a byte first. */
static void mark(uint8_t *marks, size_t from, size_t n)
{
    for (size_t place = from; place < from + n; place++)
        marks[place / 8] |= 1 << place % 8;
}

static int marked(const uint8_t *marks, size_t place)
{
    return marks[place / 8] >> place % 8 & 1;
}

/* Loads a text with no extension record; what passes the page's end goes on at its start. Judges first, then writes. */
size_t floor_load(const uint8_t *text, size_t len, uint8_t *page, uint8_t *marks, size_t size)
{
    uint8_t bytes[260];
    for (int write = 0; write < 2; write++) {
        size_t records = 0;
        if (write)
            memset(marks, 0, (size + 7) / 8);
        for (size_t position = 0; position < len;) {
            size_t from = position, n = cut(text, len, &position);
            if (n == 0)
                continue;
            n = decode(text + from, n, bytes);
            if (n == 0)
                return 0;
            if (bytes[3] != 0)
                break;
            size_t offset = bytes[1] * 256 + bytes[2], here = n - 5;
            if (offset >= size || here > size)
                return 0;
            if (here > size - offset)
                here = size - offset;
            records++;
            if (write) {
                memcpy(page + offset, bytes + 4, here);
                mark(marks, offset, here);
                memcpy(page, bytes + 4 + here, n - 5 - here);
                mark(marks, 0, n - 5 - here);
            }
        }
        if (write)
            return records;
    }
    return 0;
}

/* Loads a text of S-records into a page from address 0 on. Judges first, then writes. */
size_t floor_load_srecords(const uint8_t *text, size_t len, uint8_t *page, uint8_t *marks, size_t size)
{
    uint8_t bytes[256];
    for (int write = 0; write < 2; write++) {
        size_t records = 0;
        if (write)
            memset(marks, 0, (size + 7) / 8);
        for (size_t position = 0; position < len;) {
            size_t from = position, n = cut(text, len, &position);
            if (n == 0)
                continue;
            n = decode_srecord(text + from, n, bytes);
            if (n == 0)
                return 0;
            size_t kind = DIGIT[text[from + 1]], width = WIDTH[kind], address = 0;
            for (size_t i = 1; i <= width; i++)
                address = address * 256 + bytes[i];
            if (kind > 6)
                break;
            if (kind == 5 && address != records)
                return 0;
            if (kind == 0 || kind == 5)
                continue;
            size_t here = n - 2 - width;
            if (here > size || address > size - here)
                return 0;
            records++;
            if (write) {
                memcpy(page + address, bytes + 1 + width, here);
                mark(marks, address, here);
            }
        }
        if (write)
            return records;
    }
    return 0;
}

static uint8_t *put(uint8_t *out, uint8_t byte)
{
    out[0] = CAPITAL[byte / 16];
    out[1] = CAPITAL[byte % 16];
    return out + 2;
}

/* A record's line, and its length. */
size_t floor_write_record(uint8_t kind, uint16_t address, const uint8_t *payload, size_t n, uint8_t *out)
{
    uint8_t *end = out, sum = n + (address >> 8) + address + kind;
    *end++ = ':';
    end = put(end, n);
    end = put(end, address >> 8);
    end = put(end, address);
    end = put(end, kind);
    for (size_t i = 0; i < n; i++) {
        end = put(end, payload[i]);
        sum += payload[i];
    }
    return put(end, -sum) - out;
}

/* Data records of n bytes each, one behind the other, and an end record; the text's length. */
size_t floor_write_object(const uint8_t *pool, size_t n, size_t records, uint8_t *out)
{
    size_t length = 0;
    for (size_t i = 0; i < records; i++) {
        length += floor_write_record(0, i * n, pool + i * n, n, out + length);
        out[length++] = '\n';
    }
    length += floor_write_record(1, 0, pool, 0, out + length);
    out[length++] = '\n';
    return length;
}

/* How many places one record takes from i on, which is marked: at most 16, and none beyond a multiple of 65,536. */
static size_t taken(uint32_t first, const uint8_t *marks, size_t size, size_t i)
{
    size_t n = 1;
    while (n < 16 && i + n < size && marked(marks, i + n) && (uint16_t)(first + i + n) != 0)
        n++;
    return n;
}

/* A record's line with its LF, and what stands behind it. */
static uint8_t *put_line(uint8_t *out, uint8_t kind, uint16_t address, const uint8_t *payload, size_t n)
{
    out += floor_write_record(kind, address, payload, n, out);
    *out = '\n';
    return out + 1;
}

/* The first marked place from i on, or the size. Bytes with no mark are passed at once. */
static size_t next_marked(const uint8_t *marks, size_t size, size_t i)
{
    while (i < size && !marked(marks, i))
        i = i % 8 == 0 && marks[i / 8] == 0 ? i + 8 : i + 1;
    return i < size ? i : size;
}

/* The marked places of a page, and an end record; the text's length, or 0. Judges first, then writes. */
size_t floor_write_page(uint32_t first, const uint8_t *page, const uint8_t *marks, size_t size, uint8_t *out, size_t room)
{
    uint8_t *end = out;
    size_t length = 12;
    if (size % 8 != 0 && marks[size / 8] >> size % 8 != 0)
        return 0;
    for (int write = 0; write < 2; write++) {
        uint32_t upper = 65536;
        for (size_t i, n, from = 0; (i = next_marked(marks, size, from)) < size; from = i + n) {
            n = taken(first, marks, size, i);
            uint32_t address = first + i;
            uint8_t base[2] = {address >> 24, address >> 16};
            if (write && upper != address >> 16)
                end = put_line(end, 4, 0, base, 2);
            if (write)
                end = put_line(end, 0, address, page + i, n);
            else
                length += 12 + 2 * n + (upper != address >> 16 ? 16 : 0);
            upper = address >> 16;
        }
        if (length > room)
            return 0;
    }
    return put_line(end, 1, 0, page, 0) - out;
}
