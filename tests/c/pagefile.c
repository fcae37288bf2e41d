/* Writes and loads one page through libihex.a, from standard input to standard output; FIRST is hexadecimal.
 *   pagefile write FIRST PLACES   a page and then its marks become a file of Intel HEX
 *   pagefile load FIRST PLACES    a file becomes a page and then its marks; places that are not marked hold 0
 *   pagefile write-srecords FIRST PLACES TYPE BYTES
 *                                 the same as S-records: a header, data records S1 to S3 of at most so many bytes, their count and an end
 *   pagefile load-srecords FIRST PLACES
 *   pagefile start FIRST PLACES   a file becomes a line with the kind of its start and the two values, in hexadecimal
 *   pagefile start-srecords FIRST PLACES
 * A refusal is named on standard error, with the exit status 1. */
#include <ihex.h>
#include <stdio.h>
#include <stdlib.h>
#include <string.h>

static uint8_t in[1 << 20], out[IHEX_MAX_PAGE_FILE], page[IHEX_MAX_PAGE], marks[IHEX_MAX_MARKS];

static int refused(uint32_t answer)
{
    if (answer != IHEX_OK)
        fprintf(stderr, "pagefile: answer %lu\n", (unsigned long)answer);
    return answer != IHEX_OK;
}

static int write_file(uint32_t first, size_t n, size_t places)
{
    uint64_t value;
    if (n < places || refused(ihex_write_page(first, in, places, in + places, n - places, out, sizeof out, &value)))
        return 1;
    return fwrite(out, 1, (size_t)value, stdout) != value;
}

/* Prints the line of one S-record; the data lies in a pool. */
static int write_srecord(uint8_t type, uint32_t address, size_t at, size_t n, const uint8_t *pool, size_t pool_len)
{
    uint64_t value;
    if (refused(ihex_to_srecord_string(type, address, at, n, pool, pool_len, out, IHEX_MAX_SRECORD_LINE, &value)))
        return 1;
    out[value] = '\n';
    return fwrite(out, 1, (size_t)value + 1, stdout) != value + 1;
}

static int write_srecords(uint32_t first, size_t n, size_t places, uint8_t type, size_t most)
{
    size_t at, end;
    uint32_t records = 0;
    if (n != places + IHEX_MARKS(places) || write_srecord(IHEX_S0, 0, 0, 4, (const uint8_t *)"ihex", 4))
        return 1;
    for (at = 0; at < places; at = end) {
        for (end = at; end < places && end - at < most && ihex_marked(in + places, end); end++)
            ;
        if (end > at && write_srecord(type, first + (uint32_t)at, at, end - at, in, places))
            return 1;
        records += end > at;
        end += end == at;
    }
    return write_srecord(IHEX_S5, records, 0, 0, in, 0) || write_srecord((uint8_t)(10 - type), 0, 0, 0, in, 0);
}

/* What loads: ihex_load, or ihex_load_srecords. */
typedef uint32_t loads(const uint8_t *text, size_t text_len, uint32_t first, uint8_t *page, size_t page_len, uint8_t *marks,
                       size_t marks_len, size_t *line, uint8_t *start, uint64_t *a, uint64_t *b, uint64_t *c);

static int load_file(loads *load, uint32_t first, size_t n, size_t places, int with_start)
{
    size_t line, row = IHEX_MARKS(places);
    uint8_t start;
    uint64_t a, b, c;
    memset(marks, 0xFF, sizeof marks);
    if (places > IHEX_MAX_PAGE || refused(load(in, n, first, page, places, marks, row, &line, &start, &a, &b, &c)))
        return 1;
    if (with_start)
        return printf("%u %lX %lX\n", start, (unsigned long)b, (unsigned long)c) < 0;
    return fwrite(page, 1, places, stdout) != places || fwrite(marks, 1, row, stdout) != row;
}

int main(int argc, char **argv)
{
    size_t n = fread(in, 1, sizeof in, stdin), places = argc > 3 ? strtoul(argv[3], NULL, 10) : 0;
    uint32_t first = argc > 2 ? (uint32_t)strtoul(argv[2], NULL, 16) : 0;
    if (argc == 4 && strcmp(argv[1], "write") == 0)
        return write_file(first, n, places);
    if (argc == 4 && strcmp(argv[1], "load") == 0)
        return load_file(ihex_load, first, n, places, 0);
    if (argc == 6 && strcmp(argv[1], "write-srecords") == 0)
        return write_srecords(first, n, places, (uint8_t)strtoul(argv[4], NULL, 10), strtoul(argv[5], NULL, 10));
    if (argc == 4 && strcmp(argv[1], "load-srecords") == 0)
        return load_file(ihex_load_srecords, first, n, places, 0);
    if (argc == 4 && strcmp(argv[1], "start") == 0)
        return load_file(ihex_load, first, n, places, 1);
    if (argc == 4 && strcmp(argv[1], "start-srecords") == 0)
        return load_file(ihex_load_srecords, first, n, places, 1);
    fprintf(stderr, "usage: pagefile write FIRST PLACES | load FIRST PLACES | write-srecords FIRST PLACES TYPE BYTES"
                    " | load-srecords FIRST PLACES | start FIRST PLACES | start-srecords FIRST PLACES\n");
    return 2;
}
