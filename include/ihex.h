/* Intel's hexadecimal object file format, and Motorola's S-records: the functions of libihex.a, on numbers and bytes.
 *
 * A text is of one kind, and the caller says which by the function that is called. No function guesses it. The functions whose names have
 * "srecord" in them are for S-records, and stand at the end. All others are for Intel HEX. A window table, a light and a listener are for texts of
 * both kinds; the flags of a listener say which.
 *
 * Each function of the library is proved to do what is said of it here, for all inputs. The inline functions and IHEX_MARKS of this
 * header are tested, not proved. The header needs C99 or C++. What a function leaves to its caller:
 * - A slice is a pointer and a length in bytes, below 2^63; with the length 0 the pointer is not used and may be null.
 * - A pointer to a number is not null. Nothing that a function writes overlaps anything else that it is given.
 *
 * No function allocates or keeps anything. Of the C library memcpy and memset are called, and nothing else. A writer changes no byte of
 * the output after the length that it returns. A refusal changes no byte of any slice but of a carry, in which its line may have been
 * gathered, and of a listener's staging page and marks. Of the carry IHEX_POOL_FULL keeps the used bytes, and IHEX_CARRY_TOO_SMALL all.
 */
#ifndef IHEX_H
#define IHEX_H

#include <stddef.h>
#include <stdint.h>

#ifdef __cplusplus
extern "C" {
#endif

/* The types of records of Intel HEX: what a reader returns for a record, with its values in a, b and c (0 where there is none). */
#define IHEX_DATA 0                     /* a: offset; b, c: position and length of the payload in the pool */
#define IHEX_END_OF_FILE 1              /* no values */
#define IHEX_EXTENDED_SEGMENT_ADDRESS 2 /* a: bits 4 to 19 of the segment base address */
#define IHEX_START_SEGMENT_ADDRESS 3    /* a: CS; b: IP. A load has them in b and c */
#define IHEX_EXTENDED_LINEAR_ADDRESS 4  /* a: bits 16 to 31 of the linear base address */
#define IHEX_START_LINEAR_ADDRESS 5     /* a: EIP. A load has it in b */

/* The types of S-records: what ihex_read_srecord returns for a record. a: the address; b, c: position and length of the data in the pool */
#define IHEX_S0 0 /* a header: 2 address bytes */
#define IHEX_S1 1 /* data: 2 address bytes */
#define IHEX_S2 2 /* data: 3 address bytes */
#define IHEX_S3 3 /* data: 4 address bytes */
#define IHEX_S5 5 /* a: how many data records it states to be before it, in 2 bytes; b and c are 0 */
#define IHEX_S7 7 /* the end: 4 address bytes; b and c are 0 */
#define IHEX_S8 8 /* the end: 3 address bytes; b and c are 0 */
#define IHEX_S9 9 /* the end: 2 address bytes; b and c are 0 */

/* The other codes that are returned. */
#define IHEX_OK 0             /* a writer wrote all, a length is returned, a load or a dump was accepted, a light was set up, a capture was saved, or a byte is stated */
#define IHEX_REFUSED 256      /* and the number of a refusal, below */
#define IHEX_DONE 512         /* the text has no more answers */
#define IHEX_USED_UP 513      /* the chunk has no more answers: the next one is wanted, or the end of the text; no values */
#define IHEX_NOT_STATED 514   /* ihex_ask: the text is accepted, and states no byte at the address; no values */
#define IHEX_PASSED 515       /* ihex_feed: the end record of what was skipped has come, and a text begins after it; no values */
#define IHEX_NOT_READY 516    /* ihex_commit: no dump is ready, so nothing was written */
#define IHEX_BAD_RECORD 1024  /* what is to be written is not a record; no values */

/* The refusals: their numbers, and their values (0 where there is none). 1 to 10 and 12 are said here of Intel HEX. What they mean for
 * S-records stands at ihex_read_srecord and ihex_to_srecord_string. */
#define IHEX_MISSING_START_CODE 1           /* the line's first byte is not a colon, or there is none */
#define IHEX_CONTAINS_INVALID_CHARACTERS 2  /* a byte after the colon is not a digit; a: the place of the first such byte, up to IHEX_MAX_PLACE */
#define IHEX_RECORD_TOO_SHORT 3             /* under 10 digits */
#define IHEX_RECORD_TOO_LONG 4              /* over 520 digits */
#define IHEX_RECORD_NOT_EVEN_LENGTH 5       /* an odd number of digits */
#define IHEX_CHECKSUM_MISMATCH 6            /* a: computed; b: stated */
#define IHEX_PAYLOAD_LENGTH_MISMATCH 7      /* the length byte is not the payload's length */
#define IHEX_UNSUPPORTED_RECORD_TYPE 8      /* a: the type, which is over 05 */
#define IHEX_INVALID_LENGTH_FOR_TYPE 9      /* a payload of the wrong size for 01 to 05 */
#define IHEX_POOL_FULL 10                   /* a good data record; position + length exceeds the pool */
#define IHEX_PAYLOAD_OUTSIDE_POOL 11        /* a record to be written; position + length exceeds the pool */
#define IHEX_DATA_EXCEEDS_MAXIMUM_LENGTH 12 /* a payload over 255 bytes; a, or value: its length */
#define IHEX_MISSING_END_OF_FILE_RECORD 13  /* the list's last record is not an end record; the text has no end record; in the list of a salvage: one was added */
#define IHEX_MULTIPLE_END_OF_FILE_RECORDS 14 /* a, or value: how many end records the list has */
#define IHEX_OUTPUT_FULL 15                 /* the whole result is longer than the output */
#define IHEX_BAD_WINDOW 16                  /* marks_len is not IHEX_MARKS(page_len), page_len is over IHEX_MAX_PAGE, or the page ends beyond 2^32; a light has one reason more */
#define IHEX_OUTSIDE_WINDOW 17              /* a: the address of a data record's first byte that lies outside; through a table, outside all windows of the owner */
#define IHEX_CARRY_TOO_SMALL 18             /* a carry under IHEX_CARRY bytes, or a state that counts more than that used */
#define IHEX_BAD_MARK 19                    /* a page to be written; value: the place of the lowest unused bit of its marks that is set */
#define IHEX_COUNT_MISMATCH 20              /* an S5; a: the count that it states; b: how many data records the text has before it */
#define IHEX_START_CONFLICT 21              /* a type 03 or 05 that states another start than the first that the text states */
#define IHEX_LIST_FULL 22                   /* a salvage; its list has more entries than there is room for */
#define IHEX_BAD_TABLE 23                   /* a window table, or a call with one, breaks a limit; ihex_check_table and ihex_load_table name them */
#define IHEX_BAD_PLACE 24                   /* a light to be set up; a place of its count lies outside its page */
#define IHEX_ADDRESS_TOO_WIDE 25            /* an S-record to be written; its address needs more bytes than its type has */

/* The flags of a state. The other bits are not read, and are 0 at exit; ihex_next has the first three only. */
#define IHEX_STOP_AFTER_FIRST_ERROR 1 /* after a refused line, only "done" */
#define IHEX_STOP_AFTER_EOF 2         /* after an end record, only "done" */
#define IHEX_FINISHED 4               /* only "done" */
#define IHEX_CR_WAITS 8               /* chunks: a CR comes after the carry's used bytes, and the next byte says whose it is */

/* The flags of a listener. Bits 0 and 1 say where it stands. A listener begins with IHEX_FRONT or IHEX_SKIPPING, and IHEX_SRECORDS where the text is
 * of S-records; all its other numbers begin with 0. IHEX_CR_WAITS has its meaning here too. Bit 4 is set if the base is a linear one, bit 5 if the
 * start that is stated is CS with IP, and bit 6 if it is linear. Bit 7 is not read, and a call that moves the listener leaves it 0. */
#define IHEX_FRONT 0     /* where a text begins: none of its lines has a byte yet */
#define IHEX_TAKING 1    /* in a dump */
#define IHEX_SKIPPING 2  /* at an unknown place: everything through the next end record is skipped */
#define IHEX_READY 3     /* a dump was accepted, and is staged */
#define IHEX_SRECORDS 4  /* the text is of S-records */

/* Of Intel HEX a payload has at most so many bytes, and a line at most so many characters, without its line end. */
#define IHEX_MAX_PAYLOAD 255
#define IHEX_MAX_LINE 521

/* An S-record has at most so many bytes of data, and its line at most so many characters, without its line end. */
#define IHEX_MAX_SRECORD_DATA 252
#define IHEX_MAX_SRECORD_LINE 514

/* The greatest position that refusal 2 names; it means this position or a later one. The position of the colon, or of the S, is 0. */
#define IHEX_MAX_PLACE 65535

/* A carry has at least so many bytes. */
#define IHEX_CARRY 522

/* Where a line lies: `lies`. */
#define IHEX_NOWHERE 0  /* no record was given */
#define IHEX_IN_CHUNK 1 /* len bytes of the chunk, from `from` on */
#define IHEX_IN_CARRY 2 /* the carry's first len bytes; from is 0 */

/* What an accepted load says of the start address: `start`. It is IHEX_NO_START, IHEX_START_SEGMENT_ADDRESS or IHEX_START_LINEAR_ADDRESS. */
#define IHEX_NO_START 0 /* the text states none */

/* What a light shows after a dump: `color`. 0 is not green, so a color that was never written is not green either. */
#define IHEX_COLOR_BROKEN 0    /* the dump was refused */
#define IHEX_COLOR_NO_COUNT 1  /* it was accepted, and states no count */
#define IHEX_COLOR_FIRST 2     /* it states a count, and none was known */
#define IHEX_COLOR_GREEN 3     /* the count moved forward: by 1 to 32,767, modulo 65,536 */
#define IHEX_COLOR_STALE 4     /* the count is the known one */
#define IHEX_COLOR_RESTARTED 5 /* the count is any other */

/* The count of a light that knows none: `known`. A count has 16 bits. Every greater number means that none is known. */
#define IHEX_COUNT_UNKNOWN 65536

/* A page has at most so many places, its marks at most so many bytes, and its file at most so many bytes: 7 for each place, and 58. The pool
 * of a window table has at most as many places and marks as a page. */
#define IHEX_MAX_PAGE 65536
#define IHEX_MAX_MARKS 8192
#define IHEX_MAX_PAGE_FILE 458810

/* The marks of a page, or of the pool of a window table, have one bit a place: place p is bit p modulo 8 of byte p / 8, lowest bit first. The
 * bits of the last byte after the last place are unused. IHEX_MARKS is the length of the marks in bytes. It is a constant if its argument is
 * one, and evaluates its argument twice. It is 0 for no places: then no array of marks is wanted, and any pointer will do with marks_len 0,
 * also null. */
#define IHEX_MARKS(places) ((places) / 8 + ((places) % 8 != 0))

/* Returns 1 if a place is marked, else 0. The place must be one of the page or the pool: the byte that holds its mark is read. */
static inline int ihex_marked(const uint8_t *marks, size_t place)
{
    return (marks[place / 8] >> (place % 8)) & 1;
}

/* A record in a list. Its 24 bytes, each number low byte first: 0 type, 1 not read, 2 and 3 second, 4 to 7 number,
 * 8 to 15 at, 16 to 23 len; so on a little-endian machine a list is an array of this struct. */
struct ihex_record {
    uint8_t type;    /* 0 to 5, above */
    uint8_t unused;  /* not read */
    uint16_t second; /* type 03: IP */
    uint32_t number; /* type 00: the offset; 02, 04, 05: the number; 03: CS. Over 65,535 only for 01 and 05 */
    uint64_t at;     /* type 00: the payload's position in the pool */
    uint64_t len;    /* type 00: the payload's length */
};

#define IHEX_RECORD_SIZE 24

/* An entry in the list of a salvage: a line that was dropped, or the end record that was added. Its 16 bytes, each number low byte first:
 * 0 to 3 why, 4 and 5 a, 6 and 7 b, 8 to 15 line; so on a little-endian machine a list is an array of this struct. */
struct ihex_dropped {
    uint32_t why;  /* IHEX_BASE_UNKNOWN, the number of a refusal, 1 to 9, or IHEX_MISSING_END_OF_FILE_RECORD */
    uint16_t a, b; /* the values of the refusal; 0 where there is none */
    uint64_t line; /* the number of the line, from 1 on; 0 with IHEX_MISSING_END_OF_FILE_RECORD */
};

#define IHEX_DROPPED_SIZE 16

/* Why a good data record is dropped: a line before it was refused, and no type 02 or 04 has come since. */
#define IHEX_BASE_UNKNOWN 0

/* A window of a table. Its 24 bytes, each number low byte first: 0 to 3 owner, 4 to 7 first, 8 to 15 length, 16 to 23 place; so on a
 * little-endian machine a table is an array of this struct. */
struct ihex_window {
    uint32_t owner;  /* whose window it is: 1 or 2 */
    uint32_t first;  /* its first address */
    uint64_t length; /* how many addresses it has; the byte of address first + i lies at place + i of the pool */
    uint64_t place;  /* the place of its first address in the pool */
};

#define IHEX_WINDOW_SIZE 24

/* A table has at most so many windows. */
#define IHEX_MOST_WINDOWS 16

/* The sum of the bytes, left to wrap at 256, then negated modulo 256.
 * Of no bytes it is 0. */
uint8_t ihex_checksum(const uint8_t *bytes, size_t bytes_len);

/* Reads one line, without its line end: returns the record's type, or IHEX_REFUSED and the first of 1 to 10 that holds.
 * The payload of a data record goes into the pool from `at` on, and no other byte changes; a, b and c are the values.
 * Noise: change one character of a line that gives a record to any other byte, and read it with the same pool and position. A changed
 * colon is 1. After the colon, a byte that is not a digit is 2, and a is its position. A digit of another value is 6, in the length and the
 * checksum too. A letter in its other case gives the same record and the same pool. */
uint32_t ihex_read_record(const uint8_t *line, size_t line_len,
                          uint8_t *pool, size_t pool_len, size_t at,
                          uint64_t *a, uint64_t *b, uint64_t *c);

/* Reads the next line that has a byte as ihex_read_record does, or returns IHEX_DONE, and moves the state: position, line, flags.
 * A state begins with 0, 0 and the stops; line is the line's number. After IHEX_POOL_FULL position, line and the three flags are as they were. */
uint32_t ihex_next(const uint8_t *text, size_t text_len,
                   uint8_t *pool, size_t pool_len, size_t at,
                   size_t *position, size_t *line, uint8_t *flags,
                   uint64_t *a, uint64_t *b, uint64_t *c);

/* Reads a text that comes in chunks to the answers that ihex_next gives of the whole text: the chunk's next answer, or IHEX_USED_UP,
 * and then it wants the next chunk. Until then it is called with the same chunk. The state is position (in the chunk), line, empties,
 * used, skipped and flags; it begins with 0 but for the stops. The carry's first `used` bytes belong to it: a line that is begun. Nobody
 * else writes to them between calls. The other bytes of the carry may change in any call but 18, and "done" after the end. `skipped`
 * counts, up to 65,535, the digits of a line over IHEX_CARRY bytes that were left out before the last byte that the carry holds. It is 0
 * after each line that was answered, and not read while fewer than IHEX_CARRY bytes are used.
 * After IHEX_POOL_FULL position, line, empties, used, skipped, the four flags and the used bytes are as they were: the same call with
 * room gives the record. 18 goes before all else and changes no byte either. A state made up by hand is answered too.
 * After a line that stops the reader, position is just after its LF, and "done" leaves it there. What follows in the chunk has not been
 * read: a new state reads on from chunk + position, with chunk_len - position.
 * lies, from, len: where the line lies that gave a record, until the next call. */
uint32_t ihex_next_chunk(const uint8_t *chunk, size_t chunk_len,
                         uint8_t *carry, size_t carry_len,
                         uint8_t *pool, size_t pool_len, size_t at,
                         size_t *position, size_t *line, size_t *empties, size_t *used, uint16_t *skipped, uint8_t *flags,
                         uint8_t *lies, size_t *from, size_t *len,
                         uint64_t *a, uint64_t *b, uint64_t *c);

/* Ends the text: the line that is begun is its last, if it has a byte. Call it after IHEX_USED_UP: what is left of a chunk is not read.
 * Answers and leaves all as ihex_next_chunk does, never IHEX_USED_UP; then there is only IHEX_DONE, or 18. After IHEX_POOL_FULL or 18 the text
 * is not ended: call again with room. */
uint32_t ihex_finish(uint8_t *carry, size_t carry_len,
                     uint8_t *pool, size_t pool_len, size_t at,
                     size_t *position, size_t *line, size_t *empties, size_t *used, uint16_t *skipped, uint8_t *flags,
                     uint8_t *lies, size_t *from, size_t *len,
                     uint64_t *a, uint64_t *b, uint64_t *c);

/* The line at a place: returns how many bytes it has in the buffer that `lies` names, and in start where it begins there.
 * What lies after the buffer's end is left out; 0 and 0 for IHEX_NOWHERE, any other number, and a `from` over the chunk's length. */
size_t ihex_shown(uint8_t lies, size_t from, size_t len,
                  const uint8_t *chunk, size_t chunk_len,
                  const uint8_t *carry, size_t carry_len,
                  size_t *start);

/* The state of a reader of chunks, and where the line lies that gave a record. It begins with 0 in all but the flags: the stops. */
struct ihex_chunks {
    size_t position, line, empties, used;
    uint8_t flags;
    uint8_t lies;
    uint16_t skipped;
    size_t from, len;
};

/* ihex_next_chunk on that state. */
static inline uint32_t ihex_chunks_next(struct ihex_chunks *s, const uint8_t *chunk, size_t chunk_len,
                                        uint8_t *carry, size_t carry_len,
                                        uint8_t *pool, size_t pool_len, size_t at,
                                        uint64_t *a, uint64_t *b, uint64_t *c)
{
    return ihex_next_chunk(chunk, chunk_len, carry, carry_len, pool, pool_len, at, &s->position, &s->line, &s->empties,
                           &s->used, &s->skipped, &s->flags, &s->lies, &s->from, &s->len, a, b, c);
}

/* ihex_finish on that state. */
static inline uint32_t ihex_chunks_finish(struct ihex_chunks *s, uint8_t *carry, size_t carry_len,
                                          uint8_t *pool, size_t pool_len, size_t at,
                                          uint64_t *a, uint64_t *b, uint64_t *c)
{
    return ihex_finish(carry, carry_len, pool, pool_len, at, &s->position, &s->line, &s->empties, &s->used, &s->skipped,
                       &s->flags, &s->lies, &s->from, &s->len, a, b, c);
}

/* Writes a record's line, without a line end, from the output's start on: returns 0 and its length as the value,
 * or IHEX_BAD_RECORD, or IHEX_REFUSED and the first of 11, 12, 15 that holds. The fields are those of ihex_record. */
uint32_t ihex_to_record_string(uint8_t type, uint32_t number, uint16_t second, size_t at, size_t len,
                               const uint8_t *pool, size_t pool_len,
                               uint8_t *out, size_t out_len,
                               uint64_t *value);

/* Writes a list of records, one LF after each: returns 0 and the text's length as the value, or IHEX_BAD_RECORD for
 * bytes that are not a list of ihex_record, or IHEX_REFUSED and 13, 14, the 11 or 12 of the first record that has one, or 15. */
uint32_t ihex_create_object_file_representation(const void *list, size_t list_len,
                                                const uint8_t *pool, size_t pool_len,
                                                uint8_t *out, size_t out_len,
                                                uint64_t *value);

/* Loads a text, both stops on, into a page from the address `first` on. Returns 0 and counts data records in a; or IHEX_REFUSED and 16; or the
 * refusal of the first line that is refused, 1 to 9, 17 or 21, with that line's number in line (else 0); or 13, if no line is refused and none is
 * the end record. The refusal's values are in a and b.
 * After an accepted load `start` is the kind of start that the text states, with its values in b and c:
 *
 *   IHEX_NO_START               none; b and c are 0
 *   IHEX_START_SEGMENT_ADDRESS  by a type 03; b: CS; c: IP
 *   IHEX_START_LINEAR_ADDRESS   by a type 05; b: the address; c is 0
 *
 * The same start may be stated more than once. A start that differs from the first is refusal 21 at its line. Starts are compared as they are
 * stated: a type 03 and a type 05 always differ, and so do 1000:0000 and 0FFF:0010. After a refusal start is IHEX_NO_START, and c, like any
 * value that a refusal does not have, is 0. What follows the line of the end record is not read: it changes no answer, page or mark.
 * A line ends at an LF, and one CR directly before the LF is not part of it. A last line without LF counts. Empty lines are skipped, but
 * counted: line numbers start at 1.
 * marks_len is IHEX_MARKS(page_len); what the marks held before does not matter. After an accepted load a place is marked exactly if the
 * text states a byte there. A place that is not marked keeps its byte. The unused bits of the marks are 0. A refused load changes no byte
 * of page or marks, and no unused bit.
 * While a type 02 is the latest extension record, with base 16 times its number, and before any, with base 0, byte i of a data
 * record lies at base + ((offset + i) modulo 65,536). While a type 04 is, with base 65,536 times its number, it lies at
 * (base + offset + i) modulo 2^32.
 * One dump upon another: the joined text of A and B is the bytes of A before the line of its end record, the line :020000020000FC with one
 * LF, and B. A's end record is the first line that the reader takes for one. In one window, let A be accepted. The joined text is accepted
 * exactly when B is, unless both state a start and the two differ. Where it is accepted, the counts of data records add, and its start is A's,
 * or B's if A states none; loading A and then B leaves the page that the joined text leaves on the same old page, and the marks of the joined
 * text are the union of the marks of both loads. Else it is refused as B is, at B's line plus the lines of A before its end record plus 1 (13
 * keeps 0). But if B states a start that differs from A's, before its end record and before any line at which B is refused, that is 21 at that
 * start's line, moved so too.
 * Noise: let a text be accepted, and then be damaged in one of these ways. One byte is changed, lost or added, or two neighbours are
 * swapped. It is cut off after any byte. Each line has at most one such slip, and every LF stays as it is. The load of the damaged text
 * into the same window is refused, or it is the very same load: what is returned, start, page and marks. Other damage can go unnoticed: two
 * wrong characters in one line can cancel each other, and a line that is lost whole can leave no trace. */
uint32_t ihex_load(const uint8_t *text, size_t text_len, uint32_t first,
                   uint8_t *page, size_t page_len,
                   uint8_t *marks, size_t marks_len,
                   size_t *line, uint8_t *start, uint64_t *a, uint64_t *b, uint64_t *c);

/* Two owners, 1 and 2, can load their texts into one pool, through one table of windows. Says whether a table is good for a pool and marks of
 * these lengths: returns 0, or IHEX_REFUSED and 23. It returns 23 exactly if one of these holds. No sum wraps.
 *
 *   table_len is not a multiple of IHEX_WINDOW_SIZE, or there are more than IHEX_MOST_WINDOWS windows
 *   pool_len is over IHEX_MAX_PAGE, or marks_len is not IHEX_MARKS(pool_len)
 *   the owner of a window is neither 1 nor 2
 *   first + length of a window is over 2^32, or place + length is over pool_len
 *   two windows share a place of the pool
 *   two windows of the same owner share an address
 *
 * A window of length 0 has no address and no place, so it shares none: it may lie inside another window. In a pool of 8 bytes its place may
 * be 8, but not 9. Both owners may have windows of the same addresses. Windows may touch. A table of no windows is good. */
uint32_t ihex_check_table(const void *table, size_t table_len, size_t pool_len, size_t marks_len);

/* Loads a text for one owner through a table into the pool. What is returned, line, start, a, b and c are as in ihex_load, with two
 * differences. There is no 16: it is 23, with line 0, exactly if ihex_check_table refuses the table or `owner` is neither 1 nor 2, whatever the
 * text is. And 17 is for a byte that lies outside all windows of the owner. So without windows a data byte is 17, and a text of the end record
 * alone is accepted. A data record may lie in more than one window, also across the end of the addresses, byte by byte: with windows of 4
 * addresses from 100 on and of 2 from 104 on, a record may state 103 to 105. What ihex_load says of joined texts and of damaged texts is said of
 * ihex_load alone, and not of a load through a table.
 * After an accepted load a place of the owner's windows is marked exactly if the text states a byte at its address; then it holds the last such
 * byte, and else the byte that it held. Every other byte of the pool and every other bit of the marks stays: those of the other owner, those of
 * no window, and the unused bits. A refused load changes no byte of pool or marks. What they held before changes no answer.
 * What follows the line at which the load stops changes nothing: no answer, byte or mark.
 * The owners are apart. For one table, whatever the other owner loads before or after, accepted or refused, changes no answer of this owner's
 * loads, and no byte or mark of this owner's places: these follow from what they held at first and from this owner's texts.
 * Let a good table have one window, of this owner, at place 0 and of length pool_len. Then the load returns what ihex_load returns with the
 * window's `first` and the pool for a page, and leaves the same bytes and the same marks of all places. The unused bits stay; ihex_load
 * clears them. */
uint32_t ihex_load_table(const uint8_t *text, size_t text_len, uint32_t owner,
                         const void *table, size_t table_len,
                         uint8_t *pool, size_t pool_len,
                         uint8_t *marks, size_t marks_len,
                         size_t *line, uint8_t *start, uint64_t *a, uint64_t *b, uint64_t *c);

/* Asks for one byte of a text of Intel HEX, without a page. Any 32-bit address may be asked. Returns IHEX_OK and the byte in a, if the text is
 * accepted and a data record before the end record states a byte at the address. If more than one does, it is the last one's. Returns
 * IHEX_NOT_STATED if the text is accepted and none does. Else it returns IHEX_REFUSED and one of 1 to 9, 13 and 21, as ihex_load does, with its
 * values in a and b and the number of its line in line: 0 with 13. A byte that was found before a refused line is not returned. There is no 16 and
 * no 17, since there is no window. The lines :0100000011EE and :00000001FE, asked at address 5, are refused with 6 at line 2; ihex_load with a
 * window of one place at 5 refuses them with 17 at line 1. What is not named is 0.
 * It reads the text once, from front to back, and takes some 1,100 bytes of the stack, however long the text is. (This is tested, not proved.)
 * If ihex_load accepts the text in some window, then for the address of each place of that window ihex_ask returns IHEX_OK and the place's byte
 * if the place is marked, and else IHEX_NOT_STATED. So it is with ihex_load_table and the owner's windows. If ihex_load refuses the text, but not
 * with 16 or 17, ihex_ask returns the same refusal with the same line and values, at every address.
 * What follows the line at which the reading stops changes nothing. */
uint32_t ihex_ask(const uint8_t *text, size_t text_len, uint32_t address,
                  size_t *line, uint64_t *a, uint64_t *b);

/* Sets up a light. A light shows whether a count moves forward from dump to dump. The controller keeps the count in its memory, and raises it as
 * it works. The count has 16 bits: its high byte lies at the place `high` of a page, and its low byte at the place `low`. Places are numbered from 0.
 * They are not addresses, may stand in either order, and may be the same. A light is five numbers: the page's first address and its length, the
 * two places, and the count that was stated last, `known`. The caller keeps them. Every dump of a light gets the same first four, and `known` as
 * the call before left it.
 * Returns IHEX_OK; or IHEX_REFUSED and 24, if `high` or `low` is not below `length`. In both cases known is IHEX_COUNT_UNKNOWN at exit.
 * Nothing else is refused here: with the first address FFFFFFFF and the length 2 a light is set up, and each of its dumps is refused with 16. */
uint32_t ihex_set_up_light(uint32_t first, size_t length, size_t high, size_t low, uint32_t *known);

/* Loads a dump of Intel HEX into the page of a light. What is returned, line, start, a, b and c, the page and the marks are as in ihex_load; but
 * if page_len is not `length`, the dump is refused with 16, and line is 0. `color` is then what the light shows, the first of these that holds:
 *
 *   IHEX_COLOR_BROKEN     the dump is refused
 *   IHEX_COLOR_NO_COUNT   one of the two places is not marked
 *   IHEX_COLOR_FIRST      no count was known
 *   IHEX_COLOR_GREEN      the count is 1 to 32,767 ahead of the known one, modulo 65,536
 *   IHEX_COLOR_STALE      the count is the known one
 *   IHEX_COLOR_RESTARTED  the count is any other
 *
 * If the dump is accepted and both places are marked, known becomes the count. Else it stays, and a number over IHEX_COUNT_UNKNOWN becomes
 * IHEX_COUNT_UNKNOWN.
 * Green means: this dump was accepted, it states a byte for both places of the count before its end record, and the count that it states is 1
 * to 32,767 ahead of the one that was stated last, modulo 65,536.
 * Over any number of dumps each color follows from the history alone: from what each dump says of the count. What page and marks held before
 * does not matter. The same dump twice running, read as the same kind and with the same lengths of page and marks, is never green the second
 * time. A dump whose count did not move forward is never green, whatever else it holds. What follows the line at which the load stops changes
 * neither color nor known.
 * Green does not say that the other bytes are right, or that the dump is new: two old dumps in turn, with the counts 5 and 6, are green every
 * second time.
 * A light whose places were not judged by ihex_set_up_light is answered too: if one of them lies outside the page, an accepted dump is
 * IHEX_COLOR_NO_COUNT. */
uint32_t ihex_light(const uint8_t *text, size_t text_len,
                    uint32_t first, size_t length, size_t high, size_t low,
                    uint8_t *page, size_t page_len,
                    uint8_t *marks, size_t marks_len,
                    uint32_t *known, uint8_t *color,
                    size_t *line, uint8_t *start, uint64_t *a, uint64_t *b, uint64_t *c);

/* Listens to a serial line on which dump after dump comes, in chunks of any sizes, with noise between them. Each dump is taken line by line into a
 * staging page and its marks, and is decided as soon as the line has come that decides it. The page that is shown is not touched:
 * only ihex_commit writes to it, and to its marks.
 * A listener is seven numbers: flags, skipped, base, begin, lines, used and records. At IHEX_FRONT and IHEX_READY all but the flags are not read, and
 * are 0 at exit. Staging page and staging marks have the sizes of the page and its marks. All are the caller's, and nobody else writes to them
 * from a dump's first byte until it is committed. What they held before it changes nothing.
 * `skipped` and `used` are as in ihex_next_chunk. `taken` is how many bytes of the chunk were used. What is left of it is for the next call. With
 * 18, and with 16 for the window, it is 0: the same call would return the same. Returns the first of these that holds:
 *
 *   IHEX_REFUSED and 18   carry_len is under IHEX_CARRY, or `used` is over it. Nothing was read: no byte changes, and listening stands where it stood
 *   IHEX_REFUSED and 16   with a line of 0. stage_len, stated_len and first do not fit, as page_len, marks_len and first in ihex_load. Nothing was
 *                         read here either
 *   IHEX_OK               a dump is accepted, and is ready. start, a, b and c are as in ihex_load. Call ihex_commit before the next ihex_feed: any
 *                         ihex_feed, even of an empty chunk, begins the next text, and drops a dump that was not committed
 *   IHEX_REFUSED          a dump is refused, with its line and values, as ihex_load refuses it. From here on everything through the next end record
 *                         is skipped, since it may be the rest of the refused dump
 *   IHEX_PASSED           that end record has come. A text begins after it
 *   IHEX_USED_UP          the chunk is used up: the next one is wanted, or ihex_pause
 *
 * What is not named is 0. Wherever the chunks are cut, a dump is answered as ihex_load answers the text from its first line on, or
 * ihex_load_srecords, whatever follows it. It is answered as soon as the LF of the line that decides it has come. After an accepted dump the next
 * text begins right after the LF of its end record. Line ends before a dump belong to no dump: `line` counts from the first line that has a byte.
 * A tail of an old dump that is skipped is never ready. A refusal costs at most one good dump after it, and none if ihex_pause is called before
 * that dump. But a tail that follows an accepted dump directly, or that begins after a pause, is a text like any other: bytes alone cannot tell it from a
 * dump. The light shows how its count compares with the last one.
 * A listener made up by hand is answered too. If it stands in a dump and counts 2^64 - 1 records, the next line that has a byte is refused with 16
 * and line 0. */
uint32_t ihex_feed(const uint8_t *chunk, size_t chunk_len,
                   uint8_t *carry, size_t carry_len, uint32_t first,
                   uint8_t *stage, size_t stage_len,
                   uint8_t *stated, size_t stated_len,
                   uint8_t *flags, uint16_t *skipped, uint16_t *base, uint32_t *begin,
                   size_t *lines, size_t *used, size_t *records,
                   size_t *taken,
                   size_t *line, uint8_t *start, uint64_t *a, uint64_t *b, uint64_t *c);

/* Tells a listener that the line is silent, or that the input has ended. What comes after it is a known beginning. Call it after IHEX_USED_UP.
 * In a dump the line that is begun is its last one: returns IHEX_OK or IHEX_REFUSED, as ihex_feed does, but after a refusal nothing is skipped. A
 * dump with no end record is refused with 13 and line 0. Anywhere else it returns IHEX_DONE: there was no dump to end. A CR that came alone before a
 * dump is dropped. 18 and 16 are as in ihex_feed. A dump that is ready stays so. */
uint32_t ihex_pause(uint8_t *carry, size_t carry_len, uint32_t first,
                    uint8_t *stage, size_t stage_len,
                    uint8_t *stated, size_t stated_len,
                    uint8_t *flags, uint16_t *skipped, uint16_t *base, uint32_t *begin,
                    size_t *lines, size_t *used, size_t *records,
                    size_t *line, uint8_t *start, uint64_t *a, uint64_t *b, uint64_t *c);

/* Commits a dump that is ready to the page: the staged bytes at stated places, and the marks. Every other place keeps its byte. Page and marks
 * are then what ihex_load leaves of the dump, or ihex_load_srecords. Returns IHEX_OK, and the listener stands where the next text begins; or
 * IHEX_NOT_READY, if no dump is ready; or IHEX_REFUSED and 16, if stage_len is not page_len, or stated_len and marks_len are not both
 * IHEX_MARKS(page_len). In these two cases nothing changes. Of the listener only the flags are read and written. */
uint32_t ihex_commit(const uint8_t *stage, size_t stage_len,
                     const uint8_t *stated, size_t stated_len,
                     uint8_t *page, size_t page_len,
                     uint8_t *marks, size_t marks_len,
                     uint8_t *flags);

/* What a light shows after a load that returned this code, with the page and the marks that it left. Returns the color, and moves known, as
 * ihex_light does for the dump: call it after ihex_commit with the code 0, and for a refused dump with its code. A code that is not 0 is
 * IHEX_COLOR_BROKEN, and so is a page_len that is not `length`. With the code 0 it is so too if marks_len is not IHEX_MARKS(page_len), or if an unused
 * bit of the marks is set: no load leaves such marks. `first` changes nothing. */
uint8_t ihex_light_after(uint32_t code, uint32_t first, size_t length, size_t high, size_t low,
                         const uint8_t *page, size_t page_len,
                         const uint8_t *marks, size_t marks_len,
                         uint32_t *known);

/* The seven numbers of a listener. */
struct ihex_listener {
    size_t lines, used, records;
    uint32_t begin;
    uint16_t base, skipped;
    uint8_t flags;
};

/* ihex_feed on a listener. */
static inline uint32_t ihex_listener_feed(struct ihex_listener *s, const uint8_t *chunk, size_t chunk_len,
                                          uint8_t *carry, size_t carry_len, uint32_t first,
                                          uint8_t *stage, size_t stage_len, uint8_t *stated, size_t stated_len,
                                          size_t *taken, size_t *line, uint8_t *start, uint64_t *a, uint64_t *b, uint64_t *c)
{
    return ihex_feed(chunk, chunk_len, carry, carry_len, first, stage, stage_len, stated, stated_len, &s->flags, &s->skipped,
                     &s->base, &s->begin, &s->lines, &s->used, &s->records, taken, line, start, a, b, c);
}

/* ihex_pause on a listener. */
static inline uint32_t ihex_listener_pause(struct ihex_listener *s, uint8_t *carry, size_t carry_len, uint32_t first,
                                           uint8_t *stage, size_t stage_len, uint8_t *stated, size_t stated_len,
                                           size_t *line, uint8_t *start, uint64_t *a, uint64_t *b, uint64_t *c)
{
    return ihex_pause(carry, carry_len, first, stage, stage_len, stated, stated_len, &s->flags, &s->skipped,
                      &s->base, &s->begin, &s->lines, &s->used, &s->records, line, start, a, b, c);
}

/* How long the file is that ihex_write_page writes: returns 0 and its length as the value, or IHEX_REFUSED and the first of 16, 19 that
 * holds, with the value of 19; the value of 16 is 0. Of the page only the length counts. The unused bits of the marks must be 0: for 3
 * places with the marks 22 (hexadecimal) the value of 19 is 5. Where page_len is a multiple of 8 no bit is unused, and 19 is not given. */
uint32_t ihex_page_file_length(uint32_t first,
                          const uint8_t *page, size_t page_len,
                          const uint8_t *marks, size_t marks_len,
                          uint64_t *value);

/* Writes the marked places of a page as Intel HEX, from the output's start on: returns 0 and the length as the value, or
 * IHEX_REFUSED and the first of 16, 19, 15 that holds, with the value of 19; that of the others is 0. Place p has the address
 * first + p. Each run of marked places becomes data records of 16 bytes, the last of them shorter where need be, counted from the
 * run's start and afresh at each multiple of 65,536, where a record is cut too. A type 04 record stands before the first data record
 * and wherever the upper 16 bits of the address change; the end record is last, and stands alone where no place is marked. One LF
 * follows each line. Bytes of places without a mark do not matter. Loaded by ihex_load with the same `first` and lengths, the file
 * gives the same marks and the same bytes at them, and IHEX_NO_START: a page has no start. */
uint32_t ihex_write_page(uint32_t first,
                         const uint8_t *page, size_t page_len,
                         const uint8_t *marks, size_t marks_len,
                         uint8_t *out, size_t out_len,
                         uint64_t *value);

/* Saves what can be saved of a noisy capture. A clean file goes into the output, from its start on, and a list of what was dropped into
 * the list. Returns 0, with the length of the clean file in a and the number of entries in b. Or it returns IHEX_REFUSED and 15, if the clean
 * file is longer than the output; or else IHEX_REFUSED and 22, if there are more than list_len / IHEX_DROPPED_SIZE entries. Then a and b are
 * 0, and no byte of output or list changes. After the two lengths no byte changes either.
 * Lines are cut and numbered as in ihex_load. Reading goes on past refused lines and ends at the first end record: what follows it is not
 * read. After a refused line the base is unknown, since the line may stand for a type 02 or 04. Data records are dropped then, also those
 * without data, until the next good type 02 or 04. At the beginning the base is known. Every other record up to the end is kept, in order, and
 * written as ihex_to_record_string writes it, with one LF after it. If the text has no end record, one is added.
 * The list has an entry for each line that was dropped, in order. An end record that was added is its last entry.
 *
 *   why                              a and b     line
 *   IHEX_BASE_UNKNOWN                0           a data record, dropped for its base
 *   1 to 9                           its values  a refused line
 *   IHEX_MISSING_END_OF_FILE_RECORD  0           0: an end record was added
 *
 * The clean file has at most 13 bytes more than the text. The list has at most one entry for each line that has a byte, and one.
 * Nothing is lost in silence: each line with a byte, through the end record, is in the clean file as its record, or in the list. The numbers
 * of lines ascend in the list; only an added end record, which is last, has 0.
 * ihex_load accepts the clean file, or refuses it with 16 for the window, 17 for a byte outside it, or 21: two starts that differ are both
 * kept. Salvaged again, the clean file is itself, and the list is empty.
 * What can be relied on: a text is undamaged if no line of it is refused up to its end record, or up to its end if it has none. Let the lines
 * of the capture stand, in order, for the first lines of an undamaged text. Lines that are not refused are equal. A stretch of one or more refused lines may stand for any stretch of lines that does not hold the end record. Then each byte that
 * the clean file states is stated by the undamaged text before its end record, at the same address. The same holds for an undamaged
 * text that is cut off after any byte; and for one with nothing but empty lines after its end record, in which one byte is changed, lost or
 * added.
 * Not promised, each with a smallest text:
 * - A kept byte may be older than the last one stated. In :0100000011EE, :0100000022DE, :00000001FF the second line was damaged, and stated 22
 *   at address 0. The clean file states 11 there.
 * - If the end record is damaged, what follows it gets in. In :00000001FE, :020000040000FA, :010000009966, :00000001FF the first line was the
 *   end record. The clean file states 99 at address 0. Line 1 is in the list, with refusal 6.
 * - A line that was emptied or lost whole leaves no trace. In an empty line, :0100000011EE, :00000001FF the first line was :020000040001F9.
 *   The clean file states 11 at address 0, not at 10000, and the list is empty.
 * - Two wrong characters in one line can cancel each other. Such a line is not refused: :0100000012ED for :0100000011EE. */
uint32_t ihex_salvage(const uint8_t *text, size_t text_len,
                      uint8_t *out, size_t out_len,
                      uint8_t *list, size_t list_len,
                      uint64_t *a, uint64_t *b);

/* ---- S-records
 *
 * A line is a capital S, one digit for the type, and then hexadecimal digits in either case, two to a byte: the count, the address with its
 * high byte first, the data, and the checksum. The count says how many bytes follow it: address, data and checksum. The checksum is 255
 * minus the low byte of the sum of count, address and data.
 *
 *   type        address bytes   data bytes
 *   S0          2               up to 252; a header
 *   S1, S2, S3  2, 3, 4         up to 252, 251, 250; the address is that of the first byte
 *   S5          2               none; the address is the count of data records (S1 to S3) before it
 *   S7, S8, S9  4, 3, 2         none; the end of the text; the address is where a program starts
 */

/* Reads one line of S-records, without its line end: returns the type's digit, IHEX_S0 to IHEX_S9, with the address in a and the position and
 * length of the data in b and c; or IHEX_REFUSED and the first of these that holds, with its values in a and b:
 *
 *   1   the first byte is not a capital S, or there is none. A line of Intel HEX is 1, and so is a small s
 *   2   a byte after the S is not a hexadecimal digit; a: the position of the first such byte, the S being 0, up to IHEX_MAX_PLACE
 *   3   nothing follows the S
 *   8   the type is not in the table: 4, 6, or A to F; a: the value of its digit
 *   3   after the type there are fewer digits than count, address and checksum take: 8, 10 or 12 with 2, 3 or 4 address bytes
 *   4   over 512 digits after the type
 *   5   an odd number of digits after the type
 *   6   another checksum; a: computed; b: stated
 *   7   the count is not the number of bytes that follow it
 *   9   data in an S5 or an end
 *   10  an S0 to S3, with or without data: position + length exceeds the pool
 *
 * The data of S0 to S3 goes into the pool from `at` on, and no other byte changes. S5 and ends never need the pool: b and c are 0, whatever `at`
 * is.
 * Noise: what ihex_read_record promises about one wrong character holds for Intel HEX alone. The checksum of an S-record does not cover
 * the digit of its type. S1050000AABB95 puts AA at 0 and BB at 1. If its type is changed to 2, it puts BB at AA. As type 0 it is a header, as
 * type 3 a data record without data, and as type 7 an end, whose address a load returns as the start: each is accepted. */
uint32_t ihex_read_srecord(const uint8_t *line, size_t line_len,
                           uint8_t *pool, size_t pool_len, size_t at,
                           uint64_t *a, uint64_t *b, uint64_t *c);

/* Writes the line of an S-record in capitals, without a line end, from the output's start on: returns 0 and its length as the value; or
 * IHEX_BAD_RECORD for a type that is not in the table; or IHEX_REFUSED and the first of these that holds:
 *
 *   11  position + length exceeds the pool, for a record of any type, also without data
 *   9   data in an S5 or an end
 *   12  over 252, 251 or 250 bytes of data, with 2, 3 or 4 address bytes; value: the length
 *   25  the address needs more bytes than the type has. It never does for S3 and S7
 *   15  the line is longer than the output
 *
 * For an S5 the address is the count. What is written reads back to the same record, with the same data: ihex_read_srecord gives the type,
 * the address, the position that it is called with, and the length; for S5 and ends position and length 0. */
uint32_t ihex_to_srecord_string(uint8_t type, uint32_t address, size_t at, size_t len,
                                const uint8_t *pool, size_t pool_len,
                                uint8_t *out, size_t out_len,
                                uint64_t *value);

/* Loads a text of S-records into a page from the address `first` on, as ihex_load does a text of Intel HEX: line ends, empty lines and line
 * numbers, page, marks and their lengths are as there. Returns 0 and counts data records (S1 to S3) in a; or IHEX_REFUSED and 16; or the
 * refusal of the first line that is refused, 1 to 9, 17 or 20, with that line's number in line (else 0); or 13, if no line is refused and none
 * is an end. The refusal's values are in a and b. The address of the end is the start: after an accepted load start is
 * IHEX_START_LINEAR_ADDRESS, b the address and c 0. So S9030000FC states the start 0, and 21 is not given. After a refusal start is IHEX_NO_START, and c is 0.
 * Byte i of a data record lies at (address + i) modulo 2^32. There are no segments: S105FFFFAABB97 puts AA at FFFF and BB at 10000.
 * An S0 places nothing and is not counted. An S5 may stand anywhere, and more than once. It is compared with all data records before it, those
 * without data too, and not modulo 65,536: after 65,536 data records S5030000FC is refusal 20 with a = 0 and b = 65,536.
 * The first S7, S8 or S9 ends the text, whatever types the data has. What follows its line changes nothing: no answer, page or mark.
 * A refused load changes no byte of page or marks. What they held before changes no answer.
 * If ihex_load and ihex_load_srecords accept two texts that state the same bytes at the same addresses in the same order, they leave the same
 * page and marks, in one window and over the same old page.
 * What ihex_load says of joined texts is for Intel HEX alone.
 * Noise: what ihex_load promises about damaged texts holds for Intel HEX alone. ihex_read_srecord says why. A data record whose line is lost or
 * doubled whole shows only in an S5 after it. One that is read as another type may be refused, may show in an S5, or may go unnoticed. */
uint32_t ihex_load_srecords(const uint8_t *text, size_t text_len, uint32_t first,
                            uint8_t *page, size_t page_len,
                            uint8_t *marks, size_t marks_len,
                            size_t *line, uint8_t *start, uint64_t *a, uint64_t *b, uint64_t *c);

/* Loads a text of S-records for one owner through a table into the pool. What is returned, line, start, a, b and c are as in
 * ihex_load_srecords, with the two differences that ihex_load_table has from ihex_load: 23 in place of 16, and the meaning of 17. Of table, pool
 * and marks all is as in ihex_load_table. The two owners need not have texts of the same kind. With the one window that is named there, the load
 * is that of ihex_load_srecords in the same way. */
uint32_t ihex_load_srecords_table(const uint8_t *text, size_t text_len, uint32_t owner,
                                  const void *table, size_t table_len,
                                  uint8_t *pool, size_t pool_len,
                                  uint8_t *marks, size_t marks_len,
                                  size_t *line, uint8_t *start, uint64_t *a, uint64_t *b, uint64_t *c);

/* Loads a dump of S-records into the page of a light, as ihex_load_srecords does. All else is as in ihex_light, with the end of the text in place of
 * the end record. Dumps of both kinds may follow each other on one light. */
uint32_t ihex_light_srecords(const uint8_t *text, size_t text_len,
                             uint32_t first, size_t length, size_t high, size_t low,
                             uint8_t *page, size_t page_len,
                             uint8_t *marks, size_t marks_len,
                             uint32_t *known, uint8_t *color,
                             size_t *line, uint8_t *start, uint64_t *a, uint64_t *b, uint64_t *c);

#ifdef __cplusplus
}
#endif

#endif
