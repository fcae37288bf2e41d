/* How much of the stack a call takes: it is made on a stack of its own, filled with one byte, and what is another byte then was used. Each is made
 * once before, so that what the linker does at a first call is not counted. Prints a row for each function, in bytes. With two numbers it fails
 * where ihex_ask takes more than the first, and where a light takes more beside what its load takes than the second. */
#define _DEFAULT_SOURCE
#include <ihex.h>
#include <stdio.h>
#include <stdlib.h>
#include <string.h>
#include <ucontext.h>

#define ROOM 65536
#define UNUSED 0xA5

static uint8_t stack[ROOM], page[256], marks[IHEX_MARKS(256)], pool[IHEX_MAX_PAYLOAD], out[512], list[64];
static uint8_t stage[256], stated[IHEX_MARKS(256)], carry[IHEX_CARRY];
static struct ihex_listener listener;
static const uint8_t text[] = ":020000040001F9\n:100000000102030405060708090A0B0C0D0E0F1068\n:04000005000000CD2A\n:00000001FF\n";
static const uint8_t srecords[] = "S315000100000102030405060708090A0B0C0D0E0F1061\nS5030001FB\nS9030000FC\n";
static ucontext_t back;
static size_t line, position, taken;
static uint8_t start, flags, color;
static uint64_t a, b, c;
static uint32_t answer, known;

static void nothing(void)
{
}

static void ask(void)
{
    answer = ihex_ask(text, sizeof text - 1, 0x10004, &line, &a, &b);
}

static void next(void)
{
    position = line = 0;
    flags = IHEX_STOP_AFTER_FIRST_ERROR | IHEX_STOP_AFTER_EOF;
    while (ihex_next(text, sizeof text - 1, pool, sizeof pool, 0, &position, &line, &flags, &a, &b, &c) != IHEX_DONE)
        ;
    answer = IHEX_OK;
}

static void load(void)
{
    answer = ihex_load(text, sizeof text - 1, 0x10000, page, sizeof page, marks, sizeof marks, &line, &start, &a, &b, &c);
}

static void load_srecords(void)
{
    answer = ihex_load_srecords(srecords, sizeof srecords - 1, 0x10000, page, sizeof page, marks, sizeof marks, &line, &start, &a, &b, &c);
}

/* a light that is green: the count moves from 0101 to 0102 */
static void light(void)
{
    known = 0x0101;
    answer = ihex_light(text, sizeof text - 1, 0x10000, sizeof page, 0, 1, page, sizeof page, marks, sizeof marks, &known, &color, &line, &start, &a,
                        &b, &c);
    answer |= color != IHEX_COLOR_GREEN;
}

static void light_srecords(void)
{
    known = 0x0101;
    answer = ihex_light_srecords(srecords, sizeof srecords - 1, 0x10000, sizeof page, 0, 1, page, sizeof page, marks, sizeof marks, &known, &color,
                                 &line, &start, &a, &b, &c);
    answer |= color != IHEX_COLOR_GREEN;
}

static void salvage(void)
{
    answer = ihex_salvage(text, sizeof text - 1, out, sizeof out, list, sizeof list, &a, &b);
}

/* a text that is fed in chunks of 20 bytes, and is ready by its last line */
static void feed_text(const uint8_t *bytes, size_t n, uint8_t kind)
{
    size_t at;
    memset(&listener, 0, sizeof listener);
    listener.flags = kind;
    for (at = 0; at < n; at += taken)
        answer = ihex_listener_feed(&listener, bytes + at, n - at < 20 ? n - at : 20, carry, sizeof carry, 0x10000, stage, sizeof stage, stated,
                                    sizeof stated, &taken, &line, &start, &a, &b, &c);
}

static void feed(void)
{
    feed_text(text, sizeof text - 1, IHEX_FRONT);
}

static void feed_srecords(void)
{
    feed_text(srecords, sizeof srecords - 1, IHEX_SRECORDS);
}

/* a dump that a pause ends: its end record is in the carry, without an LF */
static void rest(void)
{
    static const char last[] = ":00000001FF";
    memset(&listener, 0, sizeof listener);
    listener.flags = IHEX_TAKING;
    listener.used = sizeof last - 1;
    memcpy(carry, last, sizeof last - 1);
    answer = ihex_listener_pause(&listener, carry, sizeof carry, 0x10000, stage, sizeof stage, stated, sizeof stated, &line, &start, &a, &b, &c);
}

static void commit(void)
{
    uint8_t ready = IHEX_READY;
    answer = ihex_commit(stage, sizeof stage, stated, sizeof stated, page, sizeof page, marks, sizeof marks, &ready);
}

static void light_after(void)
{
    known = 0x0101;
    answer = ihex_light_after(IHEX_OK, 0x10000, sizeof page, 0, 1, page, sizeof page, marks, sizeof marks, &known) != IHEX_COLOR_GREEN;
}

/* the bytes of the stack that a call took, from the first that it left as it was */
static size_t measured(void (*call)(void))
{
    ucontext_t there;
    size_t left = 0;
    memset(stack, UNUSED, sizeof stack);
    getcontext(&there);
    there.uc_stack.ss_sp = stack;
    there.uc_stack.ss_size = sizeof stack;
    there.uc_link = &back;
    makecontext(&there, call, 0);
    swapcontext(&back, &there);
    while (left < sizeof stack && stack[left] == UNUSED)
        left++;
    return sizeof stack - left;
}

/* a call, the call that it is made upon, and what it may take more than that: a word of the command, or no limit */
static const struct {
    const char *name;
    void (*call)(void), (*upon)(void);
    int word;
} calls[] = {
    {"ihex_ask", ask, nothing, 1},
    {"ihex_next", next, nothing, 0},
    {"ihex_load", load, nothing, 0},
    {"ihex_load_srecords", load_srecords, nothing, 0},
    {"ihex_light", light, load, 2},
    {"ihex_light_srecords", light_srecords, load_srecords, 2},
    {"ihex_salvage", salvage, nothing, 0},
    {"ihex_feed", feed, nothing, 0},
    {"ihex_feed, S-records", feed_srecords, nothing, 0},
    {"ihex_pause", rest, nothing, 0},
    {"ihex_commit", commit, nothing, 0},
    {"ihex_light_after", light_after, nothing, 0},
};

int main(int words, char **word)
{
    size_t none = measured(nothing), i, bytes;
    int failed = 0;
    printf("| Function | Stack, bytes |\n|---|---|\n");
    for (i = 0; i < sizeof calls / sizeof calls[0]; i++) {
        size_t upon = measured(calls[i].upon);
        calls[i].call();
        bytes = measured(calls[i].call);
        printf("| %s | %zu |\n", calls[i].name, bytes - none);
        failed |= answer != IHEX_OK || (calls[i].word && words > calls[i].word && bytes > upon + strtoul(word[calls[i].word], NULL, 10));
    }
    return failed;
}
