/* gateway FILE: listens on standard input for dumps of Intel HEX, and prints a line for each as soon as it is decided. At the end of the input the
 * page goes into FILE: written under another name, synced and renamed, so that a crash leaves the old file whole. */
#define _POSIX_C_SOURCE 200809L
#include <fcntl.h>
#include <ihex.h>
#include <stdio.h>
#include <unistd.h>

enum { FIRST = 0x20000100, PLACES = 36, HIGH = 30, LOW = 31 }; /* the page, and the places of the controller's count in it */
static uint8_t page[PLACES], marks[IHEX_MARKS(PLACES)], stage[PLACES], stated[IHEX_MARKS(PLACES)], carry[IHEX_CARRY];
static uint8_t chunk[512], out[7 * PLACES + 58], start;
static struct ihex_listener listener; /* all 0: the input begins with a dump */
static uint32_t code, dumps, known = IHEX_COUNT_UNKNOWN;
static size_t taken, line; static uint64_t a, b, c;

/* Commits a dump that is ready, shows the light, and prints a line. */
static void decided(void)
{
    static const char *const colors[] = {"broken", "no count", "first", "green", "stale", "restarted"};
    if (code == IHEX_OK)
        ihex_commit(stage, sizeof stage, stated, sizeof stated, page, sizeof page, marks, sizeof marks, &listener.flags);
    uint8_t color = ihex_light_after(code, FIRST, PLACES, HIGH, LOW, page, sizeof page, marks, sizeof marks, &known);
    printf("dump %u: %s", (unsigned)++dumps, colors[color]);
    if (color > IHEX_COLOR_NO_COUNT)
        printf(", count %u", (unsigned)known);
    code == IHEX_OK ? printf(", %u data records\n", (unsigned)a)
                    : printf(", refusal %u, line %u\n", (unsigned)(code - IHEX_REFUSED), (unsigned)line);
    fflush(stdout);
}

/* Returns the exit status: 0 if the page is in the file. */
static int save(const char *file)
{
    char other[4096];
    int fd = snprintf(other, sizeof other, "%s.new", file) < (int)sizeof other ? open(other, O_WRONLY | O_CREAT | O_TRUNC, 0666) : -1;
    if (fd >= 0 && ihex_write_page(FIRST, page, sizeof page, marks, sizeof marks, out, sizeof out, &a) == IHEX_OK &&
        write(fd, out, a) == (ssize_t)a && fsync(fd) == 0 && close(fd) == 0 && rename(other, file) == 0)
        return 0;
    perror(file);
    return 2;
}

int main(int words, char **word)
{
    ssize_t n = -1;
    while (words == 2 && (n = read(0, chunk, sizeof chunk)) > 0)
        for (size_t at = 0; at < (size_t)n; at += taken) {
            code = ihex_listener_feed(&listener, chunk + at, (size_t)n - at, carry, sizeof carry, FIRST, stage, sizeof stage, stated,
                                      sizeof stated, &taken, &line, &start, &a, &b, &c);
            if (taken == 0)
                return 2; /* nothing is read if page, marks or carry do not fit */
            if (code != IHEX_USED_UP && code != IHEX_PASSED)
                decided();
        }
    code = ihex_listener_pause(&listener, carry, sizeof carry, FIRST, stage, sizeof stage, stated, sizeof stated, &line, &start, &a, &b, &c);
    if (code != IHEX_DONE)
        decided();
    return n == 0 ? save(word[1]) : 2;
}
