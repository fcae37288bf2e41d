/* Included first by a program that watches how a text is read. The text lies in pages of memory, of which only two may be read at a time: the last
 * one that was begun, and the one before it. To read any other counts as a step, forward or back. */
#define _DEFAULT_SOURCE
#include <signal.h>
#include <stdint.h>
#include <string.h>
#include <sys/mman.h>
#include <unistd.h>

static struct {
    uint8_t *all;
    size_t page, pages, last;
    unsigned forward, back;
} watched;

/* the two pages, up to the last one */
static void open_pages(void)
{
    size_t from = watched.last ? watched.last - 1 : 0;
    mprotect(watched.all, watched.pages * watched.page, PROT_NONE);
    mprotect(watched.all + from * watched.page, (watched.last + 1 - from) * watched.page, PROT_READ);
}

static void on_step(int number, siginfo_t *info, void *context)
{
    uintptr_t address = (uintptr_t)info->si_addr, all = (uintptr_t)watched.all;
    size_t at = (address - all) / watched.page;
    (void)number;
    (void)context;
    if (address < all || at >= watched.pages)
        _exit(2);
    if (at < watched.last)
        watched.back++;
    else
        watched.forward++;
    watched.last = at;
    open_pages();
}

/* a text of so many bytes, watched from its first page on: 1 if that can be done */
static int watch(const void *text, size_t len)
{
    struct sigaction steps;
    watched.page = (size_t)sysconf(_SC_PAGESIZE);
    watched.pages = len / watched.page + 1;
    watched.all = mmap(NULL, watched.pages * watched.page, PROT_READ | PROT_WRITE, MAP_PRIVATE | MAP_ANONYMOUS, -1, 0);
    if (watched.all == MAP_FAILED)
        return 0;
    memcpy(watched.all, text, len);
    watched.last = 0;
    watched.forward = watched.back = 0;
    memset(&steps, 0, sizeof steps);
    steps.sa_sigaction = on_step;
    steps.sa_flags = SA_SIGINFO;
    if (sigaction(SIGSEGV, &steps, NULL))
        return 0;
    open_pages();
    return 1;
}

static void unwatch(void)
{
    signal(SIGSEGV, SIG_DFL);
    munmap(watched.all, watched.pages * watched.page);
}
