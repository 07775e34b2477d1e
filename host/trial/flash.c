#define _DEFAULT_SOURCE

#include "flash.h"

#include <errno.h>
#include <signal.h>
#include <string.h>
#include <unistd.h>

ssize_t __real_pwrite(int file, const void *bytes, size_t count, off_t to);
ssize_t __real_pread(int file, void *bytes, size_t count, off_t from);
ssize_t __wrap_pwrite(int file, const void *bytes, size_t count, off_t to);
ssize_t __wrap_pread(int file, void *bytes, size_t count, off_t from);
int __wrap_fsync(int file);
int __wrap_fdatasync(int file);

static struct {
    Random random;
    Broken broken;
    uint32_t points;  /* until the process is killed; 0 for never */
    uint32_t failing; /* 1 if writes and flushes fail, n + 1 if they do after n more; 0 for never */
    uint32_t flushes; /* one flush in so many fails; 0 for none */
    bool opening;
    int file;
    bool waits[KH_PAGES_MOST]; /* to go out */
    bool held[KH_PAGES_MOST];  /* not in the file, and read back from here */
    uint8_t pages[KH_PAGES_MOST][KH_PAGE_BYTES];
} flash;

void flash_start(uint64_t seed, Broken broken)
{
    memset(&flash, 0, sizeof flash);
    flash.random.at = seed;
    flash.broken = broken;
}

void flash_kill_after(uint32_t points)
{
    flash.points = points;
}

void flash_point(void)
{
    if (flash.points > 0 && --flash.points == 0)
        kill(getpid(), SIGKILL);
}

void flash_opening(bool opening)
{
    flash.opening = opening;
}

void flash_fail_after(uint32_t more)
{
    flash.failing = more + 1;
}

void flash_fail_flushes(uint32_t times)
{
    flash.flushes = times;
}

/* The numbers 0 to 127 in random order. */
static void shuffle(uint8_t order[KH_PAGES_MOST])
{
    for (uint32_t i = 0; i < KH_PAGES_MOST; i++) {
        uint32_t j = random_below(&flash.random, i + 1);
        order[i] = order[j];
        order[j] = (uint8_t)i;
    }
}

static void put(int file, const uint8_t *bytes, size_t page)
{
    _Alignas(KH_PAGE_BYTES) uint8_t page_bytes[KH_PAGE_BYTES]; /* in one piece, as khstore.c has it */
    size_t count = KH_PAGE_BYTES;
    memcpy(page_bytes, bytes, count);
    if (flash.broken == BROKEN_TORN && random_once_in(&flash.random, 8))
        count = 1 + random_below(&flash.random, KH_PAGE_BYTES - 1);
    if (__real_pwrite(file, page_bytes, count, (off_t)(page * KH_PAGE_BYTES)) != (ssize_t)count)
        _exit(3);
    flash_point();
}

/* Sends out each page that waits, or about one in `times`. */
static void send_out(uint32_t times)
{
    uint8_t order[KH_PAGES_MOST];
    shuffle(order);
    for (size_t i = 0; i < KH_PAGES_MOST; i++) {
        uint8_t page = order[i];
        if (flash.waits[page] && random_once_in(&flash.random, times)) {
            flash.waits[page] = false;
            flash.held[page] = false;
            put(flash.file, flash.pages[page], page);
        }
    }
}

void flash_working(const KhStore *store)
{
    uint8_t order[KH_PAGES_MOST];
    uint32_t times = 1 + random_below(&flash.random, 4);
    shuffle(order);
    for (size_t i = 0; i < KH_PAGES_MOST; i++)
        if (order[i] < store->bytes / KH_PAGE_BYTES && random_once_in(&flash.random, times))
            put(store->file, store->working + order[i] * KH_PAGE_BYTES, order[i]);
}

/* Once a write or a flush has failed, all fail. */
static bool fails(void)
{
    if (flash.failing == 1) {
        errno = EIO;
        return true;
    }
    if (flash.failing > 1)
        flash.failing--;
    return false;
}

/* A page is written: it waits. What is no page goes straight through. */
ssize_t __wrap_pwrite(int file, const void *bytes, size_t count, off_t to)
{
    if (fails())
        return -1;
    if (count != KH_PAGE_BYTES)
        return __real_pwrite(file, bytes, count, to);
    size_t page = (size_t)to / KH_PAGE_BYTES;
    if (flash.opening && flash.broken == (page == 0 ? BROKEN_OPEN : BROKEN_CACHE))
        return (ssize_t)count;
    flash.file = file;
    flash.waits[page] = true;
    flash.held[page] = true;
    memcpy(flash.pages[page], bytes, count);
    if (random_once_in(&flash.random, 16))
        send_out(2);
    return (ssize_t)count;
}

/* What khstore.c reads as a whole table comes from here where it is held. */
ssize_t __wrap_pread(int file, void *bytes, size_t count, off_t from)
{
    ssize_t got = __real_pread(file, bytes, count, from);
    if (from == 0 && got > 0)
        for (size_t page = 0; page < (size_t)got / KH_PAGE_BYTES; page++)
            if (flash.held[page])
                memcpy((uint8_t *)bytes + page * KH_PAGE_BYTES, flash.pages[page], KH_PAGE_BYTES);
    return got;
}

int __wrap_fdatasync(int file)
{
    (void)file;
    if (fails())
        return -1;
    if (flash.flushes > 0 && random_once_in(&flash.random, flash.flushes)) {
        send_out(2);
        memset(flash.waits, false, sizeof flash.waits);
        errno = EIO;
        return -1;
    }
    send_out(flash.broken == BROKEN_SYNC && !flash.opening ? 2 : 1);
    return 0;
}

int __wrap_fsync(int file)
{
    return __wrap_fdatasync(file);
}
