/* A disc between khstore.c and its file, linked in with --wrap: it writes late, in random order, and loses what waits.
 *
 * A page that khstore.c writes waits in memory. Now and then some that wait go out to the file, in random order; a
 * flush sends all out. So where the process is killed, the file has the pages that went out, and the rest is lost. A
 * flush may fail: then some pages have gone out, and others are taken for written and never go out, though they are
 * read back as if they had. */
#ifndef TRIAL_FLASH_H
#define TRIAL_FLASH_H

#include "random.h"

#include "khstore.h"

/* Drivers that break one rule of "Your flash driver" each. */
typedef enum {
    BROKEN_NOT,
    BROKEN_OPEN,  /* page 0 is not written after an opening */
    BROKEN_SYNC,  /* a flush returns while pages wait */
    BROKEN_EARLY, /* working pages are written ahead of a sync, at moments of their own */
    BROKEN_TORN,  /* a page is not written whole */
    BROKEN_CACHE  /* after a flush that failed, what is read back is taken for written */
} Broken;

/* A process starts: nothing waits. */
void flash_start(uint64_t seed, Broken broken);

/* The process is killed after so many more points. Each page that goes out is one, and each flash_point. */
void flash_kill_after(uint32_t points);
void flash_point(void);

/* Whether khs_open is running: the pages that BROKEN_OPEN and BROKEN_CACHE skip are written then. */
void flash_opening(bool opening);

/* Writes and flushes of khstore.c fail with EIO after so many more; or about one flush in `times` does. */
void flash_fail_after(uint32_t more);
void flash_fail_flushes(uint32_t times);

/* Sends some working pages out to the file, in random order. */
void flash_working(const KhStore *store);

#endif
