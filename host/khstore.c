/* A store in a file: khirpando.h's "Your flash driver", kept over one file of pages. */
#define _DEFAULT_SOURCE

#include "khstore.h"

#include <errno.h>
#include <fcntl.h>
#include <limits.h>
#include <string.h>
#include <sys/file.h>
#include <sys/stat.h>
#include <unistd.h>

/* Both tables as every call takes them. */
#define TABLES(store) (store)->working, (store)->bytes, (store)->stable, (store)->bytes

/* The same with the session's numbers, as the lean calls take them: the session stays where it is. */
#define LEAN(store) TABLES(store), (store)->session.n, (store)->session.c

/* ---- What a call tells ---- */

static KhTold answered(uint32_t answer)
{
    return (KhTold){.answer = answer, .trouble = KHS_FINE, .error = 0};
}

/* The same of a call that walks. */
static KhTold walked(uint32_t answer, uint32_t mended, uint32_t reason)
{
    return (KhTold){.answer = answer, .mended = mended, .reason = reason, .trouble = KHS_FINE, .error = 0};
}

static KhTold in_trouble(KhTrouble trouble)
{
    return (KhTold){.answer = KHS_NO_ANSWER, .trouble = trouble, .error = 0};
}

static KhTold refused_by_system(int error)
{
    return (KhTold){.answer = KHS_NO_ANSWER, .trouble = KHS_SYSTEM, .error = error};
}

static bool fine(KhTold told)
{
    return told.trouble == KHS_FINE;
}

bool khs_missing(KhTold told)
{
    return told.trouble == KHS_UNFINISHED || (told.trouble == KHS_SYSTEM && told.error == ENOENT);
}

const char *khs_word(KhTold told)
{
    static const char *const words[] = {"fine", "closed", "locked", "no store", "unfinished", "exists"};
    if (told.trouble == KHS_FINE)
        return kh_word(told.answer);
    return told.trouble == KHS_SYSTEM ? strerror(told.error) : words[told.trouble];
}

/* ---- Bytes of the file. Each tells KH_DONE, or the system's error. ---- */

static KhTold read_bytes(int file, uint8_t *to, size_t count)
{
    off_t from = 0;
    while (count > 0) {
        ssize_t got = pread(file, to, count, from);
        if (got == 0)
            return in_trouble(KHS_NOSTORE); /* cut short since it was measured */
        if (got < 0 && errno != EINTR)
            return refused_by_system(errno);
        if (got > 0) {
            to += got;
            from += got;
            count -= (size_t)got;
        }
    }
    return answered(KH_DONE);
}

static KhTold write_bytes(int file, const uint8_t *bytes, size_t count, off_t to)
{
    while (count > 0) {
        ssize_t put = pwrite(file, bytes, count, to);
        if (put == 0)
            return refused_by_system(EIO);
        if (put < 0 && errno != EINTR)
            return refused_by_system(errno);
        if (put > 0) {
            bytes += put;
            to += put;
            count -= (size_t)put;
        }
    }
    return answered(KH_DONE);
}

/* Waits until all that was written is on the disc. */
static KhTold flush(int file)
{
    return fdatasync(file) == 0 ? answered(KH_DONE) : refused_by_system(errno);
}

/* ---- Pages ---- */

static size_t pages_of(const KhStore *store)
{
    return store->bytes / KH_PAGE_BYTES;
}

/* The page is handed to the system in one piece of memory that is there: it takes all of it or nothing, even if the
 * process is killed meanwhile. */
static KhTold write_page(const KhStore *store, size_t page)
{
    _Alignas(KH_PAGE_BYTES) uint8_t bytes[KH_PAGE_BYTES];
    size_t at = page * KH_PAGE_BYTES;
    memcpy(bytes, store->stable + at, KH_PAGE_BYTES);
    return write_bytes(store->file, bytes, KH_PAGE_BYTES, (off_t)at);
}

/* Puts the marked stable pages on the disc and waits for them. Their order is free. */
static KhTold keep_pages(const KhStore *store, const bool marked[KH_PAGES_MOST])
{
    for (size_t page = 0; page < pages_of(store); page++) {
        KhTold told = marked[page] ? write_page(store, page) : answered(KH_DONE);
        if (!fine(told))
            return told;
    }
    return flush(store->file);
}

/* The pages that a sync is going to change: those that differ, and page 0, which gets a number. */
static void mark_changed(const KhStore *store, bool changed[KH_PAGES_MOST])
{
    memset(changed, false, KH_PAGES_MOST * sizeof *changed);
    changed[0] = true;
    for (size_t page = 1; page < pages_of(store); page++) {
        size_t at = page * KH_PAGE_BYTES;
        changed[page] = memcmp(store->working + at, store->stable + at, KH_PAGE_BYTES) != 0;
    }
}

/* ---- Opening and closing ---- */

void khs_close(KhStore *store)
{
    if (store->open)
        close(store->file);
    store->open = false;
}

/* After trouble no call is made on these tables any more; after any refusal there is no store to call. */
static KhTold closed_unless_done(KhStore *store, KhTold told)
{
    if (told.answer != KH_DONE)
        khs_close(store);
    return told;
}

/* Opens the file and locks it, or leaves it closed. */
static KhTold take_file(KhStore *store, const char *path, int flags)
{
    if (store->open)
        return in_trouble(KHS_LOCKED);
    int file = open(path, flags | O_RDWR | O_CLOEXEC, 0666);
    if (file < 0)
        return refused_by_system(errno);
    store->file = file;
    store->open = true;
    if (flock(file, LOCK_EX | LOCK_NB) != 0)
        return closed_unless_done(store, errno == EWOULDBLOCK ? in_trouble(KHS_LOCKED) : refused_by_system(errno));
    return answered(KH_DONE);
}

static bool is_zero(const uint8_t *page)
{
    static const uint8_t zero[KH_PAGE_BYTES];
    return memcmp(page, zero, KH_PAGE_BYTES) == 0;
}

/* Whether the table that was read is what a creation leaves that did not end: page 0, which it writes last, is zero,
 * and any other page zero or as format makes it. So there is no certificate in it. */
static bool is_unfinished(KhStore *store)
{
    if (!is_zero(store->stable) || kh_format(store->stable, store->bytes, store->working, store->bytes) != KH_DONE)
        return false;
    for (size_t page = 1; page < pages_of(store); page++) {
        const uint8_t *is = store->stable + page * KH_PAGE_BYTES;
        const uint8_t *formatted = store->working + page * KH_PAGE_BYTES;
        if (!is_zero(is) && memcmp(is, formatted, KH_PAGE_BYTES) != 0)
            return false;
    }
    return true;
}

/* Measures the file and reads it: a table, or unfinished, or no store. */
static KhTold read_table(KhStore *store)
{
    struct stat found;
    if (fstat(store->file, &found) != 0)
        return refused_by_system(errno);
    if (!S_ISREG(found.st_mode) || found.st_size > (off_t)sizeof store->stable)
        return in_trouble(KHS_NOSTORE);
    store->bytes = (size_t)found.st_size;
    if (store->bytes == 0)
        return in_trouble(KHS_UNFINISHED);
    if (store->bytes % KH_PAGE_BYTES != 0 || pages_of(store) < KH_PAGES_LEAST)
        return in_trouble(KHS_NOSTORE);
    KhTold told = read_bytes(store->file, store->stable, store->bytes);
    return fine(told) && is_unfinished(store) ? in_trouble(KHS_UNFINISHED) : told;
}

/* Opens the stable table that was read or formatted. Page 0 must be on the disc before any page of a later call. The
 * others are written with the bytes they have: after a flush that failed, what was read may be in a cache alone. */
static KhTold begin(KhStore *store)
{
    bool all[KH_PAGES_MOST];
    memset(all, true, sizeof all);
    KhAnswered opened = kh_open(TABLES(store));
    store->session = opened.session;
    return opened.answer == KH_DONE ? keep_pages(store, all) : answered(opened.answer);
}

KhTold khs_open(KhStore *store, const char *path)
{
    KhTold told = take_file(store, path, 0);
    if (!fine(told))
        return told;
    told = read_table(store);
    return closed_unless_done(store, fine(told) ? begin(store) : told);
}

/* ---- Creating ---- */

/* A new name outlasts a crash once its folder is on the disc. */
static KhTold flush_folder(const char *path)
{
    char folder[PATH_MAX];
    const char *slash = strrchr(path, '/');
    size_t length = slash ? (size_t)(slash - path) + 1 : 1;
    if (length >= sizeof folder)
        return refused_by_system(ENAMETOOLONG);
    memcpy(folder, slash ? path : ".", length);
    folder[length] = '\0';
    int file = open(folder, O_RDONLY | O_DIRECTORY | O_CLOEXEC);
    if (file < 0)
        return refused_by_system(errno);
    KhTold told = fsync(file) == 0 ? answered(KH_DONE) : refused_by_system(errno);
    close(file);
    return told;
}

/* Writes the formatted table into an empty file. Page 0 comes last, when all others are on the disc. */
static KhTold write_new(const KhStore *store, const char *path)
{
    bool marked[KH_PAGES_MOST];
    memset(marked, true, sizeof marked);
    marked[0] = false;
    if (ftruncate(store->file, 0) != 0 || ftruncate(store->file, (off_t)store->bytes) != 0)
        return refused_by_system(errno);
    KhTold told = keep_pages(store, marked);
    if (!fine(told))
        return told;
    memset(marked, false, sizeof marked);
    marked[0] = true;
    told = keep_pages(store, marked);
    return fine(told) ? flush_folder(path) : told;
}

/* The file is taken: makes it a store if nothing is in it. */
static KhTold fill_new(KhStore *store, const char *path, size_t bytes)
{
    KhTold told = read_table(store);
    if (told.trouble != KHS_UNFINISHED)
        return told.trouble == KHS_SYSTEM ? told : in_trouble(KHS_EXISTS);
    store->bytes = bytes;
    told = answered(kh_format(TABLES(store)));
    if (told.answer == KH_DONE)
        told = write_new(store, path);
    return told.answer == KH_DONE ? begin(store) : told;
}

KhTold khs_create(KhStore *store, const char *path, unsigned pages)
{
    if (pages < KH_PAGES_LEAST || pages > KH_PAGES_MOST)
        return answered(KH_LENGTH);
    KhTold told = take_file(store, path, O_CREAT);
    return fine(told) ? closed_unless_done(store, fill_new(store, path, KH_TABLE_BYTES(pages))) : told;
}

/* ---- Calls in memory ---- */

KhTold khs_insert(KhStore *store, uint16_t model, uint32_t serial, uint16_t issue, uint32_t record)
{
    if (!store->open)
        return in_trouble(KHS_CLOSED);
    KhChanged inserted = kh_insert(TABLES(store), store->session, model, serial, issue, record);
    store->session = inserted.session;
    return walked(inserted.answer, inserted.mended, inserted.reason);
}

KhTold khs_withdraw(KhStore *store, uint16_t model, uint32_t serial, uint16_t issue)
{
    if (!store->open)
        return in_trouble(KHS_CLOSED);
    KhChanged withdrawn = kh_withdraw(TABLES(store), store->session, model, serial, issue);
    store->session = withdrawn.session;
    return walked(withdrawn.answer, withdrawn.mended, withdrawn.reason);
}

KhTold khs_batch(KhStore *store, KhItem *items, size_t count)
{
    if (!store->open)
        return in_trouble(KHS_CLOSED);
    KhChanged delivered = kh_batch(TABLES(store), store->session, items, count);
    store->session = delivered.session;
    return walked(delivered.answer, delivered.mended, delivered.reason);
}

KhTold khs_read_file(KhStore *store, const uint8_t *file, size_t length, uint32_t *done, uint64_t *place)
{
    *done = 0;
    *place = 0;
    if (!store->open)
        return in_trouble(KHS_CLOSED);
    KhRead read = kh_read_file(TABLES(store), store->session, file, length);
    store->session = read.session;
    *done = read.done;
    *place = read.place;
    return walked(read.answer, read.mended, read.reason);
}

KhTold khs_lookup(KhStore *store, uint16_t model, uint32_t serial, uint16_t issue, uint32_t *record)
{
    *record = 0;
    if (!store->open)
        return in_trouble(KHS_CLOSED);
    KhLeanLooked looked = kh_lean_lookup(LEAN(store), model, serial, issue);
    *record = looked.record;
    return walked(looked.answer, looked.mended, looked.reason);
}

KhTold khs_newest(KhStore *store, uint16_t model, uint32_t serial, uint16_t *issue, uint32_t *record)
{
    *issue = 0;
    *record = 0;
    if (!store->open)
        return in_trouble(KHS_CLOSED);
    KhLeanNewest newest = kh_lean_newest(LEAN(store), model, serial);
    *issue = (uint16_t)newest.issue;
    *record = newest.record;
    return walked(newest.answer, newest.mended, newest.reason);
}

KhTold khs_has_any(KhStore *store, uint16_t model, uint32_t serial, bool *any)
{
    *any = false;
    if (!store->open)
        return in_trouble(KHS_CLOSED);
    KhLeanAny has = kh_lean_has_any(LEAN(store), model, serial);
    *any = has.any == 1;
    return walked(has.answer, has.mended, has.reason);
}

uint32_t khs_total(const KhStore *store)
{
    return store->open ? store->session.total : 0;
}

KhTold khs_list(KhStore *store, uint64_t start, uint64_t *keys, uint32_t *records, size_t room, size_t *count)
{
    *count = 0;
    if (!store->open)
        return in_trouble(KHS_CLOSED);
    KhLeanListed listed = kh_lean_list(LEAN(store), start, keys, room, records, room);
    *count = (size_t)listed.count;
    return walked(listed.answer, listed.mended, listed.reason);
}

KhTold khs_write_file(KhStore *store, uint8_t *out, size_t room, size_t *length)
{
    *length = 0;
    if (!store->open)
        return in_trouble(KHS_CLOSED);
    KhLeanWritten written = kh_lean_write_file(LEAN(store), out, room);
    *length = (size_t)written.length;
    return walked(written.answer, written.mended, written.reason);
}

/* ---- Sync ---- */

/* All changed pages are on the disc before anyone is told, and before any later page is written. */
KhTold khs_sync(KhStore *store)
{
    if (!store->open)
        return in_trouble(KHS_CLOSED);
    bool changed[KH_PAGES_MOST];
    mark_changed(store, changed);
    KhAnswered synced = kh_sync(TABLES(store), store->session);
    store->session = synced.session;
    if (synced.answer != KH_DONE)
        return answered(synced.answer);
    return closed_unless_done(store, keep_pages(store, changed));
}
