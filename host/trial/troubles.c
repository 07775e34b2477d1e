/* What khstore.c tells where something is wrong with the file or the system, and that it then leaves the file alone.
 *
 *     troubles FILE
 *
 * Ends with status 1 at the first thing that is not as expected. */
#define _DEFAULT_SOURCE

#include "flash.h"

#include <errno.h>
#include <fcntl.h>
#include <stdio.h>
#include <stdlib.h>
#include <string.h>
#include <sys/stat.h>
#include <sys/wait.h>
#include <unistd.h>

enum { PAGES = 8, BYTES = PAGES * KH_PAGE_BYTES, NOBODY = 65534 };

static KhStore store;
static KhStore other;
static const char *path;

/* ---- What is expected ---- */

static void must(bool holds, const char *what)
{
    if (!holds) {
        printf("troubles: %s: not so\n", what);
        exit(1);
    }
}

static void told_is(KhTold told, uint32_t answer, KhTrouble trouble, int error, const char *what)
{
    if (told.answer != answer || told.trouble != trouble || told.error != error) {
        printf("troubles: %s: %s\n", what, khs_word(told));
        exit(1);
    }
}

static void done(KhTold told, const char *what)
{
    told_is(told, KH_DONE, KHS_FINE, 0, what);
}

static void troubled(KhTold told, KhTrouble trouble, const char *what)
{
    told_is(told, KHS_NO_ANSWER, trouble, 0, what);
}

static void refused(KhTold told, int error, const char *what)
{
    told_is(told, KHS_NO_ANSWER, KHS_SYSTEM, error, what);
}

static void found(uint32_t serial, bool there, const char *what)
{
    uint32_t record;
    KhTold told = khs_lookup(&store, 7, serial, 1, &record);
    told_is(told, there ? KH_DONE : KH_NONE, KHS_FINE, 0, what);
    must(record == (there ? 900 + serial : 0), what);
}

/* ---- The file ---- */

/* Makes the file one of so many bytes, each with this value. */
static void make_file(size_t bytes, int value)
{
    static uint8_t all[2 * KH_TABLE_BYTES(KH_PAGES_MOST)];
    memset(all, value, sizeof all);
    FILE *file = fopen(path, "wb");
    must(file && fwrite(all, 1, bytes, file) == bytes && fclose(file) == 0, "a file is made");
}

static long size_of_file(void)
{
    struct stat found;
    return stat(path, &found) == 0 ? (long)found.st_size : -1;
}

/* A store with serials 1 and 2, of which 1 is synced. */
static void fill(void)
{
    unlink(path);
    done(khs_create(&store, path, PAGES), "create");
    done(khs_insert(&store, 7, 1, 1, 901), "insert");
    done(khs_sync(&store), "sync");
    done(khs_insert(&store, 7, 2, 1, 902), "insert");
}

/* ---- Trials ---- */

static void creating(void)
{
    unlink(path);
    KhTold told = khs_open(&store, path);
    refused(told, ENOENT, "no file");
    must(khs_missing(told), "a file that is not there is missing");
    told_is(khs_create(&store, path, KH_PAGES_LEAST - 1), KH_LENGTH, KHS_FINE, 0, "3 pages");
    told_is(khs_create(&store, path, KH_PAGES_MOST + 1), KH_LENGTH, KHS_FINE, 0, "129 pages");
    must(size_of_file() == -1, "a refused creation leaves no file");
    refused(khs_create(&store, "/no folder/of this name/file", PAGES), ENOENT, "no folder");
    done(khs_create(&store, path, PAGES), "create");
    must(size_of_file() == BYTES, "the file has the table's length");
    troubled(khs_create(&store, path, PAGES), KHS_LOCKED, "a KhStore in use");
    khs_close(&store);
    khs_close(&store);
    troubled(khs_create(&store, path, PAGES), KHS_EXISTS, "a store that is there");
    done(khs_open(&store, path), "open");
    khs_close(&store);
    unlink(path);
    done(khs_create(&store, path, KH_PAGES_MOST), "128 pages");
    khs_close(&store);
}

static void closed(void)
{
    uint64_t key;
    uint32_t record;
    uint16_t issue;
    size_t count;
    bool any;
    KhItem item = {.model = 7, .serial = 1, .issue = 1, .record = 1, .answer = 9};
    troubled(khs_insert(&store, 7, 1, 1, 1), KHS_CLOSED, "insert after close");
    troubled(khs_withdraw(&store, 7, 1, 1), KHS_CLOSED, "withdraw after close");
    troubled(khs_batch(&store, &item, 1), KHS_CLOSED, "batch after close");
    must(item.answer == 9, "a closed store touches no item");
    uint32_t done;
    uint64_t place;
    static const uint8_t empty[12];
    troubled(khs_read_file(&store, empty, sizeof empty, &done, &place), KHS_CLOSED, "a file after close");
    troubled(khs_lookup(&store, 7, 1, 1, &record), KHS_CLOSED, "lookup after close");
    troubled(khs_newest(&store, 7, 1, &issue, &record), KHS_CLOSED, "newest after close");
    troubled(khs_has_any(&store, 7, 1, &any), KHS_CLOSED, "has-any after close");
    must(khs_total(&store) == 0, "a closed store holds none");
    troubled(khs_list(&store, 0, &key, &record, 1, &count), KHS_CLOSED, "list after close");
    uint8_t byte;
    troubled(khs_write_file(&store, &byte, 1, &count), KHS_CLOSED, "write file after close");
    troubled(khs_sync(&store), KHS_CLOSED, "sync after close");
}

/* Files that are no store are told of and stay; empty and unfinished ones may be created. */
static void other_files(void)
{
    static const size_t sizes[] = {1, 511, 3 * 512, BYTES - 1, BYTES + 1, BYTES - 300, 129 * 512};
    for (size_t i = 0; i < sizeof sizes / sizeof *sizes; i++) {
        make_file(sizes[i], 0x5A);
        troubled(khs_open(&store, path), KHS_NOSTORE, "a wrong length");
        troubled(khs_create(&store, path, PAGES), KHS_EXISTS, "creation over a wrong length");
        must(size_of_file() == (long)sizes[i], "the file stays");
    }
    make_file(BYTES, 0x5A);
    told_is(khs_open(&store, path), KH_DAMAGED, KHS_FINE, 0, "other bytes of a right length");
    must(!store.open, "a refused opening leaves the store closed");
    troubled(khs_create(&store, path, PAGES), KHS_EXISTS, "creation over other bytes");
    make_file(0, 0);
    troubled(khs_open(&store, path), KHS_UNFINISHED, "an empty file");
    done(khs_create(&store, path, PAGES), "creation in an empty file");
    khs_close(&store);
    make_file(KH_TABLE_BYTES(PAGES + 1), 0);
    troubled(khs_open(&store, path), KHS_UNFINISHED, "a table of zeros");
    done(khs_create(&store, path, PAGES), "creation over zeros");
    must(size_of_file() == BYTES, "of the length asked for");
    khs_close(&store);
    refused(khs_open(&store, "/"), EISDIR, "a folder");
    troubled(khs_open(&store, "/dev/null"), KHS_NOSTORE, "a device");
}

/* A store whose page 0 is spoilt is not taken for an unfinished one. */
static void no_page_0(void)
{
    fill();
    khs_close(&store);
    static const uint8_t zero[KH_PAGE_BYTES];
    FILE *file = fopen(path, "rb+");
    must(file && fwrite(zero, 1, sizeof zero, file) == sizeof zero && fclose(file) == 0, "page 0 is zeroed");
    told_is(khs_open(&store, path), KH_DAMAGED, KHS_FINE, 0, "a store without page 0");
    troubled(khs_create(&store, path, PAGES), KHS_EXISTS, "creation over it");
}

static void locked(void)
{
    fill();
    troubled(khs_open(&other, path), KHS_LOCKED, "a second KhStore");
    pid_t pid = fork();
    if (pid == 0) {
        KhTold told = khs_open(&other, path);
        _exit(told.trouble == KHS_LOCKED ? 0 : 1);
    }
    int status = 1;
    must(waitpid(pid, &status, 0) == pid && status == 0, "a second process is kept out");
    found(2, true, "the first goes on");
    khs_close(&store);
    done(khs_open(&other, path), "open once it is free");
    khs_close(&other);
}

static void read_only(void)
{
    must(chmod(path, 0444) == 0, "chmod");
    uid_t self = geteuid();
    must(self != 0 || seteuid(NOBODY) == 0, "not root for a while");
    refused(khs_open(&store, path), EACCES, "a file that cannot be written");
    must(self != 0 || seteuid(self) == 0, "root again");
    must(chmod(path, 0666) == 0, "chmod");
}

/* One of the two writes of a sync fails, or its flush: the store is closed, and opened again it has what was kept. */
static void failed_syncs(void)
{
    for (uint32_t before = 0; before < 3; before++) {
        fill();
        flash_fail_after(before);
        refused(khs_sync(&store), EIO, "a sync that fails");
        closed();
        refused(khs_open(&store, path), EIO, "an opening that fails");
        closed();
        flash_start(1, BROKEN_NOT);
        done(khs_open(&store, path), "open after a failure");
        found(1, true, "what was kept");
        found(2, false, "what was not");
        khs_close(&store);
    }
}

/* Writes and flushes of a creation: each page but 0, a flush, page 0, a flush, the folder's flush; then the store is
 * opened, which writes each page again, with a flush. */
static void failed_creations(void)
{
    const uint32_t unfinished = PAGES - 1 + 1 + 1 + 1;
    const uint32_t all = unfinished + 1 + PAGES + 1;
    for (uint32_t before = 0; before < all; before++) {
        unlink(path);
        flash_fail_after(before);
        refused(khs_create(&store, path, PAGES), EIO, "a creation that fails");
        closed();
        flash_start(1, BROKEN_NOT);
        KhTold told = khs_open(&store, path);
        must(khs_missing(told) == (before < unfinished), "an unfinished file is missing");
        if (before < unfinished) {
            troubled(told, KHS_UNFINISHED, "a creation that did not end");
            told = khs_create(&store, path, PAGES);
        }
        done(told, "a store in the end");
        found(1, false, "it is empty");
        khs_close(&store);
    }
    flash_fail_after(all);
    unlink(path);
    done(khs_create(&store, path, PAGES), "a creation with all its writes");
    khs_close(&store);
    flash_start(1, BROKEN_NOT);
}

int main(int argc, char **argv)
{
    if (argc != 2)
        return 2;
    path = argv[1];
    flash_start(1, BROKEN_NOT);
    creating();
    closed();
    other_files();
    no_page_0();
    locked();
    read_only();
    failed_syncs();
    failed_creations();
    unlink(path);
    printf("troubles: all told as expected\n");
    return 0;
}
