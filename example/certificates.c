/* A store in C: certificates are put in and kept, the power fails, and what was kept is found again.
 *
 *     ./build
 *     cc -std=c11 -Wall -Wextra -Werror -Idist example/certificates.c -Ldist -lkhirpando -o certificates
 *
 * It prints what it does, and ends with status 1 at the first answer that it does not expect. A store in a file is in
 * shelf.c. */
#include <stdio.h>
#include <stdlib.h>
#include <string.h>

#include "khirpando.h"

enum { PAGES = 8, BYTES = KH_TABLE_BYTES(PAGES), ROOM = 64 };

static uint8_t working[BYTES]; /* in memory: lost at a crash */
static uint8_t stable[BYTES];  /* stands for the flash: a real driver writes its pages there, see khirpando.h */
static KhSession session;

static void expect(const char *what, uint32_t answer, uint32_t expected)
{
    printf("%s: %s\n", what, kh_word(answer));
    if (answer != expected) {
        printf("expected: %s\n", kh_word(expected));
        exit(1);
    }
}

static uint32_t open_store(void)
{
    KhAnswered opened = kh_open(working, BYTES, stable, BYTES);
    session = opened.session;
    return opened.answer;
}

static uint32_t insert(uint32_t serial, uint32_t record)
{
    KhChanged inserted = kh_insert(working, BYTES, stable, BYTES, session, 7, serial, 1, record);
    session = inserted.session;
    return inserted.answer;
}

static uint32_t withdraw(uint32_t serial)
{
    KhChanged withdrawn = kh_withdraw(working, BYTES, stable, BYTES, session, 7, serial, 1);
    session = withdrawn.session;
    return withdrawn.answer;
}

static uint32_t deliver(KhItem *items, size_t count)
{
    KhChanged delivered = kh_batch(working, BYTES, stable, BYTES, session, items, count);
    session = delivered.session;
    return delivered.answer;
}

static KhRead read_file(const uint8_t *file, size_t length)
{
    KhRead read = kh_read_file(working, BYTES, stable, BYTES, session, file, length);
    session = read.session;
    return read;
}

static uint32_t sync_store(void)
{
    KhAnswered synced = kh_sync(working, BYTES, stable, BYTES, session);
    session = synced.session;
    return synced.answer;
}

static KhLooked lookup(uint32_t serial)
{
    KhLooked looked = kh_lookup(working, BYTES, stable, BYTES, session, 7, serial, 1);
    session = looked.session;
    return looked;
}

/* The power fails: some working pages have reached the disc, everything else in memory is gone. */
static void crash(const int *pages, size_t count)
{
    for (size_t i = 0; i < count; i++)
        memcpy(stable + pages[i] * KH_PAGE_BYTES, working + pages[i] * KH_PAGE_BYTES, KH_PAGE_BYTES);
    memset(working, 0xEE, BYTES);
    memset(&session, 0, sizeof session);
}

static void list_all(uint64_t expected)
{
    static uint64_t keys[ROOM];
    static uint32_t records[ROOM];
    KhListed listed = kh_list(working, BYTES, stable, BYTES, session, 0, keys, ROOM, records, ROOM);
    session = listed.session;
    expect("list", listed.answer, KH_DONE);
    printf("%llu certificates", (unsigned long long)listed.count);
    if (listed.count > 0)
        printf(", the last with serial %u and record %u", (unsigned)kh_key_serial(keys[listed.count - 1]),
               (unsigned)records[listed.count - 1]);
    printf("\n");
    if (listed.count != expected)
        exit(1);
}

/* The exchange file of a small store: two models, three meters, four certificates. Lines of the sections. */
static void print_bytes(const uint8_t *file, size_t from, size_t many, const char *what)
{
    printf("   ");
    for (size_t i = from; i < from + many; i++)
        printf(" %02X", file[i]);
    printf("  %s\n", what);
}

static void write_small_file(void)
{
    enum { SMALL = KH_TABLE_BYTES(4) };
    static uint8_t small[SMALL], kept[SMALL], file[KH_FILE_MOST(4)];
    static const struct {
        uint16_t model;
        uint32_t serial;
        uint16_t issue;
        uint32_t record;
    } items[] = {{7, 1, 1, 900}, {7, 1, 2, 901}, {7, 2, 1, 902}, {9, 1, 1, 903}};
    expect("format a small store", kh_format(small, SMALL, kept, SMALL), KH_DONE);
    KhAnswered opened = kh_open(small, SMALL, kept, SMALL);
    expect("open it", opened.answer, KH_DONE);
    KhSession held = opened.session;
    for (size_t i = 0; i < sizeof items / sizeof *items; i++) {
        KhChanged put = kh_insert(small, SMALL, kept, SMALL, held, items[i].model, items[i].serial, items[i].issue,
                                  items[i].record);
        held = put.session;
        if (put.answer != KH_DONE)
            exit(1);
    }
    KhWritten short_of = kh_write_file(small, SMALL, kept, SMALL, held, file, 73);
    expect("its file, into 73 bytes", short_of.answer, KH_SHORT);
    KhWritten written = kh_write_file(small, SMALL, kept, SMALL, held, file, sizeof file);
    expect("its file", written.answer, KH_DONE);
    printf("%llu bytes:\n", (unsigned long long)written.length);
    if (short_of.length != 0 || written.length != 74)
        exit(1);
    print_bytes(file, 0, 4, "2 models");
    print_bytes(file, 4, 2, "model 7");
    print_bytes(file, 6, 2, "model 9");
    print_bytes(file, 8, 4, "3 meters");
    print_bytes(file, 12, 6, "model at place 0, serial 1");
    print_bytes(file, 18, 6, "model at place 0, serial 2");
    print_bytes(file, 24, 6, "model at place 1, serial 1");
    print_bytes(file, 30, 4, "4 certificates");
    print_bytes(file, 34, 10, "meter at place 0, issue 1, record 900");
    print_bytes(file, 44, 10, "meter at place 0, issue 2, record 901");
    print_bytes(file, 54, 10, "meter at place 1, issue 1, record 902");
    print_bytes(file, 64, 10, "meter at place 2, issue 1, record 903");
}

int main(void)
{
    expect("format", kh_format(working, BYTES, stable, BYTES), KH_DONE);
    expect("open", open_store(), KH_DONE);
    static KhItem forty[40];
    for (uint32_t i = 0; i < 40; i++)
        forty[i] = (KhItem){.model = 7, .serial = i + 1, .issue = 1, .record = 901 + i};
    expect("a delivery of forty meters", deliver(forty, 40), KH_DONE);
    for (uint32_t i = 0; i < 40; i++)
        if (forty[i].answer != KH_DONE)
            return 1;
    expect("sync", sync_store(), KH_DONE);
    expect("the 41st, which splits a page", insert(41, 941), KH_DONE);
    expect("the 41st again", insert(41, 1), KH_PRESENT);

    /* The page with the new root and the page that names it are on the disc, the two halves are not. */
    crash((const int[]){0, 4}, 2);
    expect("lookup without an opening", lookup(21).answer, KH_LENGTH);
    expect("open after a crash", open_store(), KH_DONE);
    KhLooked looked = lookup(21);
    expect("lookup of a kept certificate", looked.answer, KH_DONE);
    printf("record %u; %u page mended on the way, reason %u\n", (unsigned)looked.record, (unsigned)looked.mended,
           (unsigned)looked.reason);
    if (looked.mended != 1 || looked.reason != KH_SOUNDNESS)
        return 1;
    if (looked.record != 921)
        return 1;
    expect("lookup of one that was not kept", lookup(41).answer, KH_NONE);
    expect("lookup of serial 0", lookup(0).answer, KH_BADKEY);
    KhNewest newest = kh_newest(working, BYTES, stable, BYTES, session, 7, 40);
    expect("newest of a meter", newest.answer, KH_DONE);
    if (newest.issue != 1 || newest.record != 940)
        return 1;
    KhItem items[] = {{.model = 7, .serial = 40, .issue = 1, .record = 1},
                      {.model = 7, .serial = 50, .issue = 1, .record = 950}};
    expect("a delivery of two meters", deliver(items, 2), KH_DONE);
    expect("the first, which is there", items[0].answer, KH_PRESENT);
    expect("the second", items[1].answer, KH_DONE);
    /* an exchange file: one model, 7; one meter of it, serial 60; one certificate, issue 1 with record 960 */
    static const uint8_t file[] = {1, 0, 0, 0, 7, 0,              1, 0, 0, 0, 0, 0, 60,   0, 0, 0,
                                   1, 0, 0, 0, 0, 0, 0, 0, 1, 0, 0xC0, 3, 0, 0};
    KhRead read = read_file(file, sizeof file);
    expect("an exchange file", read.answer, KH_DONE);
    if (read.done != 1 || lookup(60).record != 960)
        return 1;
    read = read_file(file, sizeof file - 1);
    expect("the same, cut off", read.answer, KH_FILE);
    printf("bad from byte %llu on\n", (unsigned long long)read.place);
    if (read.place != 20)
        return 1;
    KhAny has = kh_has_any(working, BYTES, stable, BYTES, session, 7, 41);
    expect("has the meter that was not kept any", has.answer, KH_DONE);
    if (has.any != 0)
        return 1;
    printf("the start screen: %u certificates\n", (unsigned)session.total);
    list_all(session.total);
    write_small_file();
    if (session.total != 42)
        return 1;
    expect("a recalled certificate withdrawn", withdraw(40), KH_DONE);
    expect("the sync without which a crash may bring it back", sync_store(), KH_DONE);
    expect("lookup of the recalled one", lookup(40).answer, KH_NONE);
    return session.total == 41 ? 0 : 1;
}
