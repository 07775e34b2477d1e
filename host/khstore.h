/* A store in a file, for programs on machines with files: Linux, and what else has POSIX and flock.
 *
 *     static KhStore store;
 *
 *     KhTold told = khs_open(&store, "certificates.kh");
 *     if (khs_missing(told))
 *         told = khs_create(&store, "certificates.kh", 64);
 *     if (told.answer == KH_DONE)
 *         told = khs_insert(&store, 7, 1, 1, 900);
 *     if (told.answer == KH_DONE)
 *         told = khs_sync(&store);
 *     if (told.answer != KH_DONE)
 *         puts(khs_word(told));
 *     khs_close(&store);
 *
 * Compile khstore.c with the program and link the library. example/shelf.c is a whole program.
 *
 * The file is the stable table: page p lies at byte 512 * p. It is written in khs_create, khs_open and khs_sync alone,
 * and each of them returns only when what it wrote is on the disc; khirpando.h says why, at "Your flash driver". From
 * then on it outlasts any crash. What was put in after the last khs_sync that was done may be lost in one, and is with
 * khs_close.
 *
 * One KhStore is used by one thread at a time. The file is locked while it is open: neither another process nor another
 * KhStore gets it. Nothing is taken from the heap; all that is needed is in the KhStore. What a disc has to do for this
 * is assumed: that it writes 512 bytes whole, and that what it says is written is. */
#ifndef KHSTORE_H
#define KHSTORE_H

#include "khirpando.h"

#ifdef __cplusplus
extern "C" {
#endif

/* Two tables of the most pages and all that belongs to them, 129 KiB: make it static or allocate it, and set it to zero
 * before its first use, as static variables are. There is no length to get wrong and no session to lose; the fields are
 * for khstore.c alone. */
typedef struct {
    bool open;
    int file;
    size_t bytes; /* of each table */
    KhSession session;
    uint8_t working[KH_TABLE_BYTES(KH_PAGES_MOST)];
    uint8_t stable[KH_TABLE_BYTES(KH_PAGES_MOST)];
} KhStore;

/* What stands in the way of a call beside the store's own answers. */
typedef enum {
    KHS_FINE = 0,   /* nothing: the answer is the store's */
    KHS_CLOSED,     /* no file is open in this KhStore, or a write failed since: open it */
    KHS_LOCKED,     /* someone has the file open, or this KhStore has one open: close that first */
    KHS_NOSTORE,    /* not a file of 512 * n bytes, 4 <= n <= 128: cut short, or no store at all; it is left as it is */
    KHS_UNFINISHED, /* an empty file, or one whose khs_create never ended: khs_create makes a store of it */
    KHS_EXISTS,     /* khs_create alone: there is something in the file, and it is left as it is */
    KHS_SYSTEM      /* the system refused: `error` is its errno */
} KhTrouble;

/* What a call tells. With any trouble the answer is KHS_NO_ANSWER, which is none of the store's, so that a test for
 * KH_DONE alone is safe. */
#define KHS_NO_ANSWER UINT32_MAX

typedef struct {
    uint32_t answer;
    uint32_t mended; /* pages that a call in memory mended, and why the first was lost; 0 from the others */
    uint32_t reason;
    KhTrouble trouble;
    int error;
} KhTold;

/* Whether an opening found nothing to open, so that khs_create is to be called. */
bool khs_missing(KhTold told);

/* A word for people: that of the answer, or of the trouble, or the system's text for its error. */
const char *khs_word(KhTold told);

/* Makes an empty store of so many pages in a new file, and opens it. If a crash falls into it, the file is not there,
 * or unfinished, or a whole store. Never touches a file that has something in it. Answers 0, 1. */
KH_KEEP KhTold khs_create(KhStore *store, const char *path, unsigned pages);

/* Opens the store in a file, after a crash too. Answers 0, 3, 8. */
KH_KEEP KhTold khs_open(KhStore *store, const char *path);

/* As kh_insert, kh_withdraw, kh_batch, kh_read_file, kh_lookup, kh_newest, kh_has_any, kh_list and kh_write_file, in
 * memory. What they find is 0 if the answer is not KH_DONE; `place` is told with KH_FILE. */
KH_KEEP KhTold khs_insert(KhStore *store, uint16_t model, uint32_t serial, uint16_t issue, uint32_t record);
KH_KEEP KhTold khs_withdraw(KhStore *store, uint16_t model, uint32_t serial, uint16_t issue);
KH_KEEP KhTold khs_batch(KhStore *store, KhItem *items, size_t count);
KH_KEEP KhTold khs_read_file(KhStore *store, const uint8_t *file, size_t length, uint32_t *done, uint64_t *place);
KH_KEEP KhTold khs_lookup(KhStore *store, uint16_t model, uint32_t serial, uint16_t issue, uint32_t *record);
KH_KEEP KhTold khs_newest(KhStore *store, uint16_t model, uint32_t serial, uint16_t *issue, uint32_t *record);
KH_KEEP KhTold khs_has_any(KhStore *store, uint16_t model, uint32_t serial, bool *any);

/* How many certificates an open store holds; 0 of one that is closed. */
uint32_t khs_total(const KhStore *store);

/* Both lists have the same room. */
KH_KEEP KhTold khs_list(KhStore *store, uint64_t start, uint64_t *keys, uint32_t *records, size_t room, size_t *count);

/* The exchange file of all certificates, to the start of an output of so many bytes. KH_FILE_MOST of the store's pages
 * always do. */
KH_KEEP KhTold khs_write_file(KhStore *store, uint8_t *out, size_t room, size_t *length);

/* Keeps what was put in: once it is done, it outlasts a crash. If the system refuses, nobody knows which pages are on
 * the disc, and the store is closed: open it again, and what the last sync or opening had is there. Answers 0, 8. */
KH_KEEP KhTold khs_sync(KhStore *store);

/* Closes the file without a sync. A store that is closed stays so. */
void khs_close(KhStore *store);

#ifdef __cplusplus
}
#endif

#endif
