/* Khirpando: a crash-safe store of certificates in two tables that the caller lends.
 *
 * A certificate has a model (1 to 65,535), a serial (1 to 4,294,967,295) and an issue (1 to 65,535); the store keeps a
 * record, any 32-bit number, for each. The tables are 512 * n bytes each, 4 <= n <= 128: the working table, in memory,
 * and the stable table, the image of what is on the flash. The caller hands the session in with each call and keeps the
 * one it gets back. Link libkhirpando.a, which `./build` leaves in dist/ with this header; example/certificates.c shows
 * each call at work.
 *
 * On a machine with files use khstore.h rather than these calls: it keeps tables, session and file together, and
 * does all that "Your flash driver" below asks for.
 *
 * Any bytes, lengths, keys and sessions get an answer. C's own duties stay the caller's: each pointer is to as many
 * bytes (or numbers) as its length says, no two of them overlap, none is null, and every mark of a session is 0 or 1.
 *
 * Threads. The library has no variables of its own, and a call takes no memory but the stack. Calls on different tables
 * may run at the same time. On the same tables one call runs at a time, the reading ones too: they mend working pages.
 * A thread stopped in the middle of a call leaves tables that no call may see: read the flash again and open. */
#ifndef KHIRPANDO_H
#define KHIRPANDO_H

#include <stdbool.h>
#include <stddef.h>
#include <stdint.h>

#ifdef __cplusplus
extern "C" {
#endif

/* ---- Your flash driver ----------------------------------------------------------------------------------------------
 *
 * Putting pages on the flash is the caller's part. What was synced outlasts every crash, which is proved (demand 3), on
 * the conditions of that demand: at a crash each page on the flash is the stable table's or "the working page of that
 * moment", everything else is forgotten, and an opening comes next. This table is what they ask for. "01" is the paper
 * with the rules; where it names no other place, its paragraph on sync.
 *
 *   After                  has changed               must be on the flash                        because
 *   ---------------------  ------------------------  ------------------------------------------  ----------------------
 *   kh_format, answer 0    stable: every page        every page, before the first kh_open        01, Format: it "runs
 *                                                                                                to its end before the
 *                                                                                                first opening"
 *   kh_open, answer 0      stable: page 0            stable page 0, before any other page        01, Open: "one page
 *                          working: every page       is written                                  write"; without it a
 *                                                                                                counter value is given
 *                                                                                                twice
 *   kh_insert, kh_batch,   working: any page, and    nothing                                     01: "pages reach the
 *   kh_withdraw,           mended ones even if the                                               stable table only" in
 *   kh_read_file,          call is refused                                                       sync, open, at a crash
 *   kh_lookup, kh_newest,
 *   kh_has_any, kh_list,
 *   kh_write_file, any
 *   answer
 *   kh_sync, answer 0      stable: page 0 and each   all of these, in any order, before anyone   01: a crash may fall
 *                          that differed from        is told that the sync is done, and before   inside a sync; demand
 *                          working                   any page of a later call is written         3: what is kept is of
 *                          working: page 0           (simplest: before the next call)            the last sync
 *   kh_format, kh_open,    nothing                   nothing; after a refused kh_open no         01: "nor after an
 *   kh_sync, refused                                 working page may be written at all          opening that answered
 *                                                                                                8"
 *
 * 1. A page is written whole: a crash leaves its 512 old bytes or its 512 new ones, and no other page changes with it
 *    (01: "one page write is atomic"). So lend memory as stable table, never flash or a file mapped into memory, where
 *    a crash would find kh_sync half-way through a page. If the flash's own unit is larger than a page, the driver sees
 *    to it that the neighbours outlast the write.
 * 2. What is written is the stable table. A working page may be written between two calls, never while one runs, and
 *    only if no call that changes it comes before the next sync is on the flash: demand 3 says "of that moment". So it
 *    is for the moment when the power fails: call nothing more, and write any working pages, in any order, as many as
 *    there is time for. If the power then stays, the next call is kh_sync, or the flash is read and opened. Never write
 *    working pages ahead of a sync to save time: pages of two moments can name one child twice, and then the opening
 *    after a crash answers 3.
 * 3. A write that failed leaves the old page or the new one: a crash like any other. Write the same bytes again before
 *    anything else. If that fails too, the sync is not done: write no other page, drop both tables and the session,
 *    read the flash and open; all that was there at the sync or opening before is there. If a flush failed, no page
 *    written since the flush before is certain, and what is read back may come from a cache: write every stable page
 *    again, and flush. After a failed write of kh_format's pages, format again.
 * 4. After a crash read the n pages into the stable table and open. The working table may hold anything. */

/* ---- Versions and limits ----------------------------------------------------------------------------------------- */

#define KH_VERSION_MAJOR 7
#define KH_VERSION_MINOR 0
#define KH_VERSION_PATCH 0
#define KH_VERSION "7.0.0"

#define KH_LAYOUT 9       /* the kind of page 0: a table with another one is refused with KH_DAMAGED */
#define KH_PAGE_BYTES 512 /* bytes of a page */
#define KH_PAGES_LEAST 4  /* pages of a table */
#define KH_PAGES_MOST 128
#define KH_LAST_FINAL 32767 /* the last issue that is not provisional */
#define KH_LAST_NUMBER 4294967293u /* the last number that opens; it starts at 2, openings and syncs add 1 each */
#define KH_SESSION_BYTES 268       /* sizeof(KhSession); grows with the fields of later versions */

/* Bytes of a table of n pages, and the most certificates that a list of it can show. */
#define KH_TABLE_BYTES(n) ((size_t)(n) * KH_PAGE_BYTES)
#define KH_LIST_MOST(n) (((size_t)(n) - 1) * 40)

/* An output that holds the exchange file of every table of n pages: three counts, and at the worst each certificate
 * with a model and a meter of its own. */
#define KH_FILE_MOST(n) (12 + 18 * KH_LIST_MOST(n))

/* ---- Answers --------------------------------------------------------------------------------------------------------
 *
 * Where several would do, the lowest is given, but KH_FILE comes right after KH_LENGTH. With any but KH_DONE the numbers
 * beside it are 0, but for the report of mended pages and the place of KH_FILE; the session is as it was handed in, and
 * nothing has changed but working pages that the call mended on its way. */
enum {
    KH_DONE = 0,
    /* A table's length is wrong, the two differ, or the session is another table's. Lend the tables that were opened,
     * with the last session. The session of a refused opening gets this from every call: there is no store open. */
    KH_LENGTH = 1,
    /* A zero model, serial or issue. Correct the number. */
    KH_BADKEY = 2,
    /* A page that the call needs is spoilt, and so is the one it was made from; of an opening: page 0 or the tree is.
     * No call and no crash does this, but bad flash, or a driver that breaks its rules. Put what other calls still find
     * into a new store; after a refused opening there is none to ask. */
    KH_DAMAGED = 3,
    /* No such certificate. It was never put in, or not synced before a crash: put it in. Or it was withdrawn. */
    KH_NONE = 4,
    /* The certificate is there already, with whatever record, which stays. A correction gets the next issue. */
    KH_PRESENT = 5,
    /* Sync, then insert again: it is done, or answers KH_FULL. */
    KH_SYNCFIRST = 6,
    /* Too few free pages. Sync and insert again. If it stays: list everything, which mends every page, sync, open and
     * insert again. If it still stays, the store is full: put everything into a larger one. */
    KH_FULL = 7,
    /* The counter is at its end. A sync: list what is there, in this session, and put it into a new store now. An
     * opening: this table opens no more. */
    KH_SPENT = 8,
    /* The lent output cannot hold the exchange file. Lend KH_FILE_MOST bytes: they always do. */
    KH_SHORT = 9,
    /* The bytes are not an exchange file: `place` is the byte where the first bad item begins. Nothing was put in. Get
     * the file again, whole; if it stays, whoever wrote it has to. */
    KH_FILE = 11
};

/* The word for an answer. */
static inline const char *kh_word(uint32_t answer)
{
    static const char *const words[] = {"done",    "length",    "badkey", "damaged", "none",
                                        "present", "syncfirst", "full",   "spent",   "short"};
    if (answer == KH_FILE)
        return "file";
    return answer < sizeof words / sizeof *words ? words[answer] : "unknown";
}

/* ---- Keys -----------------------------------------------------------------------------------------------------------
 *
 * A list shows certificates by key: model * 2^48 + serial * 2^16 + issue. */
static inline uint64_t kh_key(uint16_t model, uint32_t serial, uint16_t issue)
{
    return (uint64_t)model << 48 | (uint64_t)serial << 16 | issue;
}

static inline uint16_t kh_key_model(uint64_t key)
{
    return (uint16_t)(key >> 48);
}

static inline uint32_t kh_key_serial(uint64_t key)
{
    return (uint32_t)(key >> 16);
}

static inline uint16_t kh_key_issue(uint64_t key)
{
    return (uint16_t)key;
}

/* ---- What is handed back ----------------------------------------------------------------------------------------- */

typedef struct {
    uint16_t n;                  /* pages of each table; 0 in what a refused opening hands out */
    uint32_t c;                  /* the counter: grows with each opening and each sync */
    uint32_t total;              /* how many certificates the store holds; 0 from a refused opening */
    bool free[KH_PAGES_MOST];    /* pages that an insert may take */
    bool waiting[KH_PAGES_MOST]; /* pages that become free at the next sync */
} KhSession;

typedef struct {
    uint32_t answer;
    KhSession session;
} KhAnswered;

/* A call that walks says how many pages it mended and why the first of them was lost, with a refusal too. `reason` is
 * the first test that the page failed, in this order; it is KH_WHOLE exactly if `mended` is 0. */
enum {
    KH_WHOLE = 0,     /* nothing was mended */
    KH_SOUNDNESS = 1, /* its bytes make no page: never used since the format, or bad flash */
    KH_KIND = 2,      /* a page of another level: a lost write */
    KH_BIRTH = 3,     /* an older page: a lost write */
    KH_RANGE = 4      /* a page for other keys: bad flash */
};

typedef struct {
    uint32_t answer;
    uint32_t mended;
    uint32_t reason;
    KhSession session;
} KhChanged;

/* An item of a batch: a certificate to put in, and a place for its answer. */
typedef struct {
    uint16_t model;
    uint32_t serial;
    uint16_t issue;
    uint32_t record;
    uint32_t answer;
} KhItem;

typedef struct {
    uint32_t answer;
    uint32_t done;  /* how many certificates of the file were put in */
    uint64_t place; /* with KH_FILE: the byte where the first bad item begins */
    uint32_t mended;
    uint32_t reason;
    KhSession session;
} KhRead;

typedef struct {
    uint32_t answer;
    uint32_t record;
    uint32_t mended;
    uint32_t reason;
    KhSession session;
} KhLooked;

typedef struct {
    uint32_t answer;
    uint32_t issue;
    uint32_t record;
    uint32_t mended;
    uint32_t reason;
    KhSession session;
} KhNewest;

typedef struct {
    uint32_t answer;
    uint32_t any; /* 1: yes; 0: no */
    uint32_t mended;
    uint32_t reason;
    KhSession session;
} KhAny;

typedef struct {
    uint32_t answer;
    uint64_t count;
    uint32_t mended;
    uint32_t reason;
    KhSession session;
} KhListed;

typedef struct {
    uint32_t answer;
    uint64_t length; /* of the file, in bytes */
    uint32_t mended;
    uint32_t reason;
    KhSession session;
} KhWritten;

#ifdef __cplusplus
static_assert(sizeof(KhSession) == KH_SESSION_BYTES, "a session is laid out as the library has it");
static_assert(sizeof(KhItem) == 20, "an item is laid out as the library has it");
#else
_Static_assert(sizeof(KhSession) == KH_SESSION_BYTES, "a session is laid out as the library has it");
_Static_assert(sizeof(KhItem) == 20, "an item is laid out as the library has it");
#endif

/* ---- Calls ----------------------------------------------------------------------------------------------------------
 *
 * A result that is thrown away takes the session with it, and with the session what was put in since. */
#if defined(__GNUC__)
#define KH_KEEP __attribute__((warn_unused_result))
#else
#define KH_KEEP
#endif

/* Makes the stable table an empty store. Once, before the first opening; the working table is only measured.
 * Answers 0, 1. */
KH_KEEP uint32_t kh_format(const uint8_t *working, size_t working_len, uint8_t *stable, size_t stable_len);

/* Tests the stable table, copies it to the working table and hands out a session: at the start and after every crash.
 * Answers 0, 1, 3, 8. */
KH_KEEP KhAnswered kh_open(uint8_t *working, size_t working_len, uint8_t *stable, size_t stable_len);

/* Puts a certificate in. It outlasts a crash for certain from the next sync on. Answers 0, 1, 2, 3, 5, 6, 7. */
KH_KEEP KhChanged kh_insert(uint8_t *working, size_t working_len, const uint8_t *stable, size_t stable_len,
                            KhSession session, uint16_t model, uint32_t serial, uint16_t issue, uint32_t record);

/* Takes a certificate out. It is gone for certain from the next sync on: a crash before that may bring it back. No page
 * becomes free. Answers 0, 1, 2, 3, 4. */
KH_KEEP KhChanged kh_withdraw(uint8_t *working, size_t working_len, const uint8_t *stable, size_t stable_len,
                              KhSession session, uint16_t model, uint32_t serial, uint16_t issue);

/* Puts the certificates of a delivery in, in list order, each as kh_insert would; one that is refused stops none behind
 * it. With KH_LENGTH no item is touched. Answers 0, 1; each item gets 0, 2, 3, 5, 6, 7. */
KH_KEEP KhChanged kh_batch(uint8_t *working, size_t working_len, const uint8_t *stable, size_t stable_len,
                           KhSession session, KhItem *items, size_t items_len);

/* Puts the certificates of an exchange file in, in its order, each as kh_insert would; one that is refused stops none
 * behind it. The whole file is tested first: if it is not the file of a set of certificates, to its last byte, nothing is
 * put in. `done` says how many were put in: fewer than the file has if some were there or there was no room. Answers 0, 1,
 * 11. */
KH_KEEP KhRead kh_read_file(uint8_t *working, size_t working_len, const uint8_t *stable, size_t stable_len,
                            KhSession session, const uint8_t *file, size_t file_len);

/* The record of a certificate. Answers 0, 1, 2, 3, 4. */
KH_KEEP KhLooked kh_lookup(uint8_t *working, size_t working_len, const uint8_t *stable, size_t stable_len,
                           KhSession session, uint16_t model, uint32_t serial, uint16_t issue);

/* The largest issue of a meter from 1 to KH_LAST_FINAL, and its record. Issues above are provisional: a meter with
 * those only has none here, though look-ups and lists show them. Answers 0, 1, 2, 3, 4. */
KH_KEEP KhNewest kh_newest(uint8_t *working, size_t working_len, const uint8_t *stable, size_t stable_len,
                           KhSession session, uint16_t model, uint32_t serial);

/* Whether a meter has any certificate, provisional ones too. The call ends with the page in which it finds the first:
 * pages beyond are neither tested nor mended. Answers 0, 1, 2, 3. */
KH_KEEP KhAny kh_has_any(uint8_t *working, size_t working_len, const uint8_t *stable, size_t stable_len,
                         KhSession session, uint16_t model, uint32_t serial);

/* The certificates from a start key upwards, in key order, up to the shorter list; `count` says how many, and places
 * beyond stay as they were. The start may be any number. Answers 0, 1, 3. */
KH_KEEP KhListed kh_list(uint8_t *working, size_t working_len, const uint8_t *stable, size_t stable_len,
                         KhSession session, uint64_t start, uint64_t *keys, size_t keys_len, uint32_t *records,
                         size_t records_len);

/* Writes the exchange file of all certificates, provisional ones too, to the start of the output; `length` says how long
 * it is, and output beyond it stays as it was. Every refusal leaves the output as it was. The whole tree is entered and
 * mended, as by a list from key 0 with room for all, even if the output is too short. Answers 0, 1, 3, 9.
 *
 * The file, numbers little-endian: the count of models (4 bytes) and each model (2); the count of meters (4) and each
 * meter, its model's place in the first section, from 0 (2), and its serial (4); the count of certificates (4) and each
 * certificate, its meter's place in the second section (4), its issue (2) and its record (4). Each section rises by key,
 * without repeats. An empty store gives twelve zero bytes. */
KH_KEEP KhWritten kh_write_file(uint8_t *working, size_t working_len, const uint8_t *stable, size_t stable_len,
                                KhSession session, uint8_t *out, size_t out_len);

/* Copies the working table to the stable table: what was put in is kept from the moment when all changed pages are on
 * the flash. Answers 0, 1, 8. */
KH_KEEP KhAnswered kh_sync(uint8_t *working, size_t working_len, uint8_t *stable, size_t stable_len, KhSession session);

/* ---- Lean calls -----------------------------------------------------------------------------------------------------
 *
 * A call that only reads needs two numbers of the session, its n and its c, and hands it back as it came. These take the
 * two numbers instead and hand none back, which spares the copies: keep the session where it is, and go on with it. For
 * any n and c they answer, report, mend and write just what the call without `lean` does with any session that has these
 * numbers. */

typedef struct {
    uint32_t answer;
    uint32_t record;
    uint32_t mended;
    uint32_t reason;
} KhLeanLooked;

typedef struct {
    uint32_t answer;
    uint32_t issue;
    uint32_t record;
    uint32_t mended;
    uint32_t reason;
} KhLeanNewest;

typedef struct {
    uint32_t answer;
    uint32_t any; /* 1: yes; 0: no */
    uint32_t mended;
    uint32_t reason;
} KhLeanAny;

typedef struct {
    uint32_t answer;
    uint64_t count;
    uint32_t mended;
    uint32_t reason;
} KhLeanListed;

typedef struct {
    uint32_t answer;
    uint64_t length;
    uint32_t mended;
    uint32_t reason;
} KhLeanWritten;

/* As kh_lookup. Answers 0, 1, 2, 3, 4. */
KH_KEEP KhLeanLooked kh_lean_lookup(uint8_t *working, size_t working_len, const uint8_t *stable, size_t stable_len,
                                    uint16_t n, uint32_t c, uint16_t model, uint32_t serial, uint16_t issue);

/* As kh_newest. Answers 0, 1, 2, 3, 4. */
KH_KEEP KhLeanNewest kh_lean_newest(uint8_t *working, size_t working_len, const uint8_t *stable, size_t stable_len,
                                    uint16_t n, uint32_t c, uint16_t model, uint32_t serial);

/* As kh_has_any. Answers 0, 1, 2, 3. */
KH_KEEP KhLeanAny kh_lean_has_any(uint8_t *working, size_t working_len, const uint8_t *stable, size_t stable_len,
                                  uint16_t n, uint32_t c, uint16_t model, uint32_t serial);

/* As kh_list. Answers 0, 1, 3. */
KH_KEEP KhLeanListed kh_lean_list(uint8_t *working, size_t working_len, const uint8_t *stable, size_t stable_len,
                                  uint16_t n, uint32_t c, uint64_t start, uint64_t *keys, size_t keys_len,
                                  uint32_t *records, size_t records_len);

/* As kh_write_file. Answers 0, 1, 3, 9. */
KH_KEEP KhLeanWritten kh_lean_write_file(uint8_t *working, size_t working_len, const uint8_t *stable,
                                         size_t stable_len, uint16_t n, uint32_t c, uint8_t *out, size_t out_len);

#ifdef __cplusplus
}
#endif

#endif
