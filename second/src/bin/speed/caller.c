/* The rows of the speed table called from C: the proved store, with its lean calls and with the others, the store in a
 * file, and LMDB, each row a loop of its own. The session goes by value, so what a call with one costs depends on how the
 * caller's compiler copies it. */
#include <lmdb.h>
#include <stdbool.h>
#include <stddef.h>
#include <stdint.h>
#include <stdio.h>
#include <string.h>

#include "khirpando.h"
#include "khstore.h"

/* More than are ever listed. */
enum { ROOM = 2000 };

static uint64_t listed_keys[ROOM];
static uint32_t listed_records[ROOM];

/* What a store under the clock can do. A call that answers false, or a count that differs, is a failure. Without an entry
 * there is no such thing. */
typedef struct {
    bool (*clear)(void);
    bool (*fill)(const uint64_t *keys, const uint32_t *records, size_t count);
    size_t (*lookups)(const uint64_t *keys, uint32_t *records, size_t count);
    size_t (*newests)(const uint64_t *meters, uint32_t *records, size_t count); /* the key of each meter's issue 0 */
    size_t (*list)(void);
    bool (*put)(uint64_t key, uint32_t record);
    bool (*sync)(void);
    bool (*open)(void);
    bool (*refused)(size_t count);
} Calls;

/* ---- the proved store ---- */

enum { BYTES = 512 * 128 };

static uint8_t working[BYTES], stable[BYTES];
static KhSession session;

static uint16_t model(uint64_t key) { return (uint16_t)(key >> 48); }
static uint32_t serial(uint64_t key) { return (uint32_t)(key >> 16); }
static uint16_t issue(uint64_t key) { return (uint16_t)key; }

static bool store_open(void)
{
    KhAnswered opened = kh_open(working, BYTES, stable, BYTES);
    session = opened.session;
    return opened.answer == KH_DONE;
}

static bool store_clear(void)
{
    return kh_format(working, BYTES, stable, BYTES) == KH_DONE && store_open();
}

static bool store_sync(void)
{
    KhAnswered synced = kh_sync(working, BYTES, stable, BYTES, session);
    session = synced.session;
    return synced.answer == KH_DONE;
}

static bool store_put(uint64_t key, uint32_t record)
{
    KhChanged put = kh_insert(working, BYTES, stable, BYTES, session, model(key), serial(key), issue(key), record);
    session = put.session;
    return put.answer == KH_DONE;
}

static bool store_fill(const uint64_t *keys, const uint32_t *records, size_t count)
{
    for (size_t i = 0; i < count; i++)
        if (!store_put(keys[i], records[i]) && !(store_sync() && store_put(keys[i], records[i])))
            return false;
    return store_sync();
}

static size_t store_lookups(const uint64_t *keys, uint32_t *records, size_t count)
{
    size_t found = 0;
    for (size_t i = 0; i < count; i++) {
        KhLooked looked = kh_lookup(working, BYTES, stable, BYTES, session, model(keys[i]), serial(keys[i]), issue(keys[i]));
        session = looked.session;
        records[i] = looked.record;
        found += looked.answer == KH_DONE;
    }
    return found;
}

static size_t store_newests(const uint64_t *meters, uint32_t *records, size_t count)
{
    size_t found = 0;
    for (size_t i = 0; i < count; i++) {
        KhNewest newest = kh_newest(working, BYTES, stable, BYTES, session, model(meters[i]), serial(meters[i]));
        session = newest.session;
        records[i] = newest.record;
        found += newest.answer == KH_DONE;
    }
    return found;
}

static size_t store_list(void)
{
    KhListed listed = kh_list(working, BYTES, stable, BYTES, session, 0, listed_keys, ROOM, listed_records, ROOM);
    session = listed.session;
    return listed.count;
}

static bool store_refused(size_t count)
{
    bool all = true;
    for (size_t i = 0; i < count; i++) {
        session.n++;
        KhLooked looked = kh_lookup(working, BYTES, stable, BYTES, session, 0, 0, 1);
        session = looked.session;
        session.n--;
        all &= looked.answer == KH_LENGTH;
    }
    return all;
}

const Calls caller_store = {store_clear, store_fill, store_lookups, store_newests, store_list,
                            store_put,   store_sync, store_open,    store_refused};

/* ---- the same tables and session, read by the lean calls ---- */

static size_t lean_lookups(const uint64_t *keys, uint32_t *records, size_t count)
{
    size_t found = 0;
    for (size_t i = 0; i < count; i++) {
        KhLeanLooked looked = kh_lean_lookup(working, BYTES, stable, BYTES, session.n, session.c, model(keys[i]),
                                             serial(keys[i]), issue(keys[i]));
        records[i] = looked.record;
        found += looked.answer == KH_DONE;
    }
    return found;
}

static size_t lean_newests(const uint64_t *meters, uint32_t *records, size_t count)
{
    size_t found = 0;
    for (size_t i = 0; i < count; i++) {
        KhLeanNewest newest = kh_lean_newest(working, BYTES, stable, BYTES, session.n, session.c, model(meters[i]),
                                             serial(meters[i]));
        records[i] = newest.record;
        found += newest.answer == KH_DONE;
    }
    return found;
}

static size_t lean_list(void)
{
    KhLeanListed listed = kh_lean_list(working, BYTES, stable, BYTES, session.n, session.c, 0, listed_keys, ROOM,
                                       listed_records, ROOM);
    return listed.count;
}

static bool lean_refused(size_t count)
{
    bool all = true;
    for (size_t i = 0; i < count; i++) {
        uint16_t other = session.n + 1;
        all &= kh_lean_lookup(working, BYTES, stable, BYTES, other, session.c, 0, 0, 1).answer == KH_LENGTH;
    }
    return all;
}

const Calls caller_lean = {store_clear, store_fill, lean_lookups, lean_newests, lean_list,
                           store_put,   store_sync, store_open,   lean_refused};

/* ---- the store in a file ---- */

static KhStore file;
static char path[4096];

bool caller_file_at(const char *folder)
{
    return (size_t)snprintf(path, sizeof path, "%s/certificates", folder) < sizeof path;
}

void caller_file_close(void)
{
    khs_close(&file);
}

static bool file_clear(void)
{
    khs_close(&file);
    remove(path);
    return khs_create(&file, path, KH_PAGES_MOST).answer == KH_DONE;
}

static bool file_sync(void)
{
    return khs_sync(&file).answer == KH_DONE;
}

static bool file_put(uint64_t key, uint32_t record)
{
    return khs_insert(&file, model(key), serial(key), issue(key), record).answer == KH_DONE;
}

static bool file_fill(const uint64_t *keys, const uint32_t *records, size_t count)
{
    for (size_t i = 0; i < count; i++)
        if (!file_put(keys[i], records[i]) && !(file_sync() && file_put(keys[i], records[i])))
            return false;
    return file_sync();
}

static size_t file_lookups(const uint64_t *keys, uint32_t *records, size_t count)
{
    size_t found = 0;
    for (size_t i = 0; i < count; i++)
        found += khs_lookup(&file, model(keys[i]), serial(keys[i]), issue(keys[i]), &records[i]).answer == KH_DONE;
    return found;
}

static size_t file_newests(const uint64_t *meters, uint32_t *records, size_t count)
{
    size_t found = 0;
    for (size_t i = 0; i < count; i++) {
        uint16_t issue;
        found += khs_newest(&file, model(meters[i]), serial(meters[i]), &issue, &records[i]).answer == KH_DONE;
    }
    return found;
}

static size_t file_list(void)
{
    size_t count;
    return khs_list(&file, 0, listed_keys, listed_records, ROOM, &count).answer == KH_DONE ? count : 0;
}

static bool file_open(void)
{
    khs_close(&file);
    return khs_open(&file, path).answer == KH_DONE;
}

/* It lends its own tables, so it is a key that is refused. */
static bool file_refused(size_t count)
{
    bool all = true;
    for (size_t i = 0; i < count; i++) {
        uint32_t record;
        all &= khs_lookup(&file, 0, 0, 1, &record).answer == KH_BADKEY;
    }
    return all;
}

const Calls caller_file = {file_clear, file_fill, file_lookups, file_newests, file_list,
                           file_put,   file_sync, file_open,    file_refused};

/* ---- LMDB ---- */

enum { MAP = 16 << 20 };

static MDB_env *env;
static MDB_dbi dbi;
static MDB_txn *reading, *writing;

static bool lmdb_sync(void)
{
    MDB_txn *open = writing;
    writing = NULL;
    return !open || mdb_txn_commit(open) == 0;
}

static bool lmdb_read(void)
{
    return reading || mdb_txn_begin(env, NULL, MDB_RDONLY, &reading) == 0;
}

static bool lmdb_write(void)
{
    if (reading)
        mdb_txn_abort(reading);
    reading = NULL;
    return writing || mdb_txn_begin(env, NULL, 0, &writing) == 0;
}

bool caller_lmdb_open(const char *path)
{
    return mdb_env_create(&env) == 0 && mdb_env_set_mapsize(env, MAP) == 0
           && mdb_env_open(env, path, MDB_NOSYNC, 0600) == 0 && lmdb_write()
           && mdb_dbi_open(writing, NULL, MDB_INTEGERKEY, &dbi) == 0 && lmdb_sync();
}

void caller_lmdb_close(void)
{
    if (reading)
        mdb_txn_abort(reading);
    reading = NULL;
    mdb_env_close(env);
}

static bool lmdb_clear(void)
{
    return lmdb_write() && mdb_drop(writing, dbi, 0) == 0 && lmdb_sync();
}

static bool lmdb_put(uint64_t key, uint32_t record)
{
    MDB_val at = {sizeof key, &key}, value = {sizeof record, &record};
    return lmdb_write() && mdb_put(writing, dbi, &at, &value, MDB_NOOVERWRITE) == 0;
}

static bool lmdb_fill(const uint64_t *keys, const uint32_t *records, size_t count)
{
    for (size_t i = 0; i < count; i++)
        if (!lmdb_put(keys[i], records[i]))
            return false;
    return lmdb_sync();
}

static size_t lmdb_lookups(const uint64_t *keys, uint32_t *records, size_t count)
{
    size_t found = 0;
    for (size_t i = 0; i < count && lmdb_read(); i++) {
        uint64_t key = keys[i];
        MDB_val at = {sizeof key, &key}, value;
        if (mdb_get(reading, dbi, &at, &value) == 0) {
            memcpy(&records[i], value.mv_data, sizeof records[i]);
            found++;
        }
    }
    return found;
}

/* The last key below the meter's next one, if it is the meter's. */
static size_t lmdb_newests(const uint64_t *meters, uint32_t *records, size_t count)
{
    size_t found = 0;
    for (size_t i = 0; i < count && lmdb_read(); i++) {
        uint64_t key = meters[i] + (1 << 16);
        MDB_val at = {sizeof key, &key}, value;
        MDB_cursor *cursor;
        if (mdb_cursor_open(reading, dbi, &cursor))
            break;
        MDB_cursor_op back = mdb_cursor_get(cursor, &at, &value, MDB_SET_RANGE) ? MDB_LAST : MDB_PREV;
        if (mdb_cursor_get(cursor, &at, &value, back) == 0) {
            memcpy(&key, at.mv_data, sizeof key);
            memcpy(&records[i], value.mv_data, sizeof records[i]);
            found += key >> 16 == meters[i] >> 16;
        }
        mdb_cursor_close(cursor);
    }
    return found;
}

static size_t lmdb_list(void)
{
    MDB_val at, value;
    MDB_cursor *cursor;
    size_t count = 0;
    if (!lmdb_read() || mdb_cursor_open(reading, dbi, &cursor))
        return 0;
    for (int status = mdb_cursor_get(cursor, &at, &value, MDB_FIRST); status == 0 && count < ROOM; count++) {
        memcpy(&listed_keys[count], at.mv_data, sizeof *listed_keys);
        memcpy(&listed_records[count], value.mv_data, sizeof *listed_records);
        status = mdb_cursor_get(cursor, &at, &value, MDB_NEXT);
    }
    mdb_cursor_close(cursor);
    return count;
}

const Calls caller_lmdb = {lmdb_clear, lmdb_fill, lmdb_lookups, lmdb_newests, lmdb_list, lmdb_put, lmdb_sync, NULL, NULL};
