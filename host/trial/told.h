/* What the processes of a trial have told: the certificates of the last sync or opening, and those put in since. It
 * lies in memory that they share, so that it outlives a process killed at any instruction: each step is one store of
 * one number, made after all that belongs to it. */
#ifndef TRIAL_TOLD_H
#define TRIAL_TOLD_H

#include <stdatomic.h>
#include <stdbool.h>
#include <stddef.h>
#include <stdint.h>

/* Certificates are numbered; no store holds all of them. */
enum { CERTIFICATES = 9 * 700 };

/* What a process is doing when it is killed. */
typedef enum { CREATING, OPENING, CALLING, SYNCING, FAILING, DOINGS } Doing;

typedef struct {
    uint32_t number;
    uint32_t record;
} Put;

/* Certificates in the order in which they were put in; the first `kept` are those of the last sync or opening. */
typedef struct {
    _Atomic uint32_t count;
    _Atomic uint32_t kept;
    Put puts[CERTIFICATES];
} Side;

typedef struct {
    Side sides[2]; /* an opening fills the other one */
    _Atomic uint32_t side;
    _Atomic bool created; /* someone was told that the store is there */
    _Atomic Doing doing;
    uint64_t kills[DOINGS];
    uint64_t syncs;
    uint64_t failures; /* of syncs, by a flush that failed */
    uint64_t through;  /* of the certificates put in since, those that were found after a kill */
    uint64_t lost;     /* and those that were not */
    char wrong[200];
} Told;

uint64_t told_key(uint32_t number);

void told_start(Told *told);
void told_inserted(Told *told, uint32_t number, uint32_t record);
void told_synced(Told *told);

/* The record that a certificate has now, or NULL. */
const uint32_t *told_now(const Told *told, uint32_t number);

/* What is wrong with the certificates that an opening found, or NULL. */
const char *told_differs(const Told *told, const uint64_t *keys, const uint32_t *records, size_t count);

/* An opening found these: they are what is kept from now on. */
void told_opened(Told *told, const uint64_t *keys, const uint32_t *records, size_t count);

#endif
