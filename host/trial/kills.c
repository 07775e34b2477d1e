/* Kills processes that use a store in a file, thousands of them, and compares what the next one finds with what was
 * told.
 *
 *     kills SECONDS SEED FILE [--broken open|sync|early|torn|cache] [--store NUMBER]
 *
 * A process opens the store, checks it, then puts certificates in, reads and syncs until it is killed (SIGKILL): at a
 * point that the seed chooses, or from outside by the clock. flash.h's disc stands between it and the file, so that at
 * the kill some pages are written and some are not. Some processes end as when the power fails: they call nothing more,
 * and write working pages until they are killed, or the power stays, and they sync and go on. What was told stands in
 * memory that outlives the process:
 *
 *   - a certificate that was there at the last sync or opening that was done is found with its record;
 *   - any other that is found was put in since, with the record it has;
 *   - the opening succeeds (demand 3).
 *
 * With --broken the disc breaks a rule of "Your flash driver", and the run succeeds only if that is noticed. Stores are
 * numbered, each with a seed of its own; those killed by points are the same in every run with the seed. */
#define _DEFAULT_SOURCE

#include "flash.h"
#include "told.h"

#include <errno.h>
#include <signal.h>
#include <stdio.h>
#include <stdlib.h>
#include <string.h>
#include <sys/mman.h>
#include <sys/wait.h>
#include <time.h>
#include <unistd.h>

enum { ROUNDS = 100, SAME_STYLE = 5, MOST_CALLS_BITS = 12, MOST_MICROSECONDS = 3000 };

/* How a process ends that is not killed. */
enum { END_WRONG = 1, END_FULL = 2 };

typedef struct {
    const char *file;
    Broken broken;
    uint32_t pages;
    uint32_t style; /* of the certificates that are put in: the same for a few processes, which split the same pages */
    bool by_clock;
    Told *told;
} Plan;

/* Of the process that is killed. */
static const Plan *plan;
static KhStore store;
static Random chance;

/* ---- The process that is killed ---- */

static _Noreturn void wrong(const char *what, const char *word)
{
    snprintf(plan->told->wrong, sizeof plan->told->wrong, "%s: %s", what, word);
    _exit(END_WRONG);
}

/* What the store holds, read from a copy: the listing mends there, and lost pages stay lost here. */
static void check_store(void)
{
    static KhStore copy;
    static uint64_t keys[CERTIFICATES];
    static uint32_t records[CERTIFICATES];
    size_t count;
    copy = store;
    KhTold listed = khs_list(&copy, 0, keys, records, CERTIFICATES, &count);
    if (listed.answer != KH_DONE)
        wrong("the listing", khs_word(listed));
    const char *difference = told_differs(plan->told, keys, records, count);
    if (difference)
        wrong("found", difference);
    told_opened(plan->told, keys, records, count);
}

/* A store that nobody has been told of may be unfinished; any other opens. */
static KhTold open_or_create(void)
{
    plan->told->doing = OPENING;
    flash_opening(true);
    KhTold opened = khs_open(&store, plan->file);
    flash_opening(false);
    if (!khs_missing(opened) || plan->told->created)
        return opened;
    plan->told->doing = CREATING;
    return khs_create(&store, plan->file, plan->pages);
}

/* After a flush that failed nobody was told anything, and the store is to be opened again. */
static bool flush_failed(KhTold told)
{
    return told.trouble == KHS_SYSTEM && told.error == EIO;
}

static void open_store(void)
{
    KhTold opened;
    do
        opened = open_or_create();
    while (flush_failed(opened));
    if (opened.answer != KH_DONE)
        wrong("the opening", khs_word(opened));
    plan->told->created = true;
    check_store();
    plan->told->doing = CALLING;
}

/* Every other sync is the last one, or nearly. */
static void sync_store(void)
{
    plan->told->doing = SYNCING;
    if (!plan->by_clock && random_once_in(&chance, 2))
        flash_kill_after(1 + random_below(&chance, 32));
    KhTold synced = khs_sync(&store);
    if (flush_failed(synced)) {
        plan->told->failures++;
        open_store();
        return;
    }
    if (synced.answer != KH_DONE)
        wrong("a sync", khs_word(synced));
    told_synced(plan->told);
    plan->told->doing = CALLING;
}

static uint32_t insert(uint32_t number, uint32_t record)
{
    uint64_t key = told_key(number);
    KhTold inserted = khs_insert(&store, kh_key_model(key), kh_key_serial(key), kh_key_issue(key), record);
    if (inserted.answer == KH_DONE)
        told_inserted(plan->told, number, record);
    return inserted.answer;
}

/* An insert that asks for a sync gets one; a store that is full then is at its end. */
static void put_in(uint32_t number, uint32_t record)
{
    bool there = told_now(plan->told, number) != NULL;
    uint32_t answer = insert(number, record);
    if (answer == KH_SYNCFIRST || answer == KH_FULL) {
        sync_store();
        answer = insert(number, record);
    }
    if (answer == KH_FULL)
        _exit(END_FULL);
    if (answer != (there ? KH_PRESENT : KH_DONE))
        wrong("an insert", kh_word(answer));
}

static void look_up(uint32_t number)
{
    uint64_t key = told_key(number);
    uint32_t record;
    const uint32_t *expected = told_now(plan->told, number);
    KhTold looked = khs_lookup(&store, kh_key_model(key), kh_key_serial(key), kh_key_issue(key), &record);
    if (looked.answer != (expected ? KH_DONE : KH_NONE) || record != (expected ? *expected : 0))
        wrong("a lookup", khs_word(looked));
}

/* The number of a certificate: any, the next, or close to one of two places. */
static uint32_t choose(uint32_t turn)
{
    uint32_t near = random_below(&chance, 120);
    switch (plan->style % 3) {
    case 0:
        return random_below(&chance, CERTIFICATES);
    case 1:
        return (plan->style * 61 + turn) % CERTIFICATES;
    default:
        return (plan->style * (turn / 100 % 2 ? 61 : 911) + near) % CERTIFICATES;
    }
}

/* Calls, until it is killed or the power fails. */
static void work(void)
{
    uint32_t syncs = 8u << random_below(&chance, 7);
    uint32_t calls = random_below(&chance, 2u << random_below(&chance, MOST_CALLS_BITS));
    for (uint32_t turn = 0; turn < calls; turn++) {
        if (random_once_in(&chance, syncs))
            sync_store();
        else if (random_once_in(&chance, 4))
            look_up(choose(turn));
        else
            put_in(choose(turn), (uint32_t)random_next(&chance));
        if (plan->broken == BROKEN_EARLY && random_once_in(&chance, 32))
            flash_working(&store);
        flash_point();
    }
}

static _Noreturn void live(uint64_t seed)
{
    chance.at = seed;
    flash_start(random_next(&chance), plan->broken);
    if (!plan->by_clock && random_once_in(&chance, 4))
        flash_kill_after(1 + random_below(&chance, 3 * plan->pages));
    if (random_once_in(&chance, 4))
        flash_fail_flushes(2 + random_below(&chance, 4));
    open_store();
    for (;;) {
        work();
        plan->told->doing = FAILING;
        flash_working(&store);
        if (!random_once_in(&chance, 4))
            kill(getpid(), SIGKILL);
        sync_store(); /* the power has stayed */
    }
}

/* ---- The process that kills ---- */

static void sleep_some(Random *random)
{
    struct timespec time = {0, 1000L * random_below(random, MOST_MICROSECONDS)};
    nanosleep(&time, NULL);
}

/* One process from its start to its end: how it ended, 0 if it was killed. */
static int play_round(const Plan *next, Random *random)
{
    uint64_t seed = random_next(random);
    plan = next;
    plan->told->doing = OPENING;
    pid_t pid = fork();
    if (pid < 0) {
        perror("kills: fork");
        exit(1);
    }
    if (pid == 0)
        live(seed);
    if (plan->by_clock) {
        sleep_some(random);
        kill(pid, SIGKILL);
    }
    int status = 0;
    waitpid(pid, &status, 0);
    if (WIFSIGNALED(status) && WTERMSIG(status) == SIGKILL) {
        plan->told->kills[plan->told->doing]++;
        return 0;
    }
    if (!WIFEXITED(status) || (WEXITSTATUS(status) != END_WRONG && WEXITSTATUS(status) != END_FULL)) {
        printf("kills: a process failed by itself, with status %d\n", status);
        exit(1);
    }
    return WEXITSTATUS(status);
}

/* One store from its creation on. Tells whether all was as it should be. */
static bool play_store(Plan *next, uint64_t seed, uint32_t number)
{
    static const uint32_t sizes[] = {4, 5, 8, 16, 40, 64, 96, 128};
    Random random = {seed ^ (uint64_t)number * 0xD1B54A32D192ED03u};
    next->pages = sizes[random_below(&random, sizeof sizes / sizeof *sizes)];
    next->by_clock = random_once_in(&random, 4);
    unlink(next->file);
    told_start(next->told);
    for (uint32_t round = 0; round < ROUNDS; round++) {
        if (round % SAME_STYLE == 0)
            next->style = random_below(&random, 1 << 16);
        int end = play_round(next, &random);
        if (end == END_FULL)
            break;
        if (end != 0) {
            printf("kills: store %u of %u pages, process %u, killed by %s: %s\n", number, next->pages, round,
                   next->by_clock ? "the clock" : "points", next->told->wrong);
            return false;
        }
    }
    return true;
}

/* Tells whether processes were killed in all that they do. */
static bool report(const Told *told, uint32_t stores)
{
    uint64_t all = 0;
    for (int doing = 0; doing < DOINGS; doing++)
        all += told->kills[doing];
    printf("kills: %u stores, %llu kills: %llu in a creation, %llu in an opening, %llu between calls, %llu in a sync, "
           "%llu while the power failed; %llu syncs and %llu that failed; of what was put in since, %llu came through "
           "and %llu did not\n",
           stores, (unsigned long long)all, (unsigned long long)told->kills[CREATING],
           (unsigned long long)told->kills[OPENING], (unsigned long long)told->kills[CALLING],
           (unsigned long long)told->kills[SYNCING], (unsigned long long)told->kills[FAILING],
           (unsigned long long)told->syncs, (unsigned long long)told->failures, (unsigned long long)told->through,
           (unsigned long long)told->lost);
    bool everywhere = true;
    for (int doing = 0; doing < DOINGS; doing++)
        everywhere = everywhere && told->kills[doing] > 0;
    return everywhere;
}

static Broken broken_by(const char *word)
{
    static const char *const words[] = {"nothing", "open", "sync", "early", "torn", "cache"};
    for (size_t i = 0; i < sizeof words / sizeof *words; i++)
        if (strcmp(words[i], word) == 0)
            return (Broken)i;
    fprintf(stderr, "kills: no broken driver of that name\n");
    exit(2);
}

/* Plays the stores from one number to another while there is time. Tells whether all was as it should be. */
static bool play(Plan *next, uint64_t seed, long seconds, uint32_t first, uint32_t last)
{
    time_t end = time(NULL) + seconds;
    bool right = true;
    uint32_t number = first;
    while (right && number <= last && time(NULL) < end)
        right = play_store(next, seed, number++);
    unlink(next->file);
    if (!report(next->told, number - first) && right && first != last && next->broken == BROKEN_NOT) {
        printf("kills: not killed everywhere: run it longer\n");
        return false;
    }
    return right;
}

int main(int argc, char **argv)
{
    if (argc < 4) {
        fprintf(stderr, "usage: kills SECONDS SEED FILE [--broken open|sync|early|torn|cache] [--store NUMBER]\n");
        return 2;
    }
    Plan next = {.file = argv[3]};
    uint32_t first = 0;
    uint32_t last = UINT32_MAX;
    for (int i = 4; i + 1 < argc; i += 2) {
        if (strcmp(argv[i], "--broken") == 0)
            next.broken = broken_by(argv[i + 1]);
        if (strcmp(argv[i], "--store") == 0)
            first = last = (uint32_t)strtoul(argv[i + 1], NULL, 10);
    }
    next.told = mmap(NULL, sizeof *next.told, PROT_READ | PROT_WRITE, MAP_SHARED | MAP_ANONYMOUS, -1, 0);
    if (next.told == MAP_FAILED) {
        perror("kills: mmap");
        return 1;
    }
    bool right = play(&next, strtoull(argv[2], NULL, 10), strtol(argv[1], NULL, 10), first, last);
    if (next.broken != BROKEN_NOT) {
        printf("kills: seed %s: the broken driver was %s\n", argv[2], right ? "NOT noticed" : "noticed");
        return right ? 1 : 0;
    }
    printf("kills: seed %s: %s\n", argv[2], right ? "nothing wrong" : "WRONG");
    return right ? 0 : 1;
}
