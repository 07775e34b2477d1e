/* Certificates in a file, from the command line.
 *
 *     shelf FILE put MODEL SERIAL ISSUE RECORD
 *     shelf FILE recall MODEL SERIAL ISSUE
 *     shelf FILE find MODEL SERIAL ISSUE
 *     shelf FILE newest MODEL SERIAL
 *     shelf FILE any MODEL SERIAL
 *     shelf FILE total
 *     shelf FILE list
 *
 * The file is created at its first use. `put` and `recall` return only when what they did is on the disc. Prints the
 * answer's word, and ends with status 0 only if that is `done`.
 *
 *     ./build
 *     cc -std=c11 -Idist example/shelf.c dist/khstore.c -Ldist -lkhirpando -o shelf */
#include <stdio.h>
#include <stdlib.h>
#include <string.h>

#include "khstore.h"

enum { PAGES = KH_PAGES_MOST, ROOM = 64 };

static KhStore store;

/* A number of decimal digits, up to `most`. */
static uint32_t number(const char *word, uint32_t most)
{
    char *end;
    unsigned long long value = strtoull(word, &end, 10);
    if (word[0] < '0' || word[0] > '9' || *end != '\0' || value > most) {
        fprintf(stderr, "shelf: no number up to %u: %s\n", (unsigned)most, word);
        exit(2);
    }
    return (uint32_t)value;
}

static uint16_t short_number(const char *word)
{
    return (uint16_t)number(word, UINT16_MAX);
}

static KhTold open_store(const char *path)
{
    KhTold told = khs_open(&store, path);
    return khs_missing(told) ? khs_create(&store, path, PAGES) : told;
}

/* Answers 6 and 7 ask for a sync and a second try. */
static KhTold put(char **words, char *beside)
{
    beside[0] = '\0';
    uint16_t model = short_number(words[0]);
    uint32_t serial = number(words[1], UINT32_MAX);
    uint16_t issue = short_number(words[2]);
    uint32_t record = number(words[3], UINT32_MAX);
    KhTold told = khs_insert(&store, model, serial, issue, record);
    if (told.answer == KH_SYNCFIRST || told.answer == KH_FULL) {
        told = khs_sync(&store);
        if (told.answer == KH_DONE)
            told = khs_insert(&store, model, serial, issue, record);
    }
    return told.answer == KH_DONE ? khs_sync(&store) : told;
}

/* A recall is safe only after a sync: until then a crash may bring the certificate back. */
static KhTold recall(char **words, char *beside)
{
    beside[0] = '\0';
    uint16_t model = short_number(words[0]);
    uint32_t serial = number(words[1], UINT32_MAX);
    KhTold told = khs_withdraw(&store, model, serial, short_number(words[2]));
    return told.answer == KH_DONE ? khs_sync(&store) : told;
}

static KhTold find(char **words, char *beside, size_t room)
{
    uint16_t model = short_number(words[0]);
    uint32_t serial = number(words[1], UINT32_MAX);
    uint32_t record;
    KhTold told = khs_lookup(&store, model, serial, short_number(words[2]), &record);
    snprintf(beside, room, ": record %u", (unsigned)record);
    return told;
}

static KhTold newest(char **words, char *beside, size_t room)
{
    uint16_t issue;
    uint32_t record;
    KhTold told = khs_newest(&store, short_number(words[0]), number(words[1], UINT32_MAX), &issue, &record);
    snprintf(beside, room, ": issue %u, record %u", (unsigned)issue, (unsigned)record);
    return told;
}
static KhTold any(char **words, char *beside, size_t room)
{
    bool has;
    KhTold told = khs_has_any(&store, short_number(words[0]), number(words[1], UINT32_MAX), &has);
    snprintf(beside, room, ": %s", has ? "yes" : "no");
    return told;
}

/* A list is short; the next one starts behind its last key, if there can be one. */
static KhTold list(char *beside, size_t room)
{
    uint64_t keys[ROOM];
    uint32_t records[ROOM];
    uint64_t start = 0;
    size_t all = 0;
    size_t count;
    KhTold told;
    do {
        told = khs_list(&store, start, keys, records, ROOM, &count);
        for (size_t i = 0; i < count; i++)
            printf("%u %u %u %u\n", (unsigned)kh_key_model(keys[i]), (unsigned)kh_key_serial(keys[i]),
                   (unsigned)kh_key_issue(keys[i]), (unsigned)records[i]);
        all += count;
        if (count > 0)
            start = keys[count - 1] + 1;
    } while (count == ROOM && start != 0);
    snprintf(beside, room, ": %zu certificates", all);
    return told;
}

int main(int argc, char **argv)
{
    static char beside[64];
    const char *call = argc > 2 ? argv[2] : "";
    char **words = argv + 3;
    bool known = (argc == 7 && strcmp(call, "put") == 0) || (argc == 6 && strcmp(call, "find") == 0) ||
                 (argc == 6 && strcmp(call, "recall") == 0) ||
                 (argc == 5 && strcmp(call, "newest") == 0) || (argc == 5 && strcmp(call, "any") == 0) ||
                 (argc == 3 && strcmp(call, "total") == 0) || (argc == 3 && strcmp(call, "list") == 0);
    if (!known) {
        fprintf(stderr, "usage: shelf FILE put MODEL SERIAL ISSUE RECORD\n       shelf FILE recall MODEL SERIAL ISSUE\n"
                        "       shelf FILE find MODEL SERIAL ISSUE\n"
                        "       shelf FILE newest MODEL SERIAL\n       shelf FILE any MODEL SERIAL\n"
                        "       shelf FILE total\n       shelf FILE list\n");
        return 2;
    }
    KhTold told = open_store(argv[1]);
    snprintf(beside, sizeof beside, ": %u certificates", (unsigned)khs_total(&store));
    if (told.answer == KH_DONE && call[0] != 't')
        told = call[0] == 'p'   ? put(words, beside)
               : call[0] == 'r' ? recall(words, beside)
               : call[0] == 'f' ? find(words, beside, sizeof beside)
               : call[0] == 'n' ? newest(words, beside, sizeof beside)
               : call[0] == 'a' ? any(words, beside, sizeof beside)
                                : list(beside, sizeof beside);
    khs_close(&store);
    printf("%s%s\n", khs_word(told), told.answer == KH_DONE ? beside : "");
    return told.answer == KH_DONE ? 0 : 1;
}
