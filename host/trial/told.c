#include "told.h"

#include "khirpando.h"

#include <string.h>

/* Three models, three issues, and so twins everywhere. */
uint64_t told_key(uint32_t number)
{
    return kh_key((uint16_t)(7 + number % 3), 1 + number / 9, (uint16_t)(1 + number / 3 % 3));
}

/* CERTIFICATES for a key that is none of the trial's. */
static uint32_t number_of(uint64_t key)
{
    uint64_t number = ((uint64_t)kh_key_serial(key) - 1) * 9 + (kh_key_issue(key) - 1u) * 3 + (kh_key_model(key) - 7u);
    return number < CERTIFICATES && told_key((uint32_t)number) == key ? (uint32_t)number : CERTIFICATES;
}

/* Places in the side's list, by number: where a certificate stands, plus 1. A process fills it at its opening. */
static uint32_t place[CERTIFICATES];

static void place_all(const Side *side)
{
    memset(place, 0, sizeof place);
    for (uint32_t i = 0; i < side->count; i++)
        place[side->puts[i].number] = i + 1;
}

void told_start(Told *told)
{
    told->sides[0].count = 0;
    told->sides[0].kept = 0;
    told->side = 0;
    told->created = false;
    told->doing = OPENING;
    told->wrong[0] = '\0';
}

void told_inserted(Told *told, uint32_t number, uint32_t record)
{
    Side *side = &told->sides[told->side];
    side->puts[side->count] = (Put){number, record};
    place[number] = side->count + 1;
    side->count++;
}

void told_synced(Told *told)
{
    Side *side = &told->sides[told->side];
    side->kept = side->count;
    told->syncs++;
}

const uint32_t *told_now(const Told *told, uint32_t number)
{
    const Side *side = &told->sides[told->side];
    return place[number] ? &side->puts[place[number] - 1].record : NULL;
}

/* Each that is found was put in, with that record; each that was kept is found. */
const char *told_differs(const Told *told, const uint64_t *keys, const uint32_t *records, size_t count)
{
    const Side *side = &told->sides[told->side];
    uint32_t kept = 0;
    place_all(side);
    for (size_t i = 0; i < count; i++) {
        uint32_t number = number_of(keys[i]);
        if (number == CERTIFICATES || place[number] == 0)
            return "a certificate that was never put in";
        if (side->puts[place[number] - 1].record != records[i])
            return "a certificate with another record";
        kept += place[number] <= side->kept;
    }
    return kept == side->kept ? NULL : "a certificate is missing that was kept";
}

void told_opened(Told *told, const uint64_t *keys, const uint32_t *records, size_t count)
{
    const Side *old = &told->sides[told->side];
    Side *side = &told->sides[!told->side];
    for (size_t i = 0; i < count; i++)
        side->puts[i] = (Put){number_of(keys[i]), records[i]};
    side->count = (uint32_t)count;
    side->kept = (uint32_t)count;
    told->through += count - old->kept;
    told->lost += old->count - count;
    told->side = !told->side;
    place_all(side);
}
