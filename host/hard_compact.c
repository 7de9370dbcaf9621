/* Hard use of the call that compacts: random sheets, edited as a station's tool does, and damaged ones, with buffers around the need.
 *
 *     hard_compact [N [SEED]]        N random sheets (20,000) from a seed (1)
 *
 * The new sheet is worked out here in the wish's own words, a byte at a time, and every byte of the call's is held to it. The sheet and the buffer lie at the fences of
 * fence.h, in turn in each way that it has. The new sheet, converted, is what the call makes of the converted sheet. The first wrong thing is said, and the program ends
 * with 1. */
#define _GNU_SOURCE
#include <inttypes.h>
#include <stdio.h>

#include "fence.h"
#include "judge.h"
#include "random_sheet.h"

enum { MORE = 64 };

static struct pages sheets, outs;
static uint8_t made[TWIGMANTLE_MOST_SHEET + MORE], wanted[TWIGMANTLE_MOST_SHEET];
static size_t length, wanted_length;
static uint64_t turn, calls, converted, counts[12];

static void wrong(const char *what, size_t room)
{
    printf("turn %" PRIu64 ": a sheet of %zu bytes, a buffer of %zu: %s\n", turn, length, room, what);
    exit(1);
}

/* Where the start words of the places stand; how many there are. */
static size_t starts_of(const struct parts *s, size_t *starts)
{
    size_t n = 0;
    for (size_t i = 0; i < s->tokens; i++) {
        size_t at = TWIGMANTLE_SIZE_HEAD + TWIGMANTLE_SIZE_TOKEN * i;
        starts[n++] = at + 4;
        if ((word_at(made, at) >> TWIGMANTLE_PACKED_CLASS_SHIFT & TWIGMANTLE_PACKED_CLASS_MASK) == TWIGMANTLE_KEY_NAMED)
            starts[n++] = at + 12;
    }
    for (size_t i = 0; i < s->params; i++) {
        size_t at = s->first_param + TWIGMANTLE_SIZE_PARAM * i;
        if (word_at(made, 4 * TWIGMANTLE_HEAD_MODE) == TWIGMANTLE_MODE_NAMED)
            starts[n++] = at;
        starts[n++] = at + 8;
    }
    for (size_t i = 0; i < s->keeps; i++)
        starts[n++] = s->first_keep + TWIGMANTLE_SIZE_KEEP * i;
    return n;
}

/* The new sheet, for a sheet that passes refusals 1 to 4. */
static void work_out(void)
{
    static size_t starts[2 * TWIGMANTLE_MOST_TOKENS + 2 * TWIGMANTLE_MOST_PARAMS + TWIGMANTLE_MOST_KEEPS];
    static uint8_t covered[TWIGMANTLE_MOST_BODY];
    static uint32_t before[TWIGMANTLE_MOST_BODY + 1];
    struct parts s = parts_of(made);
    size_t count = starts_of(&s, starts), body = s.base, bytes = length - body;
    memset(covered, 0, sizeof covered);
    for (size_t i = 0; i < count; i++)
        for (uint32_t j = 0; j < word_at(made, starts[i] + 4); j++)
            covered[word_at(made, starts[i]) + j] = 1;
    memcpy(wanted, made, body);
    wanted_length = body;
    for (size_t j = 0; j < bytes; j++) {
        before[j + 1] = before[j] + covered[j];
        if (covered[j])
            wanted[wanted_length++] = made[body + j];
    }
    put(wanted, 4 * TWIGMANTLE_HEAD_BODY, before[bytes]);
    for (size_t i = 0; i < count; i++)
        put(wanted, starts[i], word_at(made, starts[i] + 4) > 0 ? before[word_at(made, starts[i])] : 0);
}

static void call(size_t room, struct offence offence)
{
    enum where where = calls++ % WAYS;
    uint8_t *sheet = lend(&sheets, length, where), *out = lend(&outs, room, where);
    if (length > 0)
        memcpy(own_of(&sheets, sheet, where), made, length);
    if (where != HEAP && room > 0)
        memset(out, 7, room);
    uint32_t refusal = offence.refusal != 0 ? offence.refusal : room < wanted_length ? TWIGMANTLE_REFUSAL_SHEET : 0;
    uint64_t place = offence.refusal != 0 ? offence.place : 0;
    size_t written = refusal == 0 ? wanted_length : 0;
    struct twigmantle_outcome o = twigmantle_compact(sheet, length, out, room);
    if (o.refusal != refusal || o.place != place)
        wrong("another number or place", room);
    if (o.length != written || (written > 0 && memcmp(out, wanted, written) != 0))
        wrong("another sheet", room);
    for (size_t i = written; i < room; i++)
        if (out[i] != 0)
            wrong("a byte after the sheet that is not zero", room);
    if (length > 0 && memcmp(sheet, made, length) != 0)
        wrong("the sheet was written to", room);
    counts[refusal]++;
    give_back(sheet, where);
    give_back(out, where);
}

/* Compacting and converting commute: a sheet that passes refusals 1 to 4, and the new one in `wanted`. */
static void commutes(void)
{
    static uint8_t out[TWIGMANTLE_MOST_SHEET];
    uint64_t changed = twigmantle_convert(made, length).length;
    if (twigmantle_convert(wanted, wanted_length).length != changed)
        wrong("converted before and after, another number of bytes", sizeof out);
    struct twigmantle_outcome o = twigmantle_compact(made, length, out, sizeof out);
    if (o.refusal != 0 || o.length != wanted_length || memcmp(out, wanted, wanted_length) != 0)
        wrong("converted and then compacted, another sheet", sizeof out);
    converted += changed;
}

/* A place moved to new text at the end of the bodies, or into the text that is there. */
static void edit(void)
{
    static size_t starts[2 * TWIGMANTLE_MOST_TOKENS + 2 * TWIGMANTLE_MOST_PARAMS + TWIGMANTLE_MOST_KEEPS];
    struct parts s = parts_of(made);
    size_t count = starts_of(&s, starts), bytes = length - s.base;
    if (count == 0 || length + 8 > sizeof made - MORE || bytes + 8 > TWIGMANTLE_MOST_BODY)
        return;
    size_t at = starts[under((uint32_t)count)];
    uint32_t start = under((uint32_t)bytes + 1), n = under((uint32_t)bytes - start + 1);
    if (one_in(2)) {
        start = (uint32_t)bytes;
        n = under(8);
        for (uint32_t i = 0; i < n; i++)
            made[length++] = (uint8_t)(97 + under(26));
        put(made, 4 * TWIGMANTLE_HEAD_BODY, start + n);
    }
    put(made, at, start);
    put(made, at + 4, n);
}

int main(int argc, char **argv)
{
    uint64_t turns = argc > 1 ? strtoull(argv[1], NULL, 10) : 20000;
    dice = argc > 2 ? strtoull(argv[2], NULL, 10) : 1;
    sheets = fenced(sizeof made, 0);
    outs = fenced(TWIGMANTLE_MOST_SHEET + MORE, 1);
    for (turn = 0; turn < turns; turn++) {
        length = random_sheet(made);
        for (uint32_t edits = under(20); edits > 0 && first_offence(made, length).refusal == 0; edits--)
            edit();
        if (one_in(4))
            made[under((uint32_t)length)] = (uint8_t)under(256);
        if (one_in(16))
            length = under((uint32_t)length);
        struct offence offence = first_offence(made, length);
        wanted_length = 0;
        if (offence.refusal == 0)
            work_out();
        size_t need = wanted_length, rooms[] = {0, need - (need > 0), need, need + 1, under((uint32_t)need + 60), length};
        for (size_t i = 0; i < sizeof rooms / sizeof rooms[0]; i++)
            call(rooms[i] <= TWIGMANTLE_MOST_SHEET + MORE ? rooms[i] : 0, offence);
        if (offence.refusal == 0)
            commutes();
    }
    if (twigmantle_compact(NULL, 0, NULL, 0).refusal != 1)
        wrong("no bytes, and not refused with 1", 0);
    printf("%" PRIu64 " sheets, %" PRIu64 " calls, no fault\n%" PRIu64 " new sheets, refusals 1 to 4: %" PRIu64 " %" PRIu64 " %" PRIu64 " %" PRIu64 ", 11: %" PRIu64 "; %" PRIu64 " converted\n", turns,
           calls, counts[0], counts[1], counts[2], counts[3], counts[4], counts[11], converted);
    return counts[0] > 0 && counts[11] > 0 && converted > 0 ? 0 : 1;
}
