/* Hard use of the mender: random sheets, sound and damaged in any word and byte, with reports around the need.
 *
 *     hard_mend [N [SEED]]        N random sheets (20,000) from a seed (1)
 *
 * The mended sheet and the report are worked out here in the wish's own words, and every byte of the call's is held to them. What is worked out is itself held to refusals 1 to 4
 * of judge.h. The sheet and the report lie at the fences of fence.h, in turn in each way that it has. The first wrong thing is said, and the program ends with 1. */
#define _GNU_SOURCE
#include <inttypes.h>
#include <stdio.h>

#include "fence.h"
#include "judge.h"
#include "random_sheet.h"

enum { MORE = 64, WORD_BYTES = TWIGMANTLE_SIZE_WORD, CHANGE = TWIGMANTLE_CHANGE_WORDS };

static struct pages sheets, reports;
static uint8_t made[TWIGMANTLE_MOST_SHEET + MORE], wanted[TWIGMANTLE_MOST_SHEET + MORE];
static uint32_t rows[TWIGMANTLE_MOST_REPORT];
static size_t length, need;
static uint64_t turn, calls, counts[14], sound, most;

static void wrong(const char *what, size_t words)
{
    printf("turn %" PRIu64 ": a sheet of %zu bytes, a report of %zu words for %zu: %s\n", turn, length, words, need, what);
    exit(1);
}

static void note(size_t at, uint32_t was, uint32_t is)
{
    if (was == is)
        return;
    if (need + CHANGE > TWIGMANTLE_MOST_REPORT)
        wrong("more changes than TWIGMANTLE_MOST_REPORT has rows for", 0);
    rows[need++] = (uint32_t)at;
    rows[need++] = was;
    rows[need++] = is;
}

/* The word at this offset is to be this one. */
static void becomes(size_t at, uint32_t is)
{
    note(at, word_at(made, at), is);
    put(wanted, at, is);
}

/* Two words: a place stays if it is in the bodies, and words that may not be one become 0. */
static void place_becomes(const struct parts *s, size_t at, int allowed)
{
    if (allowed && !is_past(s, at))
        return;
    becomes(at, 0);
    becomes(at + WORD_BYTES, 0);
}

static uint32_t mend_head(const struct parts *s)
{
    static const struct {
        size_t word;
        uint32_t most, usual;
    } options[] = {
        {TWIGMANTLE_HEAD_INDENT, 256, 2}, {TWIGMANTLE_HEAD_CASE, 2, 0}, {TWIGMANTLE_HEAD_INLINE, 2, 0}, {TWIGMANTLE_HEAD_LINES, 255, 1}};
    uint32_t mode = word_at(made, WORD_BYTES * TWIGMANTLE_HEAD_MODE);
    if (mode > TWIGMANTLE_MODE_NAMED)
        mode = s->params != 0 ? 1 : 0;
    if (mode == 0 && s->params != 0)
        mode = 1;
    becomes(WORD_BYTES * TWIGMANTLE_HEAD_MODE, mode);
    for (size_t i = 0; i < sizeof options / sizeof options[0]; i++)
        if (word_at(made, WORD_BYTES * options[i].word) > options[i].most)
            becomes(WORD_BYTES * options[i].word, options[i].usual);
    return mode;
}

static void mend_token(const struct parts *s, size_t at)
{
    uint32_t packed = word_at(made, at), class;
    if (packed >= 256 || packed % 32 >= KINDS)
        packed = WORD;
    class = packed / 32 % 4;
    becomes(at, packed);
    place_becomes(s, at + 4, 1);
    if (class == TWIGMANTLE_KEY_ZERO_INDEXED || class == TWIGMANTLE_KEY_ONE_INDEXED)
        becomes(at + 16, 0);
    else
        place_becomes(s, at + 12, class == TWIGMANTLE_KEY_NAMED);
}

/* The mended sheet and its rows, for a sheet of the right size, from the first byte to the last. */
static void work_out(void)
{
    struct parts s = parts_of(made);
    memcpy(wanted, made, length);
    uint32_t mode = mend_head(&s);
    for (size_t i = 0; i < s.tokens; i++)
        mend_token(&s, TWIGMANTLE_SIZE_HEAD + TWIGMANTLE_SIZE_TOKEN * i);
    for (size_t i = 0; i < s.params; i++) {
        place_becomes(&s, s.first_param + TWIGMANTLE_SIZE_PARAM * i, mode == TWIGMANTLE_MODE_NAMED);
        place_becomes(&s, s.first_param + TWIGMANTLE_SIZE_PARAM * i + 8, 1);
    }
    for (size_t i = 0; i < s.keeps; i++)
        place_becomes(&s, s.first_keep + TWIGMANTLE_SIZE_KEEP * i, 1);
    for (size_t at = s.base; at < length; at++)
        if (made[at] > TWIGMANTLE_MOST_BYTE) {
            note(at, made[at], '?');
            wanted[at] = '?';
        }
    if (first_offence(wanted, length).refusal != 0)
        wrong("what is worked out is refused itself", need);
    if ((first_offence(made, length).refusal == 0) != (need == 0))
        wrong("a sound sheet to be changed, or another to be left", need);
}

static int is_zero(const uint32_t *words, size_t n)
{
    for (size_t i = 0; i < n; i++)
        if (words[i] != 0)
            return 0;
    return 1;
}

static void call(size_t words, int wrong_size)
{
    enum where where = calls++ % WAYS;
    uint8_t *sheet = lend(&sheets, length, where), *lent = lend(&reports, WORD_BYTES * words, where);
    uint32_t *report = (uint32_t *)(void *)lent;
    if (length > 0)
        memcpy(sheet, made, length);
    if (where != HEAP && words > 0)
        memset(lent, 7, WORD_BYTES * words);
    uint32_t refusal = wrong_size ? TWIGMANTLE_REFUSAL_SIZE : words < need ? TWIGMANTLE_REFUSAL_REPORT : 0;
    size_t written = refusal == 0 ? need : 0;
    struct twigmantle_outcome o = twigmantle_mend(sheet, length, report, words);
    if (o.refusal != refusal || o.place != 0)
        wrong("another number or place", words);
    if (o.length != written / CHANGE)
        wrong("another number of changes", words);
    if (length > 0 && memcmp(sheet, refusal == 0 ? wanted : made, length) != 0)
        wrong(refusal == 0 ? "another sheet" : "a refusal that did not leave the sheet as it came", words);
    if (written > 0 && memcmp(report, rows, WORD_BYTES * written) != 0)
        wrong("another report", words);
    if (!is_zero(report + written, words - written))
        wrong("a word after the report that is not zero", words);
    counts[refusal]++;
    give_back(sheet, where);
    give_back(lent, where);
}

/* A number that is bad in many words: a stray bit, around the bodies' end, just over a bound, as large as can be. */
static uint32_t bad(uint32_t old, uint32_t bytes)
{
    static const uint32_t numbers[] = {0, 1, 2, 3, 17, 31, 256, 257, 0xffffffff};
    uint32_t stray = 1u << under(32), number = numbers[under(sizeof numbers / sizeof numbers[0])];
    return one_in(2) ? old ^ stray : one_in(3) ? bytes + under(2) : number;
}

/* Words and bytes bent anywhere but in the counts: some, or all of one sort or of both. */
static void bend(void)
{
    size_t base = parts_of(made).base;
    uint32_t bytes = word_at(made, WORD_BYTES * TWIGMANTLE_HEAD_BODY), words = (uint32_t)base / WORD_BYTES - TWIGMANTLE_HEAD_MODE;
    int all_words = one_in(24), all_bytes = one_in(24);
    for (uint32_t i = all_words ? words : under(6); i > 0; i--) {
        size_t word = all_words ? i - 1 : under(one_in(4) ? 5 : words), at = WORD_BYTES * (TWIGMANTLE_HEAD_MODE + word);
        put(made, at, bad(word_at(made, at), bytes));
    }
    for (uint32_t i = all_bytes ? bytes : bytes > 0 && one_in(2) ? under(4) : 0; i > 0; i--)
        made[base + (all_bytes ? i - 1 : under(bytes))] = (uint8_t)(one_in(2) ? 128 : 128 + under(128));
}

/* Shorter, longer, or with another count. */
static void spoil_size(void)
{
    if (one_in(3))
        length = under((uint32_t)length);
    else if (one_in(2))
        length += 1 + under(MORE - 1);
    else
        put(made, WORD_BYTES * under(4), one_in(2) ? under(8) : bad(0, 0));
}

static void try_reports(void)
{
    int wrong_size = first_offence(made, length).refusal == TWIGMANTLE_REFUSAL_SIZE;
    need = 0;
    if (!wrong_size)
        work_out();
    most = need > most ? need : most;
    sound += !wrong_size && need == 0;
    size_t words[] = {need, need - (need > 0), need + 5, 0, need > 3 ? need - 3 : 0, under((uint32_t)need + 40)};
    for (size_t i = 0; i < sizeof words / sizeof words[0]; i++)
        call(words[i], wrong_size);
}

/* Every count at its bound, and everything bad that can be: as many rows as the header says. */
static void worst(void)
{
    static const uint32_t head[] = {TWIGMANTLE_MOST_TOKENS, TWIGMANTLE_MOST_PARAMS, TWIGMANTLE_MOST_KEEPS, TWIGMANTLE_MOST_BODY};
    length = TWIGMANTLE_MOST_SHEET;
    memset(made, 0xff, length);
    for (size_t i = 0; i < 4; i++)
        put(made, WORD_BYTES * i, head[i]);
    try_reports();
    if (need != TWIGMANTLE_MOST_REPORT)
        wrong("TWIGMANTLE_MOST_REPORT is another", 0);
}

/* Null pointers, each with length 0. */
static void nulls(void)
{
    uint32_t report[] = {7, 7, 7};
    need = length = 0;
    if (twigmantle_mend(NULL, 0, NULL, 0).refusal != TWIGMANTLE_REFUSAL_SIZE || twigmantle_mend(NULL, 0, report, 3).refusal != TWIGMANTLE_REFUSAL_SIZE)
        wrong("no bytes, and not refused with 1", 0);
    if (!is_zero(report, 3))
        wrong("no bytes, and a report that is not zero", 3);
    length = twigmantle_rust_head(made, TWIGMANTLE_SIZE_HEAD);
    if (twigmantle_mend(made, length, NULL, 0).refusal != 0)
        wrong("a sound head, and refused without a report", 0);
    made[WORD_BYTES * TWIGMANTLE_HEAD_CASE] = 3;
    if (twigmantle_mend(made, length, NULL, 0).refusal != TWIGMANTLE_REFUSAL_REPORT || made[WORD_BYTES * TWIGMANTLE_HEAD_CASE] != 3)
        wrong("a bad head, and not refused with 13 without a report", 0);
}

int main(int argc, char **argv)
{
    uint64_t turns = argc > 1 ? strtoull(argv[1], NULL, 10) : 20000;
    dice = argc > 2 ? strtoull(argv[2], NULL, 10) : 1;
    sheets = fenced(sizeof made, 1);
    reports = fenced(WORD_BYTES * (TWIGMANTLE_MOST_REPORT + MORE), 1);
    for (turn = 0; turn < turns; turn++) {
        length = random_sheet(made);
        if (!one_in(8))
            bend();
        if (one_in(16))
            spoil_size();
        try_reports();
    }
    worst();
    nulls();
    printf("%" PRIu64 " sheets, %" PRIu64 " calls, no fault\n%" PRIu64 " sheets sound, %" PRIu64 " calls mended, refusals 1: %" PRIu64 ", 13: %" PRIu64 "; at most %" PRIu64 " changes\n", turns,
           calls, sound, counts[0], counts[1], counts[TWIGMANTLE_REFUSAL_REPORT], most / CHANGE);
    return counts[0] > 0 && counts[TWIGMANTLE_REFUSAL_REPORT] > 0 ? 0 : 1;
}
