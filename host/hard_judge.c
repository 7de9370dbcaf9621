/* Hard use of the judge of a text: random sheets, sound, damaged and such as layout refuses, each with texts around what is due.
 *
 *     hard_judge [N [SEED]]        N random sheets (20,000) from a seed (1)
 *
 * What is due is worked out here with judge.h, byte by byte with the token that each is of, and every number of the verdict is held to it. Where the layout call gives a text, that must be a
 * yes. The sheet and the text lie at the fences of fence.h, where they can only be read, in turn in each way that it has. The first wrong thing is said, and the program ends with 1. */
#define _GNU_SOURCE
#include <inttypes.h>
#include <stdio.h>

#include "fence.h"
#include "judge.h"
#include "random_sheet.h"

enum { MORE = 64, WORD_BYTES = TWIGMANTLE_SIZE_WORD, MOST_DUE = 1 << 22, MOST_TEXT = 1 << 23, ROOM = 1 << 16, LAST_REFUSAL = TWIGMANTLE_REFUSAL_TEXT };
enum sort { SPREAD, BARE, CHANGED, LEFT_OUT, OTHER_CASE, CUT, EXTRA, HIGH, EMPTY, WHITE, BEFORE, SORTS };

static struct pages sheets, texts;
static uint8_t made[TWIGMANTLE_MOST_SHEET + MORE], due[MOST_DUE], text[MOST_TEXT], before[ROOM], laid[ROOM];
static uint16_t owner[MOST_DUE]; /* the token of each byte that is due */
static size_t length, due_length, text_length, before_length;
static struct offence refused; /* 1 to 5: before any text is compared */
static uint64_t turn, calls, counts[LAST_REFUSAL + 1], yes, at_token, extra, own, withdrawn, passed;

static void wrong(const char *what)
{
    printf("turn %" PRIu64 ": a sheet of %zu bytes, a text of %zu for %zu: %s\n", turn, length, text_length, due_length, what);
    exit(1);
}

/* Adds what a token shows, white bytes taken out; 0 if there is no room. */
static int add_due(struct value v, uint32_t letter_case, size_t token)
{
    for (size_t i = 0; i < v.n; i++) {
        if (is_white(v.at[i]))
            continue;
        if (due_length == MOST_DUE)
            return 0;
        owner[due_length] = (uint16_t)token;
        due[due_length++] = cased(v.at[i], letter_case);
    }
    return 1;
}

/* What is due of the sheet, or its refusal; 0 if it is more than this program holds. */
static int work_out(void)
{
    due_length = 0;
    refused = first_offence(made, length);
    if (refused.refusal != 0)
        return 1;
    struct parts s = parts_of(made);
    struct turns turns = {1, 0};
    size_t counter = 0;
    for (size_t i = 0; i < s.tokens; i++) {
        uint32_t kind = word_at(made, TWIGMANTLE_SIZE_HEAD + TWIGMANTLE_SIZE_TOKEN * i) & TWIGMANTLE_PACKED_KIND_MASK, entry, letter_case = TWIGMANTLE_CASE_AS_IS;
        struct value v = place_at(&s, TWIGMANTLE_SIZE_HEAD + TWIGMANTLE_SIZE_TOKEN * i + WORD_BYTES * TWIGMANTLE_TOKEN_START);
        int kept = turn_of(&turns, kind, v), on = kept == 1;
        if (kept < 0 || (on && kind == TWIGMANTLE_KIND_WHITESPACE))
            continue;
        if (on && is_nought(&s, i)) {
            refused = offence_at(TWIGMANTLE_REFUSAL_NOUGHT, i);
            return 1;
        }
        if (on && kind == PLACEHOLDER && (entry = entry_of(&s, i, &counter)) != TWIGMANTLE_ENTRY_OWN)
            v = entry_value(&s, entry);
        if (on && has_case(kind) && !is_kept_word(&s, v))
            letter_case = word_at(made, WORD_BYTES * TWIGMANTLE_HEAD_CASE);
        if (!add_due(v, letter_case, i))
            return 0;
    }
    return 1;
}

static struct twigmantle_judged wanted(void)
{
    struct twigmantle_judged j = {refused.refusal, refused.place, 0, 0};
    size_t at = 0;
    if (j.refusal != 0)
        return j;
    for (size_t i = 0; i < text_length; i++)
        if (text[i] >= 128)
            return (struct twigmantle_judged){TWIGMANTLE_REFUSAL_TEXT, i, 0, 0};
    for (size_t i = 0; i < text_length; i++) {
        if (is_white(text[i]))
            continue;
        if (at == due_length || due[at] != text[i]) {
            j.token = at == due_length ? word_at(made, 0) : owner[at];
            return j;
        }
        at++;
    }
    j.matches = at == due_length;
    j.token = j.matches ? 0 : owner[at];
    return j;
}

static void call(void)
{
    enum where where = calls++ % WAYS;
    uint8_t *sheet = lend(&sheets, length, where), *lent = lend(&texts, text_length, where);
    if (length > 0)
        memcpy(own_of(&sheets, sheet, where), made, length);
    if (text_length > 0)
        memcpy(own_of(&texts, lent, where), text, text_length);
    struct twigmantle_judged j = twigmantle_judge(sheet, length, lent, text_length), w = wanted();
    if (j.refusal != w.refusal || j.place != w.place)
        wrong("another refusal or place");
    if (j.matches != w.matches)
        wrong(w.matches ? "a text that is due, and not a yes" : "a yes, or a refusal that matches");
    if (j.token != w.token)
        wrong("another token");
    counts[j.refusal]++;
    yes += j.matches;
    at_token += j.refusal == 0 && !j.matches && j.token != word_at(made, 0);
    extra += j.refusal == 0 && !j.matches && j.token == word_at(made, 0);
    withdrawn += j.refusal == 0 && word_at(made, WORD_BYTES * TWIGMANTLE_HEAD_INLINE) == TWIGMANTLE_INLINE_ON;
    give_back(sheet, where);
    give_back(lent, where);
}

static void add(uint8_t byte)
{
    if (text_length < MOST_TEXT)
        text[text_length++] = byte;
}

static void add_white(uint32_t n)
{
    for (uint32_t i = under(n); i > 0; i--)
        add((uint8_t)(one_in(2) ? ' ' : 9 + under(5)));
}

static void make(enum sort sort)
{
    static const uint8_t near[] = {8, 14, 31, 33, 0, 127, 'a', ';'};
    uint8_t odd = near[under(sizeof near)];
    size_t at = under((uint32_t)due_length), n = sort == CUT ? at : sort >= EMPTY ? 0 : due_length;
    text_length = 0;
    for (size_t i = 0; i < n; i++) {
        if (sort != BARE)
            add_white(one_in(8) ? 4 : 1);
        if (sort == HIGH && i == at)
            add((uint8_t)(one_in(2) ? 128 : 128 + under(128)));
        if (sort == CHANGED && i == at)
            add(odd != due[i] ? odd : (uint8_t)(odd + 1));
        else if (sort == OTHER_CASE && i >= at)
            add(cased(due[i], due[i] >= 'a' ? TWIGMANTLE_CASE_UPPER : TWIGMANTLE_CASE_LOWER));
        else if (sort != LEFT_OUT || i != at)
            add(due[i]);
    }
    if (sort == HIGH && n == 0)
        add(255);
    if (sort != BARE && sort != EMPTY)
        add_white(5);
    if (sort == EXTRA)
        add(odd);
    if (sort == BEFORE)
        memcpy(text, before, text_length = before_length);
}

/* What the layout call gives is a yes. */
static void try_own(void)
{
    struct twigmantle_report r = twigmantle_layout(made, length, laid, sizeof laid);
    if (r.refusal != 0)
        return;
    memcpy(text, laid, text_length = (size_t)r.length);
    if (!wanted().matches)
        wrong("a text of the layout call that is not due");
    call();
    own++;
}

static void try_texts(void)
{
    if (!work_out()) {
        passed++;
        return;
    }
    for (int sort = 0; sort < SORTS; sort++) {
        if (sort == CHANGED && due_length == 0)
            continue;
        make((enum sort)sort);
        call();
    }
    try_own();
    before_length = due_length < sizeof before ? due_length : sizeof before;
    memcpy(before, due, before_length);
}

/* Placeholders of a numbered list among switch comments: what is copied, dropped and counted. Its length. */
static size_t switch_sheet(void)
{
    static const char body[] = "-- fmt: off-- fmt: on ?a123";
    static const uint32_t tokens[][3] = {{LINE_COMMENT, 0, 11}, {LINE_COMMENT, 11, 10}, {TWIGMANTLE_KIND_WHITESPACE, 21, 1}, {PLACEHOLDER, 22, 1}, {PLACEHOLDER, 22, 1}, {WORD, 23, 1}};
    enum { BYTES = sizeof body - 1, SORTS_OF_TOKEN = sizeof tokens / sizeof tokens[0], ENTRIES = 3 };
    uint32_t n = under(24);
    size_t at = twigmantle_rust_head(made, TWIGMANTLE_SIZE_HEAD);
    put(made, WORD_BYTES * TWIGMANTLE_HEAD_TOKENS, n);
    put(made, WORD_BYTES * TWIGMANTLE_HEAD_PARAMS, ENTRIES);
    put(made, WORD_BYTES * TWIGMANTLE_HEAD_BODY, BYTES);
    put(made, WORD_BYTES * TWIGMANTLE_HEAD_MODE, TWIGMANTLE_MODE_INDEXED);
    for (uint32_t i = 0; i < n; i++, at += TWIGMANTLE_SIZE_TOKEN) {
        const uint32_t *token = tokens[under(SORTS_OF_TOKEN)];
        for (size_t word = 0; word < 3; word++)
            put(made, at + WORD_BYTES * word, token[word]);
    }
    for (uint32_t i = 0; i < ENTRIES; i++, at += TWIGMANTLE_SIZE_PARAM) {
        put(made, at + WORD_BYTES * TWIGMANTLE_PARAM_START, BYTES - ENTRIES + i);
        put(made, at + WORD_BYTES * TWIGMANTLE_PARAM_LENGTH, 1);
    }
    memcpy(made + at, body, BYTES);
    return at + BYTES;
}

/* A word, a byte or the length made bad, or a one-based 0 put in. */
static void bend(void)
{
    size_t base = parts_of(made).base, words = base / WORD_BYTES - TWIGMANTLE_HEAD_MODE;
    uint32_t bytes = word_at(made, WORD_BYTES * TWIGMANTLE_HEAD_BODY), n = word_at(made, 0);
    if (n > 0 && one_in(2)) {
        size_t at = TWIGMANTLE_SIZE_HEAD + TWIGMANTLE_SIZE_TOKEN * under(n);
        put(made, at, (uint32_t)PLACEHOLDER | (uint32_t)TWIGMANTLE_KEY_ONE_INDEXED << TWIGMANTLE_PACKED_CLASS_SHIFT);
        put(made, at + WORD_BYTES * TWIGMANTLE_TOKEN_KEY_A, 0);
        put(made, at + WORD_BYTES * TWIGMANTLE_TOKEN_KEY_B, 0);
    } else if (one_in(2))
        put(made, WORD_BYTES * (TWIGMANTLE_HEAD_MODE + under((uint32_t)words)), one_in(2) ? bytes + under(2) : 1u << under(32));
    else if (bytes > 0 && one_in(2))
        made[base + under(bytes)] = (uint8_t)(128 + under(128));
    else
        length = one_in(2) ? under((uint32_t)length) : length + 1 + under(MORE - 1);
}

/* One letter at the end of as long a text as there is room for; then another there. */
static void longest(void)
{
    static const uint8_t one[] = {TWIGMANTLE_KIND_WORD, 0, 0, 0, 0, 0, 0, 0, 1, 0, 0, 0, 0, 0, 0, 0, 0, 0, 0, 0, 'a'};
    length = twigmantle_rust_head(made, TWIGMANTLE_SIZE_HEAD) + sizeof one;
    memcpy(made + TWIGMANTLE_SIZE_HEAD, one, sizeof one);
    put(made, WORD_BYTES * TWIGMANTLE_HEAD_TOKENS, 1);
    put(made, WORD_BYTES * TWIGMANTLE_HEAD_BODY, 1);
    work_out();
    memset(text, '\n', text_length = MOST_TEXT);
    for (uint8_t last = 'a'; last <= 'b'; last++) {
        text[MOST_TEXT - 1] = last;
        for (int i = 0; i < WAYS; i++)
            call();
    }
}

static int is(struct twigmantle_judged j, uint32_t refusal, uint32_t matches, uint64_t token)
{
    return j.refusal == refusal && j.place == 0 && j.matches == matches && j.token == token;
}

/* Null pointers, each with length 0. */
static void nulls(void)
{
    static const uint8_t a[] = "a", high[] = {200};
    length = text_length = due_length = 0;
    if (!is(twigmantle_judge(NULL, 0, NULL, 0), TWIGMANTLE_REFUSAL_SIZE, 0, 0) || !is(twigmantle_judge(NULL, 0, high, 1), TWIGMANTLE_REFUSAL_SIZE, 0, 0))
        wrong("no sheet, and not refused with 1");
    length = twigmantle_rust_head(made, TWIGMANTLE_SIZE_HEAD);
    if (!is(twigmantle_judge(made, length, NULL, 0), 0, 1, 0))
        wrong("no tokens and no text, and not a yes");
    if (!is(twigmantle_judge(made, length, a, 1), 0, 0, 0) || !is(twigmantle_judge(made, length, high, 1), TWIGMANTLE_REFUSAL_TEXT, 0, 0))
        wrong("no tokens and a byte");
}

int main(int argc, char **argv)
{
    uint64_t turns = argc > 1 ? strtoull(argv[1], NULL, 10) : 20000;
    dice = argc > 2 ? strtoull(argv[2], NULL, 10) : 1;
    sheets = fenced(sizeof made, 0);
    texts = fenced(MOST_TEXT, 0);
    for (turn = 0; turn < turns; turn++) {
        memset(made, 0, sizeof made);
        length = one_in(16) ? switch_sheet() : random_sheet(made);
        if (one_in(8))
            bend();
        try_texts();
    }
    longest();
    nulls();
    printf("%" PRIu64 " sheets, %" PRIu64 " calls, no fault\n%" PRIu64 " a yes, %" PRIu64 " of them texts of the layout call; no at a token: %" PRIu64 ", with extra bytes: %" PRIu64
           "; with the inline that is withdrawn: %" PRIu64 "\nrefusals 1 to 4: %" PRIu64 " %" PRIu64 " %" PRIu64 " %" PRIu64 ", 5: %" PRIu64 ", 15: %" PRIu64 "; sheets too long for this program: %" PRIu64 "\n",
           turns, calls, yes, own, at_token, extra, withdrawn, counts[1], counts[2], counts[3], counts[4], counts[5], counts[LAST_REFUSAL], passed);
    return yes > 0 && own > 0 && at_token > 0 && extra > 0 && counts[TWIGMANTLE_REFUSAL_NOUGHT] > 0 && counts[LAST_REFUSAL] > 0 ? 0 : 1;
}
