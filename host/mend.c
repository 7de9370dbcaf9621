/* A screener's tool for a sheet that the desk shows nothing of: it says what is wrong, mends it, and tells the screener each thing that it changed, for what was bad is lost and
 * not guessed at.
 *
 * What a host copies that mends sheets, with builder.h, builder.c and twigmantle.h. */
#include <inttypes.h>
#include <stdio.h>

#include "builder.h"

#define COUNT(a) (sizeof(a) / sizeof((a)[0]))
#define VALUE(s) {s, sizeof(s) - 1}
#define TOKEN(k, s) {.kind = TWIGMANTLE_KIND_##k, .value = VALUE(s)}
#define BLANK TOKEN(WHITESPACE, " ")

static const struct sheet_token QUERY[] = {
    TOKEN(RESERVED_TOP_LEVEL, "SELECT"), BLANK, TOKEN(WORD, "note"),    BLANK, TOKEN(RESERVED_TOP_LEVEL, "FROM"), BLANK, TOKEN(WORD, "notes"),    BLANK,
    TOKEN(RESERVED_TOP_LEVEL, "WHERE"),  BLANK, TOKEN(WORD, "call_id"), BLANK, TOKEN(OPERATOR, "="),              BLANK, TOKEN(PLACEHOLDER, "?"), BLANK,
    TOKEN(RESERVED_NEWLINE, "AND"),      BLANK, TOKEN(WORD, "line"),    BLANK, TOKEN(OPERATOR, "="),              BLANK, TOKEN(PLACEHOLDER, "?"),
};
static const struct sheet_param PARAMS[] = {{.value = VALUE("48213")}, {.value = VALUE("7")}};

static uint8_t sheet[TWIGMANTLE_MOST_SHEET]; /* never too short for a sheet */
static uint8_t text[1 << 16];
static uint32_t report[TWIGMANTLE_MOST_REPORT]; /* never too short for a report */

static size_t build(void)
{
    struct sheet_plan plan = {.options = sheet_default_options(), .mode = TWIGMANTLE_MODE_INDEXED};
    plan.tokens = QUERY;
    plan.token_count = COUNT(QUERY);
    plan.params = PARAMS;
    plan.param_count = COUNT(PARAMS);
    return sheet_build(&plan, sheet, sizeof sheet).length;
}

static size_t token_at(size_t token, size_t word)
{
    return TWIGMANTLE_SIZE_HEAD + TWIGMANTLE_SIZE_TOKEN * token + TWIGMANTLE_SIZE_WORD * word;
}

static size_t param_at(size_t param, size_t word)
{
    return token_at(COUNT(QUERY), 0) + TWIGMANTLE_SIZE_PARAM * param + TWIGMANTLE_SIZE_WORD * word;
}

/* What a failing tool does: one bit, counted from the low one of the word or byte at this offset, is turned. */
static void stray(size_t at, int bit)
{
    sheet[at + (size_t)bit / 8] ^= (uint8_t)(1 << bit % 8);
}

static uint32_t word(size_t at)
{
    return sheet[at] | (uint32_t)sheet[at + 1] << 8 | (uint32_t)sheet[at + 2] << 16 | (uint32_t)sheet[at + 3] << 24;
}

/* Where an offset of the report is, in words that a screener knows. */
static void say_where(size_t at)
{
    static const char *const HEAD[] = {"parameter mode", "indent", "case", "inline", "lines between queries"};
    static const char *const IN_TOKEN[] = {"kind", "value's start", "value's length", "key", "key's second word"};
    static const char *const IN_PARAM[] = {"name's start", "name's length", "value's start", "value's length"};
    static const char *const IN_KEEP[] = {"start", "length"};
    size_t params = TWIGMANTLE_SIZE_HEAD + TWIGMANTLE_SIZE_TOKEN * (size_t)word(TWIGMANTLE_SIZE_WORD * TWIGMANTLE_HEAD_TOKENS);
    size_t keeps = params + TWIGMANTLE_SIZE_PARAM * (size_t)word(TWIGMANTLE_SIZE_WORD * TWIGMANTLE_HEAD_PARAMS);
    size_t bodies = keeps + TWIGMANTLE_SIZE_KEEP * (size_t)word(TWIGMANTLE_SIZE_WORD * TWIGMANTLE_HEAD_KEEPS);
    if (at < TWIGMANTLE_SIZE_HEAD)
        printf("the %s", HEAD[at / TWIGMANTLE_SIZE_WORD - TWIGMANTLE_HEAD_MODE]);
    else if (at < params)
        printf("token %zu, its %s", (at - TWIGMANTLE_SIZE_HEAD) / TWIGMANTLE_SIZE_TOKEN,
               IN_TOKEN[(at - TWIGMANTLE_SIZE_HEAD) % TWIGMANTLE_SIZE_TOKEN / TWIGMANTLE_SIZE_WORD]);
    else if (at < keeps)
        printf("parameter %zu, its %s", (at - params) / TWIGMANTLE_SIZE_PARAM, IN_PARAM[(at - params) % TWIGMANTLE_SIZE_PARAM / TWIGMANTLE_SIZE_WORD]);
    else if (at < bodies)
        printf("keep word %zu, its %s", (at - keeps) / TWIGMANTLE_SIZE_KEEP, IN_KEEP[(at - keeps) % TWIGMANTLE_SIZE_KEEP / TWIGMANTLE_SIZE_WORD]);
    else
        printf("text byte %zu", at - bodies);
}

static void say_changes(uint64_t count)
{
    for (const uint32_t *row = report; row < report + TWIGMANTLE_CHANGE_WORDS * count; row += TWIGMANTLE_CHANGE_WORDS) {
        say_where(row[TWIGMANTLE_CHANGE_OFFSET]);
        printf(": was %" PRIu32 ", is now %" PRIu32 "\n", row[TWIGMANTLE_CHANGE_OLD], row[TWIGMANTLE_CHANGE_NEW]);
    }
}

static void lay_out(size_t n)
{
    struct twigmantle_report r = twigmantle_layout(sheet, n, text, sizeof text);
    if (r.refusal != TWIGMANTLE_REFUSAL_NONE)
        printf("refused %" PRIu32 " at %" PRIu64 "\n", r.refusal, r.place);
    else
        printf("%.*s\n", (int)r.length, (const char *)text);
}

/* Mends, and tells each change; 0 if that could not be. */
static int mend(size_t n)
{
    struct twigmantle_outcome o = twigmantle_mend(sheet, n, report, COUNT(report));
    if (o.refusal != TWIGMANTLE_REFUSAL_NONE) {
        printf("cannot be mended: refused %" PRIu32 " at %" PRIu64 "\n", o.refusal, o.place);
        return 0;
    }
    printf("mended, %" PRIu64 " changes\n", o.length);
    say_changes(o.length);
    return 1;
}

/* A call that lends no report changes nothing. */
static int is_sound(size_t n)
{
    return twigmantle_mend(sheet, n, NULL, 0).refusal == TWIGMANTLE_REFUSAL_NONE;
}

int main(void)
{
    size_t n = build(), bodies = n - word(TWIGMANTLE_SIZE_WORD * TWIGMANTLE_HEAD_BODY);
    stray(TWIGMANTLE_SIZE_WORD * TWIGMANTLE_HEAD_CASE, 2);
    stray(token_at(4, TWIGMANTLE_TOKEN_PACKED), 8);
    stray(param_at(1, TWIGMANTLE_PARAM_LENGTH), 20);
    stray(bodies + word(token_at(6, TWIGMANTLE_TOKEN_START)), 7);
    printf("%s\n", is_sound(n) ? "sound" : "not sound");
    lay_out(n);
    if (!mend(n))
        return 1;
    lay_out(n);
    printf("%s\n", is_sound(n) ? "sound" : "not sound");
    return 0;
}
