/* A station lays out the SQL with its own tool and pastes the text beside our sheet: this says whether the text is the sheet's, and if not, from which token on.
 *
 * What a host copies that judges texts, with builder.h, builder.c and twigmantle.h. */
#include <inttypes.h>
#include <stdio.h>
#include <string.h>

#include "builder.h"

#define COUNT(a) (sizeof(a) / sizeof((a)[0]))
#define VALUE(s) {s, sizeof(s) - 1}
#define TOKEN(k, s) {.kind = TWIGMANTLE_KIND_##k, .value = VALUE(s)}
#define BLANK TOKEN(WHITESPACE, " ")

static const struct sheet_token QUERY[] = {
    TOKEN(RESERVED_TOP_LEVEL, "select"), BLANK, TOKEN(WORD, "note"),    BLANK, TOKEN(RESERVED_TOP_LEVEL, "from"), BLANK, TOKEN(WORD, "notes"),    BLANK,
    TOKEN(RESERVED_TOP_LEVEL, "where"),  BLANK, TOKEN(WORD, "call_id"), BLANK, TOKEN(OPERATOR, "="),              BLANK, TOKEN(PLACEHOLDER, "?"), BLANK,
    TOKEN(RESERVED_NEWLINE, "and"),      BLANK, TOKEN(WORD, "line"),    BLANK, TOKEN(OPERATOR, "="),              BLANK, TOKEN(PLACEHOLDER, "?"),
};
static const struct sheet_param PARAMS[] = {{.value = VALUE("48213")}, {.value = VALUE("7")}};

/* What the stations sent: their own breaks and indents; the two values changed round; a word in the wrong case; the last line lost; a `;` too many; a dash that isn't ASCII. */
static const char *const TEXTS[] = {
    "SELECT note\n  FROM notes\n WHERE call_id=48213\n   AND line=7\n", "SELECT note FROM notes WHERE call_id = 7 AND line = 48213",
    "SELECT note FROM Notes WHERE call_id = 48213 AND line = 7",       "SELECT note FROM notes\n WHERE call_id = 48213\n",
    "SELECT note FROM notes WHERE call_id = 48213 AND line = 7;",      "SELECT note FROM notes \xe2\x80\x94 WHERE call_id = 48213 AND line = 7",
};

static uint8_t sheet[TWIGMANTLE_MOST_SHEET]; /* never too short for a sheet */

static size_t build(void)
{
    struct sheet_plan plan = {.options = sheet_default_options(), .mode = TWIGMANTLE_MODE_INDEXED};
    plan.options.letter_case = TWIGMANTLE_CASE_UPPER;
    plan.tokens = QUERY;
    plan.token_count = COUNT(QUERY);
    plan.params = PARAMS;
    plan.param_count = COUNT(PARAMS);
    return sheet_build(&plan, sheet, sizeof sheet).length;
}

static void judge(size_t n, const char *text)
{
    struct twigmantle_judged r = twigmantle_judge(sheet, n, (const uint8_t *)text, strlen(text));
    if (r.refusal == TWIGMANTLE_REFUSAL_TEXT)
        printf("not judged: byte %" PRIu64 " of the text is not ASCII\n", r.place);
    else if (r.refusal != TWIGMANTLE_REFUSAL_NONE)
        printf("refused %" PRIu32 " at %" PRIu64 "\n", r.refusal, r.place);
    else if (r.matches)
        printf("yes\n");
    else if (r.token == COUNT(QUERY))
        printf("no: the text has more than the sheet\n");
    else
        printf("no, from token %" PRIu64 " on: `%.*s`\n", r.token, (int)QUERY[r.token].value.n, (const char *)QUERY[r.token].value.at);
}

int main(void)
{
    size_t n = build();
    for (size_t i = 0; i < COUNT(TEXTS); i++)
        judge(n, TEXTS[i]);
    return 0;
}
