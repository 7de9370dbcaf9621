/* A host as the desk has it: the SQL that fetched a caller's notes, with the call ID and the line number filled in. What a new host copies, with builder.h,
 * builder.c and twigmantle.h. */
#include <inttypes.h>
#include <stdio.h>

#include "builder.h"

#define COUNT(a) (sizeof(a) / sizeof((a)[0]))
#define VALUE(s) {s, sizeof(s) - 1}
#define TOKEN(k, s) {.kind = TWIGMANTLE_KIND_##k, .value = VALUE(s)}
#define BLANK TOKEN(WHITESPACE, " ")

static const struct sheet_token QUERY[] = {
    TOKEN(RESERVED_TOP_LEVEL, "SELECT"), BLANK, TOKEN(WORD, "note"),    BLANK, TOKEN(RESERVED_TOP_LEVEL, "FROM"), BLANK, TOKEN(WORD, "notes"),    BLANK,
    TOKEN(RESERVED_TOP_LEVEL, "WHERE"),  BLANK, TOKEN(WORD, "call_id"), BLANK, TOKEN(OPERATOR, "="),              BLANK, TOKEN(PLACEHOLDER, "?"), BLANK,
    TOKEN(RESERVED_NEWLINE, "and"),      BLANK, TOKEN(WORD, "line"),    BLANK, TOKEN(OPERATOR, "="),              BLANK, TOKEN(PLACEHOLDER, "?"),
};
static const struct sheet_param PARAMS[] = {{.value = VALUE("48213")}, {.value = VALUE("7")}};

static uint8_t sheet[TWIGMANTLE_MOST_SHEET]; /* never too short for a sheet */
static uint8_t text[1 << 20];                /* the most that this host lends */

static size_t build(void)
{
    struct sheet_plan plan = {.options = sheet_default_options(), .mode = TWIGMANTLE_MODE_INDEXED};
    plan.options.letter_case = TWIGMANTLE_CASE_UPPER;
    plan.tokens = QUERY;
    plan.token_count = COUNT(QUERY);
    plan.params = PARAMS;
    plan.param_count = COUNT(PARAMS);
    struct sheet_built built = sheet_build(&plan, sheet, sizeof sheet);
    if (built.fault != SHEET_BUILT)
        printf("not built: fault %d in list %d at %zu\n", (int)built.fault, (int)built.part, built.index);
    return built.length;
}

/* Lends what is known to be enough, or all there is: only in that case can refusal 9 come. A refused sheet needs nothing. */
static struct twigmantle_report lay_out(size_t n)
{
    struct twigmantle_outcome need = twigmantle_room(sheet, n);
    size_t room = need.length < sizeof text ? (size_t)need.length : sizeof text;
    printf("%zu bytes are lent\n", room);
    return twigmantle_layout(sheet, n, text, room);
}

static void show(struct twigmantle_report r)
{
    if (r.refusal != TWIGMANTLE_REFUSAL_NONE)
        printf("refused %" PRIu32 " at %" PRIu64 " (%s)\n", r.refusal, r.place, r.refusal <= TWIGMANTLE_REFUSAL_BYTE ? "byte of the sheet" : "token");
    else
        printf("%.*s\n(%" PRIu64 " bytes, %" PRIu64 " lines, %" PRIu64 " wide)\n", (int)r.length, (const char *)text, r.length, r.lines, r.width);
}

int main(void)
{
    size_t n = build();
    if (n == 0)
        return 1;
    show(lay_out(n));
    sheet[TWIGMANTLE_SIZE_WORD * TWIGMANTLE_HEAD_CASE] = 3;
    show(lay_out(n)); /* a sheet that was damaged on its way */
    return 0;
}
