/* A station's store of sheets, some of which were made when inline 1 was still laid out: the desk refuses them with 14, and each is converted once, where it lies.
 *
 * What a host copies that has such sheets, with builder.h, builder.c and twigmantle.h. */
#include <inttypes.h>
#include <stdio.h>

#include "builder.h"

#define COUNT(a) (sizeof(a) / sizeof((a)[0]))
#define VALUE(s) {s, sizeof(s) - 1}
#define TOKEN(k, s) {.kind = TWIGMANTLE_KIND_##k, .value = VALUE(s)}
#define BLANK TOKEN(WHITESPACE, " ")
#define FEED TOKEN(WHITESPACE, "\n")

static const struct sheet_token QUERY[] = {
    TOKEN(RESERVED_TOP_LEVEL, "SELECT"), BLANK, TOKEN(WORD, "note"),    BLANK, TOKEN(LINE_COMMENT, "-- in station time"), FEED,
    TOKEN(RESERVED_TOP_LEVEL, "FROM"),   BLANK, TOKEN(WORD, "notes"),   BLANK, TOKEN(RESERVED_TOP_LEVEL, "WHERE"),        BLANK,
    TOKEN(WORD, "call_id"),              BLANK, TOKEN(OPERATOR, "="),   BLANK, TOKEN(PLACEHOLDER, "?"),
};
static const struct sheet_param PARAMS[] = {{.value = VALUE("48213")}};

enum { INLINE_AT = TWIGMANTLE_SIZE_WORD * TWIGMANTLE_HEAD_INLINE };

static uint8_t sheet[TWIGMANTLE_MOST_SHEET];
static uint8_t text[1 << 16];

/* The builder makes no such sheet any more, so the old word is put in by hand. */
static size_t stored(void)
{
    struct sheet_plan plan = {.options = sheet_default_options(), .mode = TWIGMANTLE_MODE_INDEXED};
    plan.options.one_line = TWIGMANTLE_INLINE_COMMENTS;
    plan.tokens = QUERY;
    plan.token_count = COUNT(QUERY);
    plan.params = PARAMS;
    plan.param_count = COUNT(PARAMS);
    size_t n = sheet_build(&plan, sheet, sizeof sheet).length;
    sheet[INLINE_AT] = TWIGMANTLE_INLINE_ON;
    return n;
}

/* 1 if there is a text. */
static int lay_out(size_t n)
{
    struct twigmantle_report r = twigmantle_layout(sheet, n, text, sizeof text);
    if (r.refusal != TWIGMANTLE_REFUSAL_NONE)
        printf("refused %" PRIu32 " at %" PRIu64 "\n", r.refusal, r.place);
    else
        printf("%.*s\n", (int)r.length, (const char *)text);
    return r.refusal == TWIGMANTLE_REFUSAL_NONE;
}

static int convert(size_t n)
{
    struct twigmantle_outcome o = twigmantle_convert(sheet, n);
    if (o.refusal != TWIGMANTLE_REFUSAL_NONE)
        printf("not converted: refused %" PRIu32 " at %" PRIu64 "\n", o.refusal, o.place);
    else
        printf("converted, bytes changed: %" PRIu64 "\n", o.length);
    return o.refusal == TWIGMANTLE_REFUSAL_NONE;
}

int main(void)
{
    size_t n = stored();
    if (!lay_out(n) && (!convert(n) || !lay_out(n)))
        return 1;
    /* Converting again changes nothing, so a host need not know which of its sheets it has converted. */
    if (!convert(n))
        return 1;
    /* A sheet that refusals 1 to 4 refuse is left as it came. */
    sheet[INLINE_AT] = TWIGMANTLE_INLINE_COMMENTS + 1;
    return convert(n) || sheet[INLINE_AT] != TWIGMANTLE_INLINE_COMMENTS + 1;
}
