/* Which parameter is this? The producer points at a byte of the text, and the host names the parameter that put it there, or says that none did.
 *
 *     point [BYTE]...        for these bytes of the text, counted from nought; without any, for some
 *
 * What a host copies that wants to point, with builder.h, builder.c and twigmantle.h. */
#include <inttypes.h>
#include <stdio.h>
#include <stdlib.h>

#include "builder.h"

#define COUNT(a) (sizeof(a) / sizeof((a)[0]))
#define VALUE(s) {s, sizeof(s) - 1}
#define TOKEN(k, s) {.kind = TWIGMANTLE_KIND_##k, .value = VALUE(s)}
#define NAMED(s) {.kind = TWIGMANTLE_KIND_PLACEHOLDER, .value = VALUE(":" s), .key_class = TWIGMANTLE_KEY_NAMED, .name = VALUE(s)}
#define BLANK TOKEN(WHITESPACE, " ")

static const struct sheet_token QUERY[] = {
    TOKEN(RESERVED_TOP_LEVEL, "SELECT"), BLANK, TOKEN(WORD, "note"),    BLANK, TOKEN(RESERVED_TOP_LEVEL, "FROM"), BLANK, TOKEN(WORD, "notes"), BLANK,
    TOKEN(RESERVED_TOP_LEVEL, "WHERE"),  BLANK, TOKEN(WORD, "call_id"), BLANK, TOKEN(OPERATOR, "="),              BLANK, NAMED("call"),        BLANK,
    TOKEN(RESERVED_NEWLINE, "AND"),      BLANK, TOKEN(WORD, "line"),    BLANK, TOKEN(OPERATOR, "="),              BLANK, NAMED("line"),        BLANK,
    TOKEN(RESERVED_NEWLINE, "AND"),      BLANK, TOKEN(WORD, "desk"),    BLANK, TOKEN(OPERATOR, "="),              BLANK, NAMED("desk"),
};
static const struct sheet_param PARAMS[] = {{VALUE("line"), VALUE("7")}, {VALUE("call"), VALUE("48213")}};
static const uint64_t SOME[] = {0, 39, 43, 44, 58, 76, 80};

static uint8_t sheet[TWIGMANTLE_MOST_SHEET]; /* never too short for a sheet */
static uint8_t text[1 << 16];
static uint32_t rows[TWIGMANTLE_MOST_LIST]; /* never too short for a list */

static size_t build(void)
{
    struct sheet_plan plan = {.options = sheet_default_options(), .mode = TWIGMANTLE_MODE_NAMED};
    plan.tokens = QUERY;
    plan.token_count = COUNT(QUERY);
    plan.params = PARAMS;
    plan.param_count = COUNT(PARAMS);
    return sheet_build(&plan, sheet, sizeof sheet).length;
}

/* As twigmantle.h says: the rows with a token that is not 0, and one more if token 0 is a placeholder. */
static size_t row_count(void)
{
    size_t count = QUERY[0].kind == TWIGMANTLE_KIND_PLACEHOLDER;
    for (size_t i = 0; i < COUNT(rows); i += TWIGMANTLE_ROW_WORDS)
        count += rows[i + TWIGMANTLE_ROW_TOKEN] != 0;
    return count;
}

/* The row of the value that this byte of the text is in; null if it is in none. */
static const uint32_t *row_at(uint64_t byte)
{
    for (const uint32_t *row = rows, *end = rows + TWIGMANTLE_ROW_WORDS * row_count(); row < end; row += TWIGMANTLE_ROW_WORDS) {
        uint64_t before = row[TWIGMANTLE_ROW_BEFORE_LOW] | (uint64_t)row[TWIGMANTLE_ROW_BEFORE_HIGH] << 32;
        if (byte >= before && byte - before < row[TWIGMANTLE_ROW_SURVIVED])
            return row;
    }
    return NULL;
}

static void put(struct sheet_bytes bytes)
{
    printf("%.*s", (int)bytes.n, (const char *)bytes.at);
}

static void point(uint64_t byte, uint64_t length)
{
    const uint32_t *row = row_at(byte);
    printf("byte %" PRIu64 ": ", byte);
    if (byte >= length) {
        printf("past the text\n");
    } else if (row == NULL) {
        printf("no parameter\n");
    } else if (row[TWIGMANTLE_ROW_ENTRY] == TWIGMANTLE_ENTRY_OWN) {
        put(QUERY[row[TWIGMANTLE_ROW_TOKEN]].value);
        printf(", which has no parameter\n");
    } else {
        printf("parameter %" PRIu32 ", ", row[TWIGMANTLE_ROW_ENTRY]);
        put(PARAMS[row[TWIGMANTLE_ROW_ENTRY]].name);
        printf(" = ");
        put(PARAMS[row[TWIGMANTLE_ROW_ENTRY]].value);
        printf("\n");
    }
}

int main(int argc, char **argv)
{
    struct twigmantle_report r = twigmantle_layout_rows(sheet, build(), text, sizeof text, rows, COUNT(rows));
    if (r.refusal != TWIGMANTLE_REFUSAL_NONE) {
        printf("refused %" PRIu32 " at %" PRIu64 "\n", r.refusal, r.place);
        return 1;
    }
    printf("%.*s\n", (int)r.length, (const char *)text);
    for (int i = 1; i < argc; i++)
        point(strtoull(argv[i], NULL, 10), r.length);
    for (size_t i = 0; argc < 2 && i < COUNT(SOME); i++)
        point(SOME[i], r.length);
    return 0;
}
