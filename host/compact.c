/* A station's tool that edits a sheet: new text goes to the end of the bodies and the place is moved to it, so old text stays behind. When the bodies are full, the
 * sheet is compacted, and the edit goes on.
 *
 * What a host copies that edits sheets, with builder.h, builder.c and twigmantle.h. */
#include <inttypes.h>
#include <stdio.h>
#include <string.h>

#include "builder.h"

#define COUNT(a) (sizeof(a) / sizeof((a)[0]))
#define VALUE(s) {s, sizeof(s) - 1}
#define TOKEN(k, s) {.kind = TWIGMANTLE_KIND_##k, .value = VALUE(s)}
#define BLANK TOKEN(WHITESPACE, " ")

static const struct sheet_token QUERY[] = {
    TOKEN(RESERVED_TOP_LEVEL, "SELECT"), BLANK, TOKEN(WORD, "note"),    BLANK, TOKEN(RESERVED_TOP_LEVEL, "FROM"), BLANK, TOKEN(WORD, "notes"),   BLANK,
    TOKEN(RESERVED_TOP_LEVEL, "WHERE"),  BLANK, TOKEN(WORD, "call_id"), BLANK, TOKEN(OPERATOR, "="),              BLANK, TOKEN(PLACEHOLDER, "?"),
};
static const struct sheet_param PARAMS[] = {{.value = VALUE("0")}};

/* Two buffers in turn: a sheet is compacted from one into the other. */
static uint8_t sheets[2][TWIGMANTLE_MOST_SHEET];
static size_t length;
static int now;
static uint8_t text[1 << 16];

static uint32_t word(size_t at)
{
    const uint8_t *s = sheets[now] + at;
    return s[0] | (uint32_t)s[1] << 8 | (uint32_t)s[2] << 16 | (uint32_t)s[3] << 24;
}

static void put(size_t at, uint32_t n)
{
    for (int i = 0; i < 4; i++)
        sheets[now][at + i] = (uint8_t)(n >> 8 * i);
}

static size_t compact(void)
{
    struct twigmantle_outcome o = twigmantle_compact(sheets[now], length, sheets[!now], sizeof sheets[0]);
    size_t before = length;
    if (o.refusal != 0) {
        printf("refused %" PRIu32 " at %" PRIu64 "\n", o.refusal, o.place);
        return 0;
    }
    now = !now;
    length = o.length;
    return before - length;
}

/* Shows value for the first parameter; compacts where the bodies have no room for it. */
static int show(const char *value)
{
    uint32_t n = (uint32_t)strlen(value);
    size_t param = TWIGMANTLE_SIZE_HEAD + TWIGMANTLE_SIZE_TOKEN * (size_t)word(TWIGMANTLE_SIZE_WORD * TWIGMANTLE_HEAD_TOKENS);
    if (word(TWIGMANTLE_SIZE_WORD * TWIGMANTLE_HEAD_BODY) + n > TWIGMANTLE_MOST_BODY) {
        size_t won = compact();
        printf("compacted: %zu bytes less\n", won);
        if (word(TWIGMANTLE_SIZE_WORD * TWIGMANTLE_HEAD_BODY) + n > TWIGMANTLE_MOST_BODY)
            return 0;
    }
    uint32_t body = word(TWIGMANTLE_SIZE_WORD * TWIGMANTLE_HEAD_BODY);
    memcpy(sheets[now] + length, value, n);
    length += n;
    put(TWIGMANTLE_SIZE_WORD * TWIGMANTLE_HEAD_BODY, body + n);
    put(param + TWIGMANTLE_SIZE_WORD * TWIGMANTLE_PARAM_START, body);
    put(param + TWIGMANTLE_SIZE_WORD * TWIGMANTLE_PARAM_LENGTH, n);
    return 1;
}

int main(void)
{
    struct sheet_plan plan = {.options = sheet_default_options(), .mode = TWIGMANTLE_MODE_INDEXED};
    plan.tokens = QUERY;
    plan.token_count = COUNT(QUERY);
    plan.params = PARAMS;
    plan.param_count = COUNT(PARAMS);
    length = sheet_build(&plan, sheets[now], sizeof sheets[now]).length;
    printf("%zu bytes\n", length);
    char value[16];
    for (unsigned call = 48213; call < 48213 + 10000; call++) {
        snprintf(value, sizeof value, "%u", call);
        if (!show(value))
            return 1;
    }
    printf("%zu bytes after 10000 edits\n", length);
    size_t won = compact();
    printf("compacted: %zu bytes less\n%zu bytes\n", won, length);
    struct twigmantle_report r = twigmantle_layout(sheets[now], length, text, sizeof text);
    if (r.refusal != 0)
        return 1;
    printf("%.*s\n", (int)r.length, (const char *)text);
    return 0;
}
