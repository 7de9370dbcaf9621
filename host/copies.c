/* What the library copies for each kind of token, so that a lost inlining shows: the calls of memcpy, memmove and memset and their bytes are counted, since
 * these are the program's own.
 *
 *     copies [MOST]        ends with 1 if a token of some kind has more than MOST bytes copied or filled (6,000) beyond its own
 *
 * For each kind a sheet of many such tokens is laid out, and an empty one with the same buffer; what the first has more is divided by the tokens. Copies
 * that the compiler writes out in line are not seen: they are short. */
#include <inttypes.h>
#include <stdio.h>
#include <stdlib.h>

#include "builder.h"

enum { TOKENS = 1000, ROOM = 1 << 16 };

struct count {
    uint64_t calls, bytes;
};

static struct count copied, filled;

/* By volatile bytes: a compiler may not make these loops into the calls that they stand for. */
static void move(void *to, const void *from, size_t n, int down)
{
    volatile uint8_t *out = to;
    const volatile uint8_t *in = from;
    for (size_t i = 0; i < n; i++)
        out[down ? n - 1 - i : i] = in[down ? n - 1 - i : i];
    copied.calls++;
    copied.bytes += n;
}

void *memcpy(void *restrict to, const void *restrict from, size_t n)
{
    move(to, from, n, 0);
    return to;
}

void *memmove(void *to, const void *from, size_t n)
{
    move(to, from, n, (uintptr_t)to > (uintptr_t)from);
    return to;
}

void *memset(void *to, int byte, size_t n)
{
    volatile uint8_t *out = to;
    for (size_t i = 0; i < n; i++)
        out[i] = (uint8_t)byte;
    filled.calls++;
    filled.bytes += n;
    return to;
}

static const struct {
    const char *name;
    struct sheet_token token;
} KINDS[] = {
#define KIND(k, v) {#k, {.kind = TWIGMANTLE_KIND_##k, .value = {v, sizeof(v) - 1}}}
    KIND(TYPE_SPECIFIER, "::int"), KIND(WHITESPACE, " "), KIND(STRING, "'note'"), KIND(RESERVED, "is"), KIND(RESERVED_TOP_LEVEL, "FROM"),
    KIND(RESERVED_TOP_LEVEL_NO_INDENT, "UNION"), KIND(RESERVED_NEWLINE, "AND"), KIND(RESERVED_NEWLINE_AFTER, "SET"), KIND(OPERATOR, "="),
    KIND(OPEN_PAREN, "("), KIND(CLOSE_PAREN, ")"), KIND(LINE_COMMENT, "-- note"), KIND(BLOCK_COMMENT, "/* note */"), KIND(NUMBER, "48213"),
    KIND(PLACEHOLDER, "?"), KIND(WORD, "calls"), KIND(JOIN, "JOIN"),
};

static uint8_t sheet[TWIGMANTLE_MOST_SHEET], text[ROOM];
static struct sheet_token tokens[TOKENS];

/* Brackets go no deeper than the stack; all else as often as there is room for. */
static size_t tokens_of(uint32_t kind)
{
    return kind == TWIGMANTLE_KIND_OPEN_PAREN ? TWIGMANTLE_MOST_DEPTH : TOKENS;
}

/* What one call copies and fills. */
static uint64_t lay_out(size_t count)
{
    static const struct sheet_param entry = {.value = {"48213", 5}};
    struct sheet_plan plan = {.options = sheet_rust_options(), .mode = TWIGMANTLE_MODE_INDEXED, .params = &entry, .param_count = 1};
    plan.tokens = tokens;
    plan.token_count = count;
    size_t n = sheet_build(&plan, sheet, sizeof sheet).length;
    copied = filled = (struct count){0, 0};
    struct twigmantle_report r = twigmantle_layout(sheet, n, text, ROOM);
    if (n == 0 || r.refusal != 0) {
        printf("refused %" PRIu32 " at %" PRIu64 "\n", r.refusal, r.place);
        exit(1);
    }
    return r.length;
}

static double each(uint64_t with, uint64_t without, size_t n)
{
    return ((double)with - (double)without) / (double)n;
}

int main(int argc, char **argv)
{
    double most = argc > 1 ? strtod(argv[1], NULL) : 6000, worst = 0;
    lay_out(0);
    struct count empty_copied = copied, empty_filled = filled;
    printf("an empty sheet and a buffer of %d: %" PRIu64 " copies of %" PRIu64 " bytes, %" PRIu64 " fills of %" PRIu64 " bytes\n", (int)ROOM, copied.calls,
           copied.bytes, filled.calls, filled.bytes);
    printf("more than that, for each token:   copies     bytes     fills     bytes  of text\n");
    for (size_t k = 0; k < sizeof KINDS / sizeof KINDS[0]; k++) {
        size_t n = tokens_of(KINDS[k].token.kind);
        for (size_t i = 0; i < n; i++)
            tokens[i] = KINDS[k].token;
        uint64_t length = lay_out(n);
        double bytes = each(copied.bytes, empty_copied.bytes, n), fills = each(filled.bytes, empty_filled.bytes, n);
        printf("%-30s %9.2f %9.2f %9.2f %9.2f %8.2f\n", KINDS[k].name, each(copied.calls, empty_copied.calls, n), bytes, each(filled.calls, empty_filled.calls, n),
               fills, each(length, 0, n));
        worst = bytes + fills - each(length, 0, n) > worst ? bytes + fills - each(length, 0, n) : worst;
    }
    printf("at most %.2f bytes beyond a token's own, %s %.0f\n", worst, worst > most ? "more than" : "not more than", most);
    return worst > most;
}
