/* Sheets by chance, for hard.c and stack.c: the same dice give the same sheets. */
#ifndef RANDOM_SHEET_H
#define RANDOM_SHEET_H

#include <string.h>

#include "twigmantle.h"

enum {
    LONGEST = TWIGMANTLE_MOST_SHEET,
    TYPE_SPECIFIER = TWIGMANTLE_KIND_TYPE_SPECIFIER,
    OPERATOR = TWIGMANTLE_KIND_OPERATOR,
    RESERVED = TWIGMANTLE_KIND_RESERVED,
    TOP_LEVEL = TWIGMANTLE_KIND_RESERVED_TOP_LEVEL,
    OPEN = TWIGMANTLE_KIND_OPEN_PAREN,
    CLOSE = TWIGMANTLE_KIND_CLOSE_PAREN,
    LINE_COMMENT = TWIGMANTLE_KIND_LINE_COMMENT,
    PLACEHOLDER = TWIGMANTLE_KIND_PLACEHOLDER,
    WORD = TWIGMANTLE_KIND_WORD,
    KINDS = TWIGMANTLE_KIND_LAST + 1
};

static uint64_t dice;

/* splitmix64; 0 if the bound is 0. */
static uint32_t under(uint32_t bound)
{
    dice += 0x9e3779b97f4a7c15u;
    uint64_t z = dice;
    z = (z ^ (z >> 30)) * 0xbf58476d1ce4e5b9u;
    z = (z ^ (z >> 27)) * 0x94d049bb133111ebu;
    return (uint32_t)((z ^ (z >> 31)) % (bound ? bound : 1));
}

static int one_in(uint32_t n)
{
    return under(n) == 0;
}

static void put(uint8_t *sheet, size_t at, uint32_t word)
{
    for (int i = 0; i < 4; i++)
        sheet[at + (size_t)i] = (uint8_t)(word >> (8 * i));
}

/* What the bodies are made of: whole words, so that a token can have one as its value. */
static const char *const WORDS[] = {
    "SELECT", "from", "is  null", "limit", "case", "END", "calls", "id", "::int", "?", ":line", "$1", "-- fmt: off", "-- fmt: on", "-- note", "-- end\n",
    "/* a\n  b */",
    "(", ")", "[", "]", ",", ";", ".", ":", " ", "\n", "\t ", "\v\f\r", "~\n\n", "\001", "a\tb", "ab cdefg\t\t", "\teight888\n\t9",
};

struct bodies {
    uint32_t bytes, words;
    uint32_t starts[65]; /* where each word starts, and where the last one ends */
};

static struct bodies put_bodies(uint8_t *body, uint32_t bytes)
{
    struct bodies b = {.bytes = bytes};
    uint32_t at = 0;
    while (b.words < 64) {
        const char *word = WORDS[under(sizeof WORDS / sizeof WORDS[0])];
        uint32_t length = (uint32_t)strlen(word);
        if (length > bytes - at)
            break;
        memcpy(body + at, word, length);
        at += length;
        b.starts[++b.words] = at;
    }
    for (; at < bytes; at++)
        body[at] = (uint8_t)under(128);
    return b;
}

/* One of the words, or any part: overlapping, empty, or all the rest. */
static void put_place(uint8_t *sheet, size_t at, const struct bodies *b)
{
    uint32_t i = under(b->words), start = b->starts[i], length = b->starts[i + 1] - start;
    if (b->words == 0 || one_in(6)) {
        uint32_t rest = b->bytes - (start = under(b->bytes + 1));
        length = one_in(9) ? rest : under((rest < 9 ? rest : 9) + 1);
    }
    put(sheet, at, start);
    put(sheet, at + 4, length);
}

/* What a sheet is mostly made of: any kinds, brackets that go deep (refusal 6), top-level words with blocks that fold (refusal 8), line comments with what could cut
 * the end of their line, or placeholders with what could cut the end of their values. */
enum mix { ANY, DEEP, FOLDS, COMMENTS, VALUES };

static void put_token(uint8_t *sheet, size_t at, const struct bodies *b, enum mix mix)
{
    static const uint32_t folds[] = {TOP_LEVEL, OPEN, WORD, CLOSE}, comments[] = {LINE_COMMENT, TYPE_SPECIFIER, WORD, TOP_LEVEL, OPEN};
    static const uint32_t values[] = {PLACEHOLDER, PLACEHOLDER, OPERATOR, TYPE_SPECIFIER, LINE_COMMENT};
    uint32_t kind = mix == DEEP && !one_in(8) ? OPEN : mix == FOLDS ? folds[at / 20 % 4] : under(KINDS);
    if ((mix == COMMENTS || mix == VALUES) && !one_in(6))
        kind = (mix == COMMENTS ? comments : values)[under(5)];
    uint32_t class = under(4), create = one_in(mix == FOLDS ? 2 : 8);
    put(sheet, at, kind | class << 5 | create << 7);
    put_place(sheet, at + 4, b);
    if (class == 1)
        put_place(sheet, at + 12, b);
    else if (class > 1)
        put(sheet, at + 12, under(5));
}

static void put_head(uint8_t *sheet, const uint32_t counts[4], uint32_t mode, enum mix mix)
{
    uint32_t block = mix == ANY ? under(60) : mix == FOLDS || one_in(2) ? 0 : 40000;
    uint32_t indent = one_in(8) ? TWIGMANTLE_INDENT_TABS : one_in(8) ? under(257) : under(9);
    uint32_t options[] = {indent, under(3), one_in(3) ? 0 : under(3), one_in(20) ? under(256) : under(4), block};
    for (size_t i = 0; i < 4; i++)
        put(sheet, 4 * i, counts[i]);
    put(sheet, 4 * TWIGMANTLE_HEAD_MODE, mode);
    for (size_t i = 0; i < 5; i++)
        put(sheet, 4 * (TWIGMANTLE_HEAD_INDENT + i), options[i]);
    put(sheet, 4 * TWIGMANTLE_HEAD_ARGUMENTS, one_in(2) ? under(30) : TWIGMANTLE_LIMIT_NONE);
    put(sheet, 4 * TWIGMANTLE_HEAD_TOP_LEVEL, mix == FOLDS ? 0 : one_in(2) ? under(30) : TWIGMANTLE_LIMIT_NONE);
}

/* A sheet that checks 1 to 4 pass, the counts at their bounds for one in 500; its length. */
static inline size_t random_sheet(uint8_t *sheet)
{
    enum mix mix = one_in(20) ? DEEP : one_in(12) ? FOLDS : one_in(8) ? COMMENTS : one_in(6) ? VALUES : ANY;
    int full = one_in(500);
    uint32_t mode = full ? 1 + under(2) : under(3);
    uint32_t n = full ? (uint32_t)TWIGMANTLE_MOST_TOKENS : mix == DEEP ? 100 + under(200) : under(one_in(20) ? 300 : 24);
    uint32_t p = full ? (uint32_t)TWIGMANTLE_MOST_PARAMS : mode ? under(4) : 0, k = full ? (uint32_t)TWIGMANTLE_MOST_KEEPS : under(3), b = full ? (uint32_t)TWIGMANTLE_MOST_BODY : under(200);
    size_t params = 48 + 20 * (size_t)n, keeps = params + 16 * (size_t)p, base = keeps + 8 * (size_t)k;
    memset(sheet, 0, base);
    put_head(sheet, (const uint32_t[]){n, p, k, b}, mode, mix);
    struct bodies bodies = put_bodies(sheet + base, b);
    for (size_t i = 0; i < n; i++)
        put_token(sheet, 48 + 20 * i, &bodies, mix);
    for (size_t i = 0; i < p; i++) {
        if (mode == 2)
            put_place(sheet, params + 16 * i, &bodies);
        put_place(sheet, params + 16 * i + 8, &bodies);
    }
    for (size_t i = 0; i < k; i++)
        put_place(sheet, keeps + 8 * i, &bodies);
    return base + b;
}

#endif
