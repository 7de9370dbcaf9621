/* What an answer must be, as far as a small program can say: refusals 1 to 4, 10 and 14 exactly; for the others what the token must be; what a text holds without its
 * white bytes; the rows, but for where a value stands that is all white; and a buffer that is long enough. By docs/sheet.md and by no code of the library. */
#ifndef JUDGE_H
#define JUDGE_H

#include <string.h>

#include "twigmantle.h"

struct value {
    const uint8_t *at;
    size_t n;
};

/* Where the parts of a sheet stand. */
struct parts {
    const uint8_t *sheet;
    size_t tokens, params, keeps;       /* counts */
    size_t first_param, first_keep, base; /* offsets */
};

static uint32_t word_at(const uint8_t *sheet, size_t at)
{
    return sheet[at] | (uint32_t)sheet[at + 1] << 8 | (uint32_t)sheet[at + 2] << 16 | (uint32_t)sheet[at + 3] << 24;
}

static struct parts parts_of(const uint8_t *sheet)
{
    struct parts s = {sheet, word_at(sheet, 0), word_at(sheet, 4), word_at(sheet, 8), 0, 0, 0};
    s.first_param = 48 + 20 * s.tokens;
    s.first_keep = s.first_param + 16 * s.params;
    s.base = s.first_keep + 8 * s.keeps;
    return s;
}

static struct value place_at(const struct parts *s, size_t at)
{
    return (struct value){s->sheet + s->base + word_at(s->sheet, at), word_at(s->sheet, at + 4)};
}

static struct value entry_name(const struct parts *s, size_t i)
{
    return place_at(s, s->first_param + 16 * i);
}

static struct value entry_value(const struct parts *s, size_t i)
{
    return place_at(s, s->first_param + 16 * i + 8);
}

/* Refusals 1 to 4. */
struct offence {
    uint32_t refusal;
    uint64_t place;
};

static struct offence offence_at(uint32_t refusal, size_t place)
{
    return (struct offence){refusal, place};
}

/* 2: the options, then each token's words, then the names that the mode forbids. */
static struct offence word_offence(const struct parts *s)
{
    static const uint32_t most[] = {2, 256, 2, 2, 255};
    uint32_t mode = word_at(s->sheet, 16);
    if (mode == 0 && s->params > 0)
        return offence_at(2, 16);
    for (size_t i = 0; i < 5; i++)
        if (word_at(s->sheet, 16 + 4 * i) > most[i])
            return offence_at(2, 16 + 4 * i);
    for (size_t at = 48; at < s->first_param; at += 20) {
        uint32_t packed = word_at(s->sheet, at), class = packed >> 5 & 3;
        if ((packed & 31) > 16 || packed > 255)
            return offence_at(2, at);
        if (class == 0 && word_at(s->sheet, at + 12) != 0)
            return offence_at(2, at + 12);
        if (class != 1 && word_at(s->sheet, at + 16) != 0)
            return offence_at(2, at + 16);
    }
    for (size_t at = s->first_param; at < s->first_keep; at += 4)
        if (mode != 2 && (at - s->first_param) % 16 < 8 && word_at(s->sheet, at) != 0)
            return offence_at(2, at);
    return offence_at(0, 0);
}

static int is_past(const struct parts *s, size_t at)
{
    return (uint64_t)word_at(s->sheet, at) + word_at(s->sheet, at + 4) > word_at(s->sheet, 12);
}

static struct offence first_offence(const uint8_t *sheet, size_t n)
{
    static const uint32_t most[] = {1024, 256, 64, 32768};
    for (size_t i = 0; i < 4; i++)
        if (n < 48 || word_at(sheet, 4 * i) > most[i])
            return offence_at(1, 0);
    struct parts s = parts_of(sheet);
    if (n != s.base + word_at(sheet, 12))
        return offence_at(1, 0);
    struct offence word = word_offence(&s);
    if (word.refusal != 0)
        return word;
    for (size_t at = 48; at < s.first_param; at += 20) {
        if (is_past(&s, at + 4))
            return offence_at(3, at + 4);
        if ((word_at(sheet, at) >> 5 & 3) == 1 && is_past(&s, at + 12))
            return offence_at(3, at + 12);
    }
    for (size_t at = s.first_param; at < s.base; at += 8)
        if (is_past(&s, at))
            return offence_at(3, at);
    for (size_t at = s.base; at < n; at++)
        if (sheet[at] > 127)
            return offence_at(4, at);
    return offence_at(0, 0);
}

/* The same for the layout calls and the room: 14, after 4, if word 7 is the one that is withdrawn. */
static inline struct offence layout_offence(const uint8_t *sheet, size_t n)
{
    struct offence offence = first_offence(sheet, n);
    int withdrawn = offence.refusal == 0 && word_at(sheet, 4 * TWIGMANTLE_HEAD_INLINE) == TWIGMANTLE_INLINE_ON;
    return withdrawn ? offence_at(TWIGMANTLE_REFUSAL_WITHDRAWN, 4 * TWIGMANTLE_HEAD_INLINE) : offence;
}

static int equal(struct value v, struct value w)
{
    return v.n == w.n && (v.n == 0 || memcmp(v.at, w.at, v.n) == 0);
}

static int is_white(uint8_t byte)
{
    return byte == 32 || (byte >= 9 && byte <= 13);
}

static uint8_t cased(uint8_t byte, uint32_t letter_case)
{
    if (letter_case == TWIGMANTLE_CASE_UPPER && byte >= 'a' && byte <= 'z')
        return (uint8_t)(byte - 32);
    if (letter_case == TWIGMANTLE_CASE_LOWER && byte >= 'A' && byte <= 'Z')
        return (uint8_t)(byte + 32);
    return byte;
}

/* 1 switches on, 0 off, -1 is no switch: `--fmt:on` or `--fmt:off` in any case, by prefix, blanks allowed before each of the three words after `--`. */
static int switched(struct value v)
{
    static const char *const parts[] = {"--", "fmt", ":"};
    size_t at = 0;
    for (size_t part = 0; part < 3; part++) {
        for (const char *c = parts[part]; *c != 0; c++, at++)
            if (at >= v.n || cased(v.at[at], TWIGMANTLE_CASE_LOWER) != (uint8_t)*c)
                return -1;
        while (at < v.n && v.at[at] == ' ')
            at++;
    }
    uint8_t end[3] = {0, 0, 0};
    for (size_t i = 0; i < 3 && at + i < v.n; i++)
        end[i] = cased(v.at[at + i], TWIGMANTLE_CASE_LOWER);
    return memcmp(end, "on", 2) == 0 ? 1 : memcmp(end, "off", 3) == 0 ? 0 : -1;
}

/* The entry that a placeholder shows that is laid out, or TWIGMANTLE_ENTRY_OWN. */
static uint32_t entry_of(const struct parts *s, size_t token, size_t *counter)
{
    size_t at = 48 + 20 * token;
    uint32_t mode = word_at(s->sheet, 16), class = word_at(s->sheet, at) >> 5 & 3, number = word_at(s->sheet, at + 12);
    struct value name = class == TWIGMANTLE_KEY_NAMED ? place_at(s, at + 12) : (struct value){NULL, 0};
    if (mode == TWIGMANTLE_MODE_NONE || (mode == TWIGMANTLE_MODE_NAMED && class == TWIGMANTLE_KEY_NONE))
        return TWIGMANTLE_ENTRY_OWN;
    if (mode == TWIGMANTLE_MODE_NAMED) {
        for (size_t i = 0; i < s->params; i++)
            if (equal(entry_name(s, i), name))
                return (uint32_t)i;
        return TWIGMANTLE_ENTRY_OWN;
    }
    if (name.n > 0)
        return TWIGMANTLE_ENTRY_OWN;
    size_t entry = class == TWIGMANTLE_KEY_ZERO_INDEXED ? number : class == TWIGMANTLE_KEY_ONE_INDEXED ? (size_t)number - 1 : (*counter)++;
    return entry < s->params ? (uint32_t)entry : TWIGMANTLE_ENTRY_OWN;
}

static int is_all_white(const uint8_t *at, size_t n)
{
    for (size_t i = 0; i < n; i++)
        if (!is_white(at[i]))
            return 0;
    return 1;
}

/* Whether what stands in the text from start to end is the value but for white at its end, and at its start if the text starts there. */
static int is_left_of(struct value v, const uint8_t *text, size_t start, size_t end)
{
    size_t most = start == 0 ? v.n : 0;
    for (size_t cut = 0; cut <= most && cut + (end - start) <= v.n && is_all_white(v.at, cut); cut++) {
        struct value left = {v.at + cut, end - start}, there = {text + start, end - start};
        if (equal(left, there) && is_all_white(left.at + left.n, v.n - cut - left.n))
            return 1;
    }
    return 0;
}

/* A list that a call gave, and how far it was read. */
struct list {
    const uint32_t *words;
    size_t n, read;
    uint64_t end; /* of the last row's value, in the text */
};

/* Whether the next row is this token's: the text before `from` was put there by the tokens before it, that from `to` on by those after it. */
static int is_next_row(struct list *list, size_t token, uint32_t entry, struct value v, const uint8_t *text, size_t from, size_t to)
{
    const uint32_t *row = list->words + list->read;
    if (list->n - list->read < TWIGMANTLE_ROW_WORDS)
        return 0;
    uint64_t start = row[TWIGMANTLE_ROW_BEFORE_LOW] | (uint64_t)row[TWIGMANTLE_ROW_BEFORE_HIGH] << 32, end = start + row[TWIGMANTLE_ROW_SURVIVED];
    if (row[TWIGMANTLE_ROW_TOKEN] != token || row[TWIGMANTLE_ROW_ENTRY] != entry || start < from || start < list->end || end < start || end > to)
        return 0;
    list->read += TWIGMANTLE_ROW_WORDS;
    list->end = end;
    return is_left_of(v, text, (size_t)start, (size_t)end);
}

/* The rows in a list after a text, counted as twigmantle.h says. */
static inline size_t rows_in(const uint8_t *sheet, const uint32_t *words, size_t n)
{
    size_t count = word_at(sheet, 0) > 0 && (word_at(sheet, 48) & 31) == TWIGMANTLE_KIND_PLACEHOLDER;
    for (size_t i = 0; i + TWIGMANTLE_ROW_WORDS <= n; i += TWIGMANTLE_ROW_WORDS)
        count += words[i + TWIGMANTLE_ROW_TOKEN] != 0;
    return count;
}

static int is_kept_word(const struct parts *s, struct value v)
{
    for (size_t i = 0; i < s->keeps; i++)
        if (equal(place_at(s, s->first_keep + 8 * i), v))
            return 1;
    return 0;
}

static int has_case(uint32_t kind)
{
    return (kind >= TWIGMANTLE_KIND_RESERVED && kind <= TWIGMANTLE_KIND_RESERVED_NEWLINE_AFTER) || kind == TWIGMANTLE_KIND_OPEN_PAREN
           || kind == TWIGMANTLE_KIND_CLOSE_PAREN;
}

/* Whether the next bytes of the text that are not white are those of the value. */
static int follows(struct value v, uint32_t letter_case, const uint8_t *text, size_t n, size_t *at)
{
    for (size_t i = 0; i < v.n; i++) {
        if (is_white(v.at[i]))
            continue;
        while (*at < n && is_white(text[*at]))
            ++*at;
        if (*at == n || text[(*at)++] != cased(v.at[i], letter_case))
            return 0;
    }
    return 1;
}

static int is_nought(const struct parts *s, size_t token)
{
    uint32_t packed = word_at(s->sheet, 48 + 20 * token);
    return word_at(s->sheet, 16) == TWIGMANTLE_MODE_INDEXED && (packed & 31) == TWIGMANTLE_KIND_PLACEHOLDER
           && (packed >> 5 & 3) == TWIGMANTLE_KEY_ONE_INDEXED && word_at(s->sheet, 48 + 20 * token + 12) == 0;
}

/* Whether a line ends before the next byte that is not white. The trim may have taken it from either end of the text. */
static int ends_line(const uint8_t *text, size_t n, size_t at)
{
    int ends = at == 0;
    for (; at < n && is_white(text[at]); at++)
        ends |= text[at] == '\n';
    return ends || at == n;
}

/* What the switch makes of a token: -1 nothing is kept of it, 0 it is copied, 1 it is laid out. */
struct turns {
    int on, drop;
};

static int turn_of(struct turns *turns, uint32_t kind, struct value v)
{
    int comment = kind == TWIGMANTLE_KIND_LINE_COMMENT || kind == TWIGMANTLE_KIND_BLOCK_COMMENT, now = comment && !turns->drop ? switched(v) : -1;
    int kept = !turns->drop && now < 0;
    turns->on = now >= 0 ? now : turns->on;
    turns->drop = now >= 0;
    return kept ? turns->on : -1;
}

/* The words that the rows of a sheet need: five for each placeholder to be laid out. */
static inline size_t words_for(const uint8_t *sheet)
{
    struct parts s = parts_of(sheet);
    struct turns turns = {1, 0};
    size_t count = 0;
    for (size_t i = 0; i < s.tokens; i++) {
        uint32_t kind = word_at(sheet, 48 + 20 * i) & 31;
        count += turn_of(&turns, kind, place_at(&s, 48 + 20 * i + 4)) == 1 && kind == TWIGMANTLE_KIND_PLACEHOLDER;
    }
    return TWIGMANTLE_ROW_WORDS * count;
}

static size_t past_white(const uint8_t *text, size_t n, size_t at)
{
    while (at < n && is_white(text[at]))
        at++;
    return at;
}

/* The text without its white bytes is the kept tokens in order, each as its own value, in the asked case, or as its parameter; with inline 2 each line comment
 * that is laid out ends its line. If there is a list, it has a row for each placeholder that is laid out. */
static int is_due(const uint8_t *sheet, const uint8_t *text, size_t n, struct list *list)
{
    struct parts s = parts_of(sheet);
    struct turns turns = {1, 0};
    size_t at = 0, counter = 0;
    int comments_end_lines = word_at(sheet, 4 * TWIGMANTLE_HEAD_INLINE) == TWIGMANTLE_INLINE_COMMENTS;
    for (size_t i = 0; i < s.tokens; i++) {
        uint32_t kind = word_at(sheet, 48 + 20 * i) & 31, letter_case = TWIGMANTLE_CASE_AS_IS, entry = TWIGMANTLE_ENTRY_OWN;
        struct value v = place_at(&s, 48 + 20 * i + 4);
        int turn = turn_of(&turns, kind, v), on = turn == 1;
        size_t from = at;
        if (turn < 0 || (on && kind == TWIGMANTLE_KIND_WHITESPACE))
            continue;
        if (on && is_nought(&s, i))
            return 0; /* refusal 5 was due */
        if (on && kind == TWIGMANTLE_KIND_PLACEHOLDER && (entry = entry_of(&s, i, &counter)) != TWIGMANTLE_ENTRY_OWN)
            v = entry_value(&s, entry);
        if (on && has_case(kind) && !is_kept_word(&s, v))
            letter_case = word_at(sheet, 4 * TWIGMANTLE_HEAD_CASE);
        if (!follows(v, letter_case, text, n, &at))
            return 0;
        if (on && kind == TWIGMANTLE_KIND_PLACEHOLDER && list != NULL && !is_next_row(list, i, entry, v, text, from, past_white(text, n, at)))
            return 0;
        if (on && kind == TWIGMANTLE_KIND_LINE_COMMENT && comments_end_lines && !ends_line(text, n, at))
            return 0;
    }
    return past_white(text, n, at) == n;
}

/* After a text: a row for each placeholder laid out, in order, zero after them, and as many as twigmantle.h lets a host count. */
static inline int are_due_rows(const uint8_t *sheet, const uint8_t *text, size_t length, const uint32_t *words, size_t n)
{
    struct list list = {words, n, 0, 0};
    if (!is_due(sheet, text, length, &list) || rows_in(sheet, words, n) * TWIGMANTLE_ROW_WORDS != list.read)
        return 0;
    for (size_t i = list.read; i < n; i++)
        if (words[i] != 0)
            return 0;
    return 1;
}

/* The sum of document 02, Wish 9, which no working text passes: for each token laid out the bytes that it shows, 3, two indents at the greatest depth, for each
 * line feed in them one indent and 1, and at a `;` the lines between queries; for a copied one its bytes. A one-based 0 of mode Indexed shows itself here. */
static uint64_t enough(const uint8_t *sheet)
{
    struct parts s = parts_of(sheet);
    struct turns turns = {1, 0};
    size_t counter = 0;
    uint64_t sum = 0, spaces = word_at(sheet, 4 * TWIGMANTLE_HEAD_INDENT);
    uint64_t indent = TWIGMANTLE_MOST_DEPTH * (spaces == TWIGMANTLE_INDENT_TABS ? 1 : spaces);
    for (size_t i = 0; i < s.tokens; i++) {
        uint32_t kind = word_at(sheet, 48 + 20 * i) & 31, entry = TWIGMANTLE_ENTRY_OWN;
        struct value v = place_at(&s, 48 + 20 * i + 4);
        int turn = turn_of(&turns, kind, v);
        if (turn < 0 || (turn == 1 && kind == TWIGMANTLE_KIND_WHITESPACE))
            continue;
        if (turn == 1 && kind == TWIGMANTLE_KIND_PLACEHOLDER && !is_nought(&s, i) && (entry = entry_of(&s, i, &counter)) != TWIGMANTLE_ENTRY_OWN)
            v = entry_value(&s, entry);
        sum += v.n;
        for (size_t j = 0; turn == 1 && j < v.n; j++)
            sum += v.at[j] == '\n' ? indent + 1 : 0;
        if (turn == 1)
            sum += 3 + 2 * indent + (v.n == 1 && v.at[0] == ';' ? word_at(sheet, 4 * TWIGMANTLE_HEAD_LINES) : 0);
    }
    return sum;
}

/* What a refusal from 5 on asks of its token, on a sheet that passes 1 to 4. */
static inline int can_be_refused(const uint8_t *sheet, uint32_t refusal, uint64_t place, size_t room)
{
    struct parts s = parts_of(sheet);
    if (place >= s.tokens)
        return 0;
    uint32_t kind = word_at(sheet, 48 + 20 * (size_t)place) & 31;
    int pushes = kind == TWIGMANTLE_KIND_OPEN_PAREN || kind == TWIGMANTLE_KIND_RESERVED_TOP_LEVEL || kind == TWIGMANTLE_KIND_RESERVED_NEWLINE
                 || kind == TWIGMANTLE_KIND_RESERVED_NEWLINE_AFTER;
    switch (refusal) {
    case TWIGMANTLE_REFUSAL_NOUGHT:
        return is_nought(&s, (size_t)place);
    case TWIGMANTLE_REFUSAL_INDENT:
        return pushes && place >= TWIGMANTLE_MOST_DEPTH;
    case TWIGMANTLE_REFUSAL_FOLDED:
        return kind == TWIGMANTLE_KIND_CLOSE_PAREN && word_at(sheet, 4 * TWIGMANTLE_HEAD_INLINE) == TWIGMANTLE_INLINE_OFF;
    default:
        return refusal == TWIGMANTLE_REFUSAL_ROOM && room < enough(sheet);
    }
}

#endif
