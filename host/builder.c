#include "builder.h"

#include <string.h>

enum { VALUE = TWIGMANTLE_SIZE_WORD * TWIGMANTLE_TOKEN_START, KEY = TWIGMANTLE_SIZE_WORD * TWIGMANTLE_TOKEN_KEY_A, PLACE = 2 * TWIGMANTLE_SIZE_WORD };

struct work {
    const struct sheet_plan *plan;
    uint8_t *sheet;
    size_t room, base; /* base: where the bodies start */
    size_t body;       /* bytes of the bodies so far */
    struct sheet_built built;
};

static void put_word(uint8_t *sheet, size_t at, uint32_t word)
{
    for (size_t i = 0; i < TWIGMANTLE_SIZE_WORD; i++)
        sheet[at + i] = (uint8_t)(word >> (8 * i));
}

static uint32_t word_at(const uint8_t *sheet, size_t at)
{
    uint32_t word = 0;
    for (size_t i = 0; i < TWIGMANTLE_SIZE_WORD; i++)
        word |= (uint32_t)sheet[at + i] << (8 * i);
    return word;
}

/* Notes the first fault; later ones are not looked for. */
static int fails(struct work *w, enum sheet_fault fault, enum sheet_part part, size_t index)
{
    w->built.fault = fault;
    w->built.part = part;
    w->built.index = index;
    return 0;
}

static size_t tokens_end(const struct sheet_plan *plan)
{
    return TWIGMANTLE_SIZE_HEAD + TWIGMANTLE_SIZE_TOKEN * plan->token_count;
}

/* Places by number, in file order: two for each token, two for each parameter, one for each keep word. */
static size_t place_offset(const struct sheet_plan *plan, size_t number)
{
    size_t in_tokens = 2 * plan->token_count;
    if (number < in_tokens)
        return TWIGMANTLE_SIZE_HEAD + TWIGMANTLE_SIZE_TOKEN * (number / 2) + (number % 2 == 0 ? VALUE : KEY);
    return tokens_end(plan) + PLACE * (number - in_tokens);
}

/* Where an equal value stands already, among the places before this one; the latest first, so that a value that comes often is found soon. */
static int is_shared(const struct work *w, size_t number, struct sheet_bytes value, uint32_t *start)
{
    while (number-- > 0) {
        size_t at = place_offset(w->plan, number);
        *start = word_at(w->sheet, at);
        if (word_at(w->sheet, at + TWIGMANTLE_SIZE_WORD) == value.n && memcmp(w->sheet + w->base + *start, value.at, value.n) == 0)
            return 1;
    }
    return 0;
}

static enum sheet_fault append(struct work *w, struct sheet_bytes value)
{
    const uint8_t *bytes = value.at;
    for (size_t i = 0; i < value.n; i++)
        if (bytes[i] > TWIGMANTLE_MOST_BYTE)
            return SHEET_BYTE;
    if (value.n > TWIGMANTLE_MOST_BODY - w->body)
        return SHEET_BODY;
    if (value.n > w->room - w->base - w->body)
        return SHEET_ROOM;
    memcpy(w->sheet + w->base + w->body, bytes, value.n);
    w->body += value.n;
    return SHEET_BUILT;
}

static enum sheet_fault put_place(struct work *w, size_t number, struct sheet_bytes value)
{
    uint32_t start = (uint32_t)w->body;
    if (value.n == 0)
        return SHEET_BUILT; /* start 0, length 0: the records are zero already */
    if (value.at == NULL)
        return SHEET_NULL;
    if (value.n > TWIGMANTLE_MOST_BODY)
        return SHEET_BODY;
    if (!is_shared(w, number, value, &start)) {
        start = (uint32_t)w->body;
        enum sheet_fault fault = append(w, value);
        if (fault != SHEET_BUILT)
            return fault;
    }
    put_word(w->sheet, place_offset(w->plan, number), start);
    put_word(w->sheet, place_offset(w->plan, number) + TWIGMANTLE_SIZE_WORD, (uint32_t)value.n);
    return SHEET_BUILT;
}

static enum sheet_fault put_token(struct work *w, size_t i)
{
    const struct sheet_token *t = &w->plan->tokens[i];
    size_t at = TWIGMANTLE_SIZE_HEAD + TWIGMANTLE_SIZE_TOKEN * i;
    int numbered = t->key_class == TWIGMANTLE_KEY_ZERO_INDEXED || t->key_class == TWIGMANTLE_KEY_ONE_INDEXED;
    if (t->kind > TWIGMANTLE_KIND_LAST)
        return SHEET_KIND;
    if (t->key_class > TWIGMANTLE_KEY_ONE_INDEXED || (t->name.n > 0 && t->key_class != TWIGMANTLE_KEY_NAMED) || (t->number > 0 && !numbered))
        return SHEET_KEY;
    put_word(w->sheet, at, t->kind | t->key_class << TWIGMANTLE_PACKED_CLASS_SHIFT | (t->create ? TWIGMANTLE_PACKED_CREATE : 0u));
    enum sheet_fault fault = put_place(w, 2 * i, t->value);
    if (fault == SHEET_BUILT && !numbered)
        fault = put_place(w, 2 * i + 1, t->name);
    if (numbered)
        put_word(w->sheet, at + KEY, t->number);
    return fault;
}

static enum sheet_fault put_param(struct work *w, size_t i)
{
    const struct sheet_param *p = &w->plan->params[i];
    size_t number = 2 * (w->plan->token_count + i);
    if (p->name.n > 0 && w->plan->mode != TWIGMANTLE_MODE_NAMED)
        return SHEET_NAME;
    enum sheet_fault fault = put_place(w, number, p->name);
    return fault != SHEET_BUILT ? fault : put_place(w, number + 1, p->value);
}

static enum sheet_fault put_keep(struct work *w, size_t i)
{
    return put_place(w, 2 * (w->plan->token_count + w->plan->param_count) + i, w->plan->keeps[i]);
}

static int has_sound_list(struct work *w, enum sheet_part part, const void *list, size_t count, size_t most)
{
    if (count > most)
        return fails(w, SHEET_COUNT, part, most);
    return list != NULL || count == 0 || fails(w, SHEET_NULL, part, 0);
}

static int has_sound_head(struct work *w)
{
    const struct sheet_plan *p = w->plan;
    const struct sheet_options *o = &p->options;
    const uint32_t words[][2] = {{p->mode, TWIGMANTLE_MODE_NAMED}, {o->indent, TWIGMANTLE_INDENT_TABS}, {o->letter_case, TWIGMANTLE_CASE_LOWER},
                                 {o->one_line, TWIGMANTLE_INLINE_COMMENTS}, {o->lines, TWIGMANTLE_MOST_LINES}};
    if (!has_sound_list(w, SHEET_IN_TOKENS, p->tokens, p->token_count, TWIGMANTLE_MOST_TOKENS)
        || !has_sound_list(w, SHEET_IN_PARAMS, p->params, p->param_count, TWIGMANTLE_MOST_PARAMS)
        || !has_sound_list(w, SHEET_IN_KEEPS, p->keeps, p->keep_count, TWIGMANTLE_MOST_KEEPS))
        return 0;
    for (size_t i = 0; i < sizeof words / sizeof words[0]; i++) {
        int withdrawn = TWIGMANTLE_HEAD_MODE + i == TWIGMANTLE_HEAD_INLINE && words[i][0] == TWIGMANTLE_INLINE_ON;
        if (words[i][0] > words[i][1] || withdrawn)
            return fails(w, SHEET_OPTION, SHEET_IN_HEAD, TWIGMANTLE_HEAD_MODE + i);
    }
    if (p->mode == TWIGMANTLE_MODE_NONE && p->param_count > 0)
        return fails(w, SHEET_OPTION, SHEET_IN_HEAD, TWIGMANTLE_HEAD_MODE);
    w->base = tokens_end(p) + TWIGMANTLE_SIZE_PARAM * p->param_count + TWIGMANTLE_SIZE_KEEP * p->keep_count;
    return w->base <= w->room || fails(w, SHEET_ROOM, SHEET_IN_HEAD, 0);
}

static void put_head(const struct work *w)
{
    const struct sheet_plan *p = w->plan;
    const struct sheet_options *o = &p->options;
    const uint32_t words[] = {(uint32_t)p->token_count, (uint32_t)p->param_count, (uint32_t)p->keep_count, (uint32_t)w->body, p->mode,     o->indent,
                              o->letter_case,           o->one_line,              o->lines,                o->block,          o->arguments, o->top_level};
    for (size_t i = 0; i < sizeof words / sizeof words[0]; i++)
        put_word(w->sheet, TWIGMANTLE_SIZE_WORD * i, words[i]);
}

typedef enum sheet_fault put_record(struct work *w, size_t i);

static int put_list(struct work *w, enum sheet_part part, put_record *put, size_t count)
{
    for (size_t i = 0; i < count; i++) {
        enum sheet_fault fault = put(w, i);
        if (fault != SHEET_BUILT)
            return fails(w, fault, part, i);
    }
    return 1;
}

struct sheet_built sheet_build(const struct sheet_plan *plan, uint8_t *sheet, size_t room)
{
    struct work w = {plan, sheet, room, 0, 0, {SHEET_BUILT, SHEET_IN_HEAD, 0, 0}};
    if (room > 0)
        memset(sheet, 0, room);
    if (has_sound_head(&w) && put_list(&w, SHEET_IN_TOKENS, put_token, plan->token_count) && put_list(&w, SHEET_IN_PARAMS, put_param, plan->param_count)
        && put_list(&w, SHEET_IN_KEEPS, put_keep, plan->keep_count)) {
        put_head(&w);
        w.built.length = w.base + w.body;
    } else if (room > 0)
        memset(sheet, 0, room);
    return w.built;
}

/* The options that a head carries. */
static struct sheet_options options_by(size_t (*write_head)(uint8_t *, size_t))
{
    uint8_t head[TWIGMANTLE_SIZE_HEAD];
    write_head(head, sizeof head);
    uint32_t words[7];
    for (size_t i = 0; i < 7; i++)
        words[i] = word_at(head, TWIGMANTLE_SIZE_WORD * (TWIGMANTLE_HEAD_INDENT + i));
    return (struct sheet_options){words[0], words[1], words[2], words[3], words[4], words[5], words[6]};
}

struct sheet_options sheet_default_options(void)
{
    return options_by(twigmantle_default_head);
}

struct sheet_options sheet_rust_options(void)
{
    return options_by(twigmantle_rust_head);
}

struct sheet_bytes sheet_text(const char *text)
{
    return (struct sheet_bytes){text, strlen(text)};
}
