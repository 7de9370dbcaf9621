/* The builder: what it builds is never refused with 1 to 4 and reads back as what was given; what does not fit is answered by its fault, list and number.
 *
 *     builder_test [N [SEED]]        N random plans (5,000) from a seed (1)
 *
 * The buffer ends or starts at a page that may not be touched, or is malloc'ed just as long. */
#define _GNU_SOURCE
#include <inttypes.h>

#include "builder.h"
#include "fence.h"
#include "judge.h"
#include "random_sheet.h"

enum { SOURCE = 4096, MANY = 50 };

static struct pages pages;
static char source[SOURCE], whole[TWIGMANTLE_MOST_BODY + 1];
static struct sheet_token tokens[TWIGMANTLE_MOST_TOKENS + 1];
static struct sheet_param params[TWIGMANTLE_MOST_PARAMS + 1];
static struct sheet_bytes keeps[TWIGMANTLE_MOST_KEEPS + 1];
static struct sheet_plan plan;
static uint8_t sheet[TWIGMANTLE_MOST_SHEET];
static uint64_t turn, texts, faults[SHEET_ROOM + 1];

static void wrong(const char *what)
{
    printf("plan %" PRIu64 " (%zu tokens, %zu parameters, %zu keep words): %s\n", turn, plan.token_count, plan.param_count, plan.keep_count, what);
    exit(1);
}

/* One part of the source in a few, or nothing, with or without a pointer. */
static struct sheet_bytes some(void)
{
    size_t start = 16 * under(one_in(3) ? SOURCE / 16 : 6), n = under(one_in(20) ? 200 : 8);
    return n > SOURCE - start || one_in(10) ? (struct sheet_bytes){one_in(2) ? source : NULL, 0} : (struct sheet_bytes){source + start, n};
}

static void make_token(struct sheet_token *t)
{
    *t = (struct sheet_token){.kind = under(KINDS), .value = some(), .key_class = under(4), .create = one_in(4) ? (int)(1 + under(200)) : 0};
    if (t->key_class == TWIGMANTLE_KEY_NAMED)
        t->name = some();
    else if (t->key_class != TWIGMANTLE_KEY_NONE)
        t->number = one_in(9) ? 0xffffffffu - under(2) : under(9);
}

static void make(void)
{
    int full = one_in(200);
    plan = (struct sheet_plan){.mode = full ? 1 + under(2) : under(3), .tokens = tokens, .params = params, .keeps = keeps};
    plan.options = (struct sheet_options){under(257), under(3), one_in(2) ? TWIGMANTLE_INLINE_OFF : TWIGMANTLE_INLINE_COMMENTS, under(256), under(90), one_in(2) ? TWIGMANTLE_LIMIT_NONE : under(90), under(90)};
    plan.token_count = full ? TWIGMANTLE_MOST_TOKENS : under(30);
    plan.param_count = full ? TWIGMANTLE_MOST_PARAMS : plan.mode ? under(9) : 0;
    plan.keep_count = full ? TWIGMANTLE_MOST_KEEPS : under(5);
    for (size_t i = 0; i < plan.token_count; i++)
        make_token(&tokens[i]);
    for (size_t i = 0; i < plan.param_count; i++)
        params[i] = (struct sheet_param){plan.mode == TWIGMANTLE_MODE_NAMED ? some() : (struct sheet_bytes){NULL, 0}, some()};
    for (size_t i = 0; i < plan.keep_count; i++)
        keeps[i] = some();
}

static int reads_as(const struct parts *s, size_t at, struct sheet_bytes given)
{
    return equal(place_at(s, at), (struct value){given.at, given.n});
}

static int token_reads_back(const struct parts *s, size_t i)
{
    const struct sheet_token *t = &plan.tokens[i];
    size_t at = 48 + 20 * i;
    uint32_t packed = word_at(s->sheet, at), class = packed >> 5 & 3;
    if ((packed & 31) != t->kind || class != t->key_class || packed >> 7 != (t->create != 0) || !reads_as(s, at + 4, t->value))
        return 0;
    return class == TWIGMANTLE_KEY_NAMED ? reads_as(s, at + 12, t->name) : word_at(s->sheet, at + 12) == t->number && word_at(s->sheet, at + 16) == 0;
}

static int reads_back(void)
{
    struct parts s = parts_of(sheet);
    const struct sheet_options *o = &plan.options;
    const uint32_t words[] = {plan.mode, o->indent, o->letter_case, o->one_line, o->lines, o->block, o->arguments, o->top_level};
    int same = s.tokens == plan.token_count && s.params == plan.param_count && s.keeps == plan.keep_count;
    for (size_t i = 0; i < 8; i++)
        same &= word_at(sheet, 16 + 4 * i) == words[i];
    for (size_t i = 0; same && i < s.tokens; i++)
        same &= token_reads_back(&s, i);
    for (size_t i = 0; same && i < s.params; i++)
        same &= reads_as(&s, s.first_param + 16 * i, plan.params[i].name) && reads_as(&s, s.first_param + 16 * i + 8, plan.params[i].value);
    for (size_t i = 0; same && i < s.keeps; i++)
        same &= reads_as(&s, s.first_keep + 8 * i, plan.keeps[i]);
    return same;
}

/* Every value of the plan, in file order. */
static struct sheet_bytes given(size_t number)
{
    size_t of_tokens = 2 * plan.token_count, of_params = of_tokens + 2 * plan.param_count;
    if (number < of_tokens)
        return number % 2 == 0 ? plan.tokens[number / 2].value : plan.tokens[number / 2].name;
    if (number < of_params)
        return number % 2 == 0 ? plan.params[(number - of_tokens) / 2].name : plan.params[(number - of_tokens) / 2].value;
    return plan.keeps[number - of_params];
}

/* How many body bytes there are if each different value is there once. */
static size_t once_each(void)
{
    size_t all = 2 * (plan.token_count + plan.param_count) + plan.keep_count, sum = 0;
    for (size_t i = 0; i < all; i++) {
        struct sheet_bytes v = given(i);
        int first = 1;
        for (size_t j = 0; j < i && first; j++)
            first = !equal((struct value){given(j).at, given(j).n}, (struct value){v.at, v.n});
        sum += first ? v.n : 0;
    }
    return sum;
}

/* Builds into a buffer at a fence that was not zero, and keeps the sheet. */
static struct sheet_built build(size_t room)
{
    enum where where = (enum where)under(WAYS);
    uint8_t *out = lend(&pages, room, where);
    memset(out, 0xa5, room);
    struct sheet_built b = sheet_build(&plan, out, room);
    if (b.length > room || (b.fault == SHEET_BUILT) != (b.length >= 48))
        wrong("a length that the answer cannot have");
    for (size_t i = b.length; i < room; i++)
        if (out[i] != 0)
            wrong("a byte after the sheet that is not zero");
    memcpy(sheet, out, b.length);
    give_back(out, where);
    faults[b.fault]++;
    return b;
}

/* A sound plan, at an ample buffer, the least one, and too short ones. */
static void sound(void)
{
    static uint8_t text[1 << 16];
    size_t n = build(TWIGMANTLE_MOST_SHEET).length;
    if (n == 0)
        wrong("a sound plan was not built");
    if (layout_offence(sheet, n).refusal != 0)
        wrong("what was built would be refused with 1 to 4 or 14");
    struct twigmantle_report r = twigmantle_layout(sheet, n, text, sizeof text);
    if ((r.refusal >= 1 && r.refusal <= 4) || r.refusal == TWIGMANTLE_REFUSAL_WITHDRAWN)
        wrong("the call refuses what was built with 1 to 4 or 14");
    if (r.refusal == 0 && !is_due(sheet, text, (size_t)r.length, NULL))
        wrong("the call lays out what was built as something else");
    texts += r.refusal == 0;
    if (!reads_back())
        wrong("reads back as something else");
    if (n < 4000 && word_at(sheet, 12) != once_each())
        wrong("equal values do not share a place");
    if (build(n).length != n || !reads_back())
        wrong("not built into a buffer that is just long enough");
    size_t room = one_in(2) ? n - 1 : under((uint32_t)n);
    if (build(room).fault != SHEET_ROOM)
        wrong("too short a buffer is not told");
}

static void refuses(enum sheet_fault fault, enum sheet_part part, size_t index)
{
    struct sheet_built b = build(TWIGMANTLE_MOST_SHEET);
    if (b.fault != fault || b.part != part || b.index != index)
        wrong("another fault, list or number than was put in");
}

/* The plan with one thing put in that no sheet can hold. */
static void spoilt_head(void)
{
    struct sheet_options *o = &plan.options, was = *o;
    uint32_t *const words[] = {&o->indent, &o->letter_case, &o->one_line, &o->lines}, over[] = {257, 3, 3, 256}, i = under(4);
    *words[i] = one_in(2) ? over[i] : over[i] + under(0xffffff00u);
    refuses(SHEET_OPTION, SHEET_IN_HEAD, TWIGMANTLE_HEAD_INDENT + i);
    *o = was;
    o->one_line = TWIGMANTLE_INLINE_ON;
    o->lines = one_in(2) ? was.lines : 256;
    refuses(SHEET_OPTION, SHEET_IN_HEAD, TWIGMANTLE_HEAD_INLINE);
    *o = was;
    plan.mode = plan.param_count > 0 && one_in(2) ? 0 : 3 + under(9);
    refuses(SHEET_OPTION, SHEET_IN_HEAD, TWIGMANTLE_HEAD_MODE);
}

static void spoilt_token(void)
{
    static const char accent[] = "Zo\303\253";
    size_t i = under((uint32_t)plan.token_count);
    struct sheet_token *t = &tokens[i], was = *t;
    t->kind = 17 + (one_in(2) ? 0 : under(1000));
    refuses(SHEET_KIND, SHEET_IN_TOKENS, i);
    *t = was;
    t->key_class = one_in(2) ? 4 : 4 + under(1000);
    refuses(SHEET_KEY, SHEET_IN_TOKENS, i);
    *t = was;
    if (t->key_class != TWIGMANTLE_KEY_NAMED)
        t->name = sheet_text("line");
    else
        t->number = 1;
    refuses(SHEET_KEY, SHEET_IN_TOKENS, i);
    *t = was;
    t->value = sheet_text(accent);
    refuses(SHEET_BYTE, SHEET_IN_TOKENS, i);
    t->value = (struct sheet_bytes){NULL, 1};
    refuses(SHEET_NULL, SHEET_IN_TOKENS, i);
    t->value = (struct sheet_bytes){whole, sizeof whole};
    refuses(SHEET_BODY, SHEET_IN_TOKENS, i);
    *t = was;
}

static void spoilt_others(void)
{
    size_t p = under((uint32_t)plan.param_count), k = under((uint32_t)plan.keep_count);
    if (plan.param_count > 0 && plan.mode == TWIGMANTLE_MODE_INDEXED) {
        params[p].name = sheet_text("a");
        refuses(SHEET_NAME, SHEET_IN_PARAMS, p);
        params[p].name = (struct sheet_bytes){NULL, 0};
    }
    if (plan.param_count > 0) {
        struct sheet_bytes was = params[p].value;
        params[p].value = sheet_text("\200");
        refuses(SHEET_BYTE, SHEET_IN_PARAMS, p);
        params[p].value = was;
    }
    if (plan.keep_count > 0) {
        keeps[k] = sheet_text("\377");
        refuses(SHEET_BYTE, SHEET_IN_KEEPS, k);
        keeps[k] = some();
    }
}

/* Every count one over its bound, and a list that is not there. */
static void counts(void)
{
    size_t *const lists[] = {&plan.token_count, &plan.param_count, &plan.keep_count};
    static const size_t most[] = {TWIGMANTLE_MOST_TOKENS, TWIGMANTLE_MOST_PARAMS, TWIGMANTLE_MOST_KEEPS};
    for (size_t i = 0; i < 3; i++) {
        make();
        *lists[i] = one_in(2) ? most[i] + 1 : SIZE_MAX - under(9);
        refuses(SHEET_COUNT, (enum sheet_part)(SHEET_IN_TOKENS + i), most[i]);
    }
    make();
    plan.token_count = 1;
    plan.tokens = NULL;
    refuses(SHEET_NULL, SHEET_IN_TOKENS, 0);
}

/* Bodies that are just full, and one byte more. */
static void bodies(void)
{
    plan = (struct sheet_plan){.options = sheet_default_options(), .tokens = tokens, .token_count = 3};
    for (size_t i = 0; i < 3; i++)
        tokens[i] = (struct sheet_token){.kind = TWIGMANTLE_KIND_WORD, .value = {whole, TWIGMANTLE_MOST_BODY - 7}};
    tokens[2].value = sheet_text("0123456");
    if (build(TWIGMANTLE_MOST_SHEET).length != 48 + 3 * 20 + TWIGMANTLE_MOST_BODY || !reads_back())
        wrong("full bodies are not built");
    tokens[2].value = sheet_text("01234567");
    refuses(SHEET_BODY, SHEET_IN_TOKENS, 2);
}

int main(int argc, char **argv)
{
    uint64_t turns = argc > 1 ? strtoull(argv[1], NULL, 10) : 5000;
    dice = argc > 2 ? strtoull(argv[2], NULL, 10) : 1;
    pages = fenced(TWIGMANTLE_MOST_SHEET, 1);
    for (size_t i = 0; i < SOURCE; i++)
        source[i] = (char)(one_in(3) ? under(128) : 'a' + under(2));
    memset(whole, 'x', sizeof whole);
    bodies();
    for (turn = 0; turn < turns; turn++) {
        make();
        sound();
        if (turn % 16 == 0)
            counts();
        make();
        if (plan.token_count > 0)
            spoilt_token();
        spoilt_others();
        spoilt_head();
    }
    printf("%" PRIu64 " plans, built %" PRIu64 " times, %" PRIu64 " texts; faults told:", turns, faults[0], texts);
    for (int i = 1; i <= SHEET_ROOM; i++)
        printf(" %" PRIu64, faults[i]);
    printf("\n");
    for (int i = 0; i <= SHEET_ROOM; i++)
        if (faults[i] == 0 && turns >= MANY)
            return printf("a fault that no plan met: %d\n", i), 1;
    return texts == 0 && turns >= MANY;
}
