/* The stack that one call needs, measured: each sheet is laid out on a painted stack, and what the call wrote there is read off.
 *
 *     stack [N [SEED]]       the sheets below, then N random ones (2,000) from a seed (1)
 *
 * Built with STACK_OF_ROWS defined it measures the second call, with a list that is never too short; with STACK_OF_ONCE the call that reads ahead once, with such a
 * table; with STACK_OF_COMPACT the one that compacts, with STACK_OF_ROOM the one that says how much to lend, with STACK_OF_MEND the one that mends, with STACK_OF_CONVERT the
 * one that converts, with STACK_OF_JUDGE the one that judges a text: the one that the layout call gives, or none.
 *
 * Counted from the caller's stack pointer at the call down to the lowest byte written: the return address, the library's frames, and those of memcpy and
 * memset. It is exact for the sheets that are run: the stack is painted twice, the second time with each bit turned, so that a written byte shows in one of the
 * two. A byte that no sheet run here makes the call write is not seen. */
#define _DEFAULT_SOURCE
#include <inttypes.h>
#include <stdio.h>
#include <stdlib.h>
#include <ucontext.h>

#include "random_sheet.h"

static const uint64_t PAINT = 0x0123456789abcdef;
enum { STACK = 1 << 14, ROOM = 1 << 16, CREATE = TWIGMANTLE_PACKED_CREATE, FROM_ONE = TWIGMANTLE_KEY_ONE_INDEXED << TWIGMANTLE_PACKED_CLASS_SHIFT };

#if defined STACK_OF_ROWS || defined STACK_OF_ONCE
#define LIST , uint32_t *list, size_t words
#define LENT_LIST , lent, sizeof lent / sizeof lent[0]
static uint32_t lent[TWIGMANTLE_MOST_TABLE];
#else
#define LIST
#define LENT_LIST
#endif

#if defined STACK_OF_ROWS
#define LAYOUT twigmantle_layout_rows
#elif defined STACK_OF_ONCE
#define LAYOUT twigmantle_layout_once
#elif defined STACK_OF_COMPACT
#define LAYOUT twigmantle_compact
#elif defined STACK_OF_ROOM || defined STACK_OF_MEND || defined STACK_OF_CONVERT || defined STACK_OF_JUDGE
#define LAYOUT without_text
#else
#define LAYOUT twigmantle_layout
#endif

#if defined STACK_OF_COMPACT || defined STACK_OF_ROOM || defined STACK_OF_MEND || defined STACK_OF_CONVERT
typedef struct twigmantle_outcome told;
#elif defined STACK_OF_JUDGE
typedef struct twigmantle_judged told;
#else
typedef struct twigmantle_report told;
#endif

typedef told layout_call(const uint8_t *sheet, size_t n, uint8_t *text, size_t room LIST);

/* In the other calls' form; compiled to a jump. */
#if defined STACK_OF_ROOM
static told without_text(const uint8_t *s, size_t n, uint8_t *t, size_t r)
{
    (void)t, (void)r;
    return twigmantle_room(s, n);
}
#elif defined STACK_OF_MEND
static uint32_t changes[TWIGMANTLE_MOST_REPORT];
static told without_text(const uint8_t *s, size_t n, uint8_t *t, size_t r)
{
    (void)t, (void)r;
    return twigmantle_mend((uint8_t *)(uintptr_t)s, n, changes, TWIGMANTLE_MOST_REPORT);
}
#elif defined STACK_OF_CONVERT
static told without_text(const uint8_t *s, size_t n, uint8_t *t, size_t r)
{
    (void)t, (void)r;
    return twigmantle_convert((uint8_t *)(uintptr_t)s, n);
}
#elif defined STACK_OF_JUDGE
static size_t judged;
static told without_text(const uint8_t *s, size_t n, uint8_t *t, size_t r)
{
    (void)r;
    return twigmantle_judge(s, n, t, judged);
}
#endif

struct token {
    uint32_t packed;
    const char *value;
};

static uint64_t stack[STACK];
static uint8_t text[ROOM], sheet[LONGEST];
static size_t length, room = ROOM, largest;
static layout_call *volatile called;
static told report;
static uintptr_t caller; /* the stack pointer at the call */
static ucontext_t home, away;

static void on_stack(void)
{
    report = called(sheet, length, text, room LENT_LIST);
}

/* In the call's place: below the caller's stack pointer lie the return address and the frame pointer that was saved. */
__attribute__((noinline)) static told probe(const uint8_t *s, size_t n, uint8_t *t, size_t r LIST)
{
    (void)s, (void)n, (void)t, (void)r;
#if defined STACK_OF_ROWS || defined STACK_OF_ONCE
    (void)list, (void)words;
#endif
    caller = (uintptr_t)__builtin_frame_address(0) + 16;
    return (told){0};
}

/* Where the lowest byte lies that the call wrote. The paint's bytes differ, or the compiler would paint by memset and so bind it before the first call. */
static uintptr_t lowest(layout_call *call, uint64_t paint)
{
    for (size_t i = 0; i < STACK; i++)
        stack[i] = paint;
    called = call;
    getcontext(&away);
    away.uc_stack.ss_sp = stack;
    away.uc_stack.ss_size = sizeof stack;
    away.uc_link = &home;
    makecontext(&away, on_stack, 0);
    swapcontext(&home, &away);
    size_t at = 0, byte = 0;
    while (stack[at] == paint)
        at++;
    while (((uint8_t *)&stack[at])[byte] == ((uint8_t *)&paint)[byte])
        byte++;
    return (uintptr_t)&stack[at] + byte;
}

static size_t depth(void)
{
#if defined STACK_OF_JUDGE
    judged = (size_t)twigmantle_layout(sheet, length, text, room).length;
#endif
    uintptr_t first = lowest(LAYOUT, PAINT), second = lowest(LAYOUT, ~PAINT);
    return caller - (first < second ? first : second);
}

/* The Rust's head, the tokens, and their values one after another. */
static void build(const struct token *tokens, uint32_t n, uint32_t repeated)
{
    uint32_t body = 0, base = TWIGMANTLE_SIZE_HEAD + 20 * n * repeated;
    memset(sheet, 0, sizeof sheet);
    twigmantle_rust_head(sheet, TWIGMANTLE_SIZE_HEAD);
    for (uint32_t i = 0; i < n * repeated; i++) {
        const struct token *token = &tokens[i % n];
        uint32_t at = TWIGMANTLE_SIZE_HEAD + 20 * i, bytes = (uint32_t)strlen(token->value);
        put(sheet, at, token->packed);
        put(sheet, at + 4, body);
        put(sheet, at + 8, bytes);
        memcpy(sheet + base + body, token->value, bytes);
        body += bytes;
    }
    put(sheet, 4 * TWIGMANTLE_HEAD_TOKENS, n * repeated);
    put(sheet, 4 * TWIGMANTLE_HEAD_BODY, body);
    length = base + body;
    room = ROOM;
}

static void option(uint32_t word, uint32_t value)
{
    put(sheet, 4 * word, value);
}

static void show(const char *what, uint32_t refusal)
{
    size_t bytes = depth();
    largest = bytes > largest ? bytes : largest;
    printf("%8zu  %s\n", bytes, what);
#if defined STACK_OF_COMPACT
    refusal = refusal <= 4 ? refusal : refusal == 9 ? TWIGMANTLE_REFUSAL_SHEET : 0;
#elif defined STACK_OF_ROOM
    refusal = refusal <= 4 || refusal == 14 ? refusal : 0;
#elif defined STACK_OF_MEND
    refusal = refusal == 1 ? refusal : 0;
#elif defined STACK_OF_CONVERT
    refusal = refusal <= 4 ? refusal : 0;
#elif defined STACK_OF_JUDGE
    refusal = refusal <= 5 ? refusal : 0;
#endif
    if (report.refusal != refusal) {
        printf("refused %" PRIu32 " at %" PRIu64 ", wanted %" PRIu32 "\n", report.refusal, report.place, refusal);
        exit(1);
    }
}

static const struct token QUERY[] = {
    {TOP_LEVEL, "SELECT"}, {1, " "}, {WORD, "note"}, {8, ","}, {1, " "}, {WORD, "count"}, {OPEN, "("}, {8, "*"}, {CLOSE, ")"}, {1, " "}, {TOP_LEVEL, "FROM"},
    {1, " "}, {WORD, "notes"}, {1, "\n"}, {6, "LEFT  JOIN"}, {1, " "}, {WORD, "calls"}, {1, " "}, {RESERVED, "ON"}, {1, " "}, {WORD, "id"}, {8, "="},
    {PLACEHOLDER, "?"}, {0, "::int"}, {1, " "}, {12, "/* a\n   b */"}, {1, " "}, {11, "-- note"}, {1, "\n"}, {7, "SET"}, {1, " "}, {8, ";"},
};
enum { LENGTH = sizeof QUERY / sizeof QUERY[0] };

static void texts(void)
{
    static const struct token open = {OPEN, "("}, nested[] = {{OPEN, "("}, {TOP_LEVEL, "SELECT"}};
    /* long enough for every way that lines and width are counted; a tab is far on, many stand close, and a wide line among them */
    static char lines[9001];
    for (size_t i = 0; i < sizeof lines - 1; i++)
        lines[i] = i == 6000 || (i > 7000 && i % 4 == 0) ? '\t' : i % 3 == 2 && (i < 7400 || i > 7700) ? '\n' : 'a';
    const struct token many = {WORD, lines};
    build(QUERY, LENGTH, 0);
    show("the Rust's head alone", 0);
    build(QUERY, LENGTH, 1);
    show("a query", 0);
    build(QUERY, LENGTH, TWIGMANTLE_MOST_TOKENS / LENGTH);
    show("1,024 tokens", 0);
    build(&open, 1, 128);
    option(TWIGMANTLE_HEAD_BLOCK, 0);
    show("128 brackets, each on a line", 0);
    option(TWIGMANTLE_HEAD_BLOCK, 40000);
    show("128 brackets within a line", 0);
    build(nested, 2, 64);
    show("64 brackets and 64 top-level words", 0);
    build(&many, 1, 1);
    show("a value of 3,000 lines", 0);
}

static void refusals(void)
{
    static const struct token open = {OPEN, "("}, nought = {PLACEHOLDER | FROM_ONE, "?"};
    static const struct token folds[] = {{TOP_LEVEL | CREATE, "CREATE"}, {OPEN, "("}, {WORD, "a"}, {CLOSE, ")"}};
    build(QUERY, LENGTH, 1);
    length--;
    show("refusal 1", 1);
    length++;
    option(TWIGMANTLE_HEAD_CASE, 3);
    show("refusal 2", 2);
    option(TWIGMANTLE_HEAD_CASE, 1);
    put(sheet, TWIGMANTLE_SIZE_HEAD + 20 * (LENGTH - 1) + 4, 1000);
    show("refusal 3", 3);
    build(QUERY, LENGTH, 1);
    sheet[length - 1] = 128;
    show("refusal 4", 4);
    build(&nought, 1, 1);
    option(TWIGMANTLE_HEAD_MODE, 1);
    show("refusal 5", 5);
    build(&open, 1, 129);
    option(TWIGMANTLE_HEAD_BLOCK, 0);
    show("refusal 6", 6);
    build(folds, 4, 1);
    option(TWIGMANTLE_HEAD_BLOCK, 0);
    option(TWIGMANTLE_HEAD_TOP_LEVEL, 0);
    show("refusal 8", 8);
    build(QUERY, LENGTH, 1);
    room = 100;
    show("refusal 9", 9);
    build(QUERY, LENGTH, 1);
    option(TWIGMANTLE_HEAD_INLINE, TWIGMANTLE_INLINE_ON);
    show("refusal 14", 14);
}

int main(int argc, char **argv)
{
    uint64_t turns = argc > 1 ? strtoull(argv[1], NULL, 10) : 2000;
    dice = argc > 2 ? strtoull(argv[2], NULL, 10) : 1;
    lowest(probe, PAINT);
    size_t first = depth(), again = depth();
    build(QUERY, LENGTH, 1);
    depth(); /* so that memcpy is bound as well */
    printf("the stack of one call, in bytes:\n");
    texts();
    refusals();
    for (uint64_t turn = 0; turn < turns; turn++) {
        length = random_sheet(sheet);
        room = one_in(4) ? under(300) : ROOM;
        size_t bytes = depth();
        largest = bytes > largest ? bytes : largest;
    }
    printf("%8zu  the most of these and of %" PRIu64 " random sheets\n", largest, turns);
    printf("A first call that has memcpy or memset bound by the dynamic linker needs %zu more.\n", first - again);
    return 0;
}
