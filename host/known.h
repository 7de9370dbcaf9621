/* Sheets whose answer is known, each with a buffer: texts, and every refusal from 5 on that a sheet can reach. For hard.c, which stores a plan with
 * TWIGMANTLE_INLINE_ON though the builder does not build it. */
#ifndef KNOWN_H
#define KNOWN_H

#include "builder.h"

/* The text, or a refusal; the rows of the text and its width, where they are given. */
struct wanted {
    const char *text;
    uint32_t refusal;
    uint64_t place;
    const uint32_t *rows;
    size_t row_count;
    uint64_t width;
};

typedef void expect(const char *name, const struct sheet_plan *plan, size_t room, struct wanted wanted);

enum { PLENTY = 65536 };

#define TEXT(t) ((struct wanted){t, 0, 0, NULL, 0, 0})
#define WIDE(t, width) ((struct wanted){t, 0, 0, NULL, 0, width})
#define REFUSAL(number, place) ((struct wanted){NULL, number, place, NULL, 0, 0})
#define ROWS(t, ...) \
    ((struct wanted){t, 0, 0, (const uint32_t[]){__VA_ARGS__}, sizeof((const uint32_t[]){__VA_ARGS__}) / sizeof(uint32_t) / TWIGMANTLE_ROW_WORDS, 0})
#define OWN TWIGMANTLE_ENTRY_OWN
#define LIST(a) (a), sizeof(a) / sizeof((a)[0])
#define VALUE(s) {s, sizeof(s) - 1}
#define TOKEN(k, s) {.kind = TWIGMANTLE_KIND_##k, .value = VALUE(s)}
#define BLANK TOKEN(WHITESPACE, " ")
#define FEED TOKEN(WHITESPACE, "\n")

/* Document 01's sheets take the Rust's head. */
static struct sheet_plan of(const struct sheet_token *tokens, size_t n)
{
    return (struct sheet_plan){.options = sheet_rust_options(), .tokens = tokens, .token_count = n};
}

static struct sheet_plan filled(const struct sheet_token *tokens, size_t n, uint32_t mode, const struct sheet_param *params, size_t p)
{
    struct sheet_plan plan = of(tokens, n);
    plan.mode = mode;
    plan.params = params;
    plan.param_count = p;
    return plan;
}

static void known_queries(expect *expect)
{
    static const struct sheet_token word[] = {TOKEN(WORD, "a")};
    static const struct sheet_token notes[] = {TOKEN(RESERVED_TOP_LEVEL, "SELECT"), BLANK, TOKEN(WORD, "id"),   BLANK,
                                               TOKEN(RESERVED_TOP_LEVEL, "FROM"),   BLANK, TOKEN(WORD, "calls")};
    static const struct sheet_token two[] = {TOKEN(WORD, "a"), TOKEN(OPERATOR, ";"), TOKEN(WORD, "b")};
    struct sheet_plan plan = of(NULL, 0);
    expect("no tokens", &plan, PLENTY, TEXT(""));
    expect("no tokens, no room", &plan, 0, TEXT(""));
    plan = of(LIST(word));
    expect("a word", &plan, 2, TEXT("a"));
    expect("a word, too little room", &plan, 1, REFUSAL(9, 0));
    plan = of(LIST(notes));
    expect("a query", &plan, 26, TEXT("SELECT\n  id\nFROM\n  calls"));
    expect("a query, too little room", &plan, 25, REFUSAL(9, 6));
    plan.options.indent = TWIGMANTLE_INDENT_TABS;
    expect("a query with tabs", &plan, PLENTY, WIDE("SELECT\n\tid\nFROM\n\tcalls", 13));
    plan.options.one_line = TWIGMANTLE_INLINE_COMMENTS;
    expect("a query on one line", &plan, PLENTY, TEXT("SELECT id FROM calls"));
    plan.options.one_line = TWIGMANTLE_INLINE_ON;
    expect("the same as it was stored once", &plan, PLENTY, REFUSAL(14, 28));
    expect("the same, no room", &plan, 0, REFUSAL(14, 28));
    plan = of(LIST(notes));
    plan.options.top_level = 5;
    expect("a query, 5 at the top level", &plan, PLENTY, TEXT("SELECT id\nFROM\n  calls"));
    plan = of(LIST(two));
    expect("two queries", &plan, PLENTY, TEXT("a;\nb"));
    plan.options.lines = 0;
    expect("two queries, no line between", &plan, PLENTY, TEXT("a;b"));
}

/* Width by columns. */
static void known_tabs(expect *expect)
{
    static const struct sheet_token one[] = {TOKEN(WORD, "a\tb")}, seven[] = {TOKEN(WORD, "abcdefg\tb")}, eight[] = {TOKEN(WORD, "abcdefgh\tb")};
    static const struct sheet_token several[] = {TOKEN(WORD, "a\tb\t\tc")}, end[] = {TOKEN(WORD, "abcdefgh\t\nb")}, anew[] = {TOKEN(WORD, "abcdef\na\tb")};
    static const struct sheet_token back[] = {TOKEN(WORD, "ab\r\tc\rd")}, cut[] = {TOKEN(WORD, "a\t")};
    static const struct sheet_token entry[] = {TOKEN(WORD, "abcdefg"), TOKEN(PLACEHOLDER, "?")};
    static const struct sheet_param params[] = {{.value = VALUE("7\t8")}};
    static const struct sheet_token notes[] = {TOKEN(LINE_COMMENT, "--\tc"), TOKEN(BLOCK_COMMENT, "/*\n\ta\tb */")};
    struct sheet_plan plan = of(LIST(one));
    expect("a tab", &plan, PLENTY, WIDE("a\tb", 9));
    plan = of(LIST(seven));
    expect("seven letters and a tab", &plan, PLENTY, WIDE("abcdefg\tb", 9));
    plan = of(LIST(eight));
    expect("eight letters and a tab", &plan, PLENTY, WIDE("abcdefgh\tb", 17));
    plan = of(LIST(several));
    expect("several tabs", &plan, PLENTY, WIDE("a\tb\t\tc", 25));
    plan = of(LIST(end));
    expect("a tab at a line's end", &plan, PLENTY, WIDE("abcdefgh\t\nb", 16));
    plan = of(LIST(anew));
    expect("a tab on the second line", &plan, PLENTY, WIDE("abcdef\na\tb", 9));
    plan = of(LIST(back));
    expect("a carriage return and a tab", &plan, PLENTY, WIDE("ab\r\tc\rd", 11));
    plan = of(LIST(cut));
    expect("a tab that is cut", &plan, PLENTY, WIDE("a", 1));
    plan = filled(LIST(entry), TWIGMANTLE_MODE_INDEXED, LIST(params));
    expect("a tab of an entry", &plan, PLENTY, WIDE("abcdefg 7\t8", 17));
    plan = of(LIST(notes));
    expect("tabs of comments", &plan, PLENTY, WIDE("--\tc\n/*\n a\tb */", 12));
}

static void known_words(expect *expect)
{
    static const struct sheet_token null[] = {TOKEN(RESERVED, "is  null")};
    static const struct sheet_bytes keep[] = {VALUE("is  null")};
    static const struct sheet_token comments[] = {TOKEN(WORD, "a"), BLANK, TOKEN(LINE_COMMENT, "-- note"), FEED, TOKEN(WORD, "b"),
                                                  TOKEN(BLOCK_COMMENT, "/* x\n  y */"), TOKEN(WORD, "c")};
    struct sheet_plan plan = of(LIST(null));
    plan.options.letter_case = TWIGMANTLE_CASE_UPPER;
    expect("upper case", &plan, PLENTY, TEXT("IS NULL"));
    plan.keeps = keep;
    plan.keep_count = 1;
    expect("a keep word", &plan, PLENTY, TEXT("is null"));
    plan = of(LIST(comments));
    expect("comments", &plan, PLENTY, TEXT("a -- note\nb\n/* x\n y */\nc"));
}

/* The values of inline around a line comment; 1 is withdrawn. */
static void known_comments(expect *expect)
{
    static const struct sheet_token typed[] = {TOKEN(WORD, "a"), TOKEN(LINE_COMMENT, "-- c"), TOKEN(TYPE_SPECIFIER, "::t")};
    static const struct sheet_token from[] = {TOKEN(WORD, "a"), TOKEN(LINE_COMMENT, "-- c"), TOKEN(RESERVED_TOP_LEVEL, "FROM"), TOKEN(WORD, "x")};
    static const struct sheet_token fed[] = {TOKEN(LINE_COMMENT, "-- c\n")};
    static const struct sheet_token ended[] = {TOKEN(WORD, "a"), TOKEN(OPERATOR, ";"), TOKEN(LINE_COMMENT, ""), TOKEN(TYPE_SPECIFIER, "::t")};
    static const struct sheet_token two[] = {TOKEN(WORD, "a"), TOKEN(OPERATOR, ","), TOKEN(LINE_COMMENT, "-- c"), TOKEN(LINE_COMMENT, "-- d")};
    static const struct sheet_token folded[] = {TOKEN(LINE_COMMENT, "-- c"), TOKEN(RESERVED_TOP_LEVEL, ""), TOKEN(OPEN_PAREN, "("), TOKEN(WORD, "a"),
                                                TOKEN(CLOSE_PAREN, ")")};
    static const char *const texts[][2] = {{"a -- c::t", "a -- c\n::t"}, {"a -- c\nFROM\n  x", "a -- c\n FROM x"},   {"-- c", "-- c"},
                                           {"a;::t", "a;\n::t"},         {"a,\n-- c  -- d", "a, -- c\n  -- d"}, {"-- c (\n  a\n)", "-- c\n ( a )"}};
    struct sheet_plan plans[] = {of(LIST(typed)), of(LIST(from)), of(LIST(fed)), of(LIST(ended)), of(LIST(two)), of(LIST(folded))};
    plans[5].options.block = plans[5].options.top_level = 0;
    for (uint32_t i = 0; i < 18; i++) {
        plans[i % 6].options.one_line = i / 6;
        expect("a line comment with inline 0, 1, 2", &plans[i % 6], PLENTY, i / 6 == TWIGMANTLE_INLINE_ON ? REFUSAL(14, 28) : TEXT(texts[i % 6][i / 12]));
    }
    expect("a line feed in the comment, inline 2", &plans[2], 5, TEXT("-- c"));
    expect("a line feed in the comment, inline 2, a byte less", &plans[2], 4, REFUSAL(9, 0));
}

static void known_placeholders(expect *expect)
{
    static const struct sheet_token three[] = {TOKEN(PLACEHOLDER, "?"), TOKEN(PLACEHOLDER, "?"), TOKEN(PLACEHOLDER, "?")};
    static const struct sheet_token off[] = {TOKEN(LINE_COMMENT, "-- fmt: off"), FEED, TOKEN(PLACEHOLDER, "?"), TOKEN(WORD, "x"),
                                             TOKEN(LINE_COMMENT, "-- fmt: on"),  FEED, TOKEN(PLACEHOLDER, "?")};
    static const struct sheet_token named[] = {
        {.kind = TWIGMANTLE_KIND_PLACEHOLDER, .value = VALUE(":line"), .key_class = TWIGMANTLE_KEY_NAMED, .name = VALUE("line")}};
    static const struct sheet_token from_one[] = {
        {.kind = TWIGMANTLE_KIND_PLACEHOLDER, .value = VALUE("$2"), .key_class = TWIGMANTLE_KEY_ONE_INDEXED, .number = 2},
        {.kind = TWIGMANTLE_KIND_PLACEHOLDER, .value = VALUE("?0"), .key_class = TWIGMANTLE_KEY_ZERO_INDEXED, .number = 0},
        {.kind = TWIGMANTLE_KIND_PLACEHOLDER, .value = VALUE("$0"), .key_class = TWIGMANTLE_KEY_ONE_INDEXED, .number = 0}};
    static const struct sheet_param list[] = {{.value = VALUE("7")}, {.value = VALUE("12")}};
    static const struct sheet_param names[] = {{VALUE("line"), VALUE("3")}, {VALUE("line"), VALUE("4")}};
    struct sheet_plan plan = filled(LIST(three), TWIGMANTLE_MODE_INDEXED, LIST(list));
    expect("placeholders in turn", &plan, PLENTY, ROWS("7 12 ?", 0, 0, 0, 0, 1, 1, 1, 2, 0, 2, 2, OWN, 5, 0, 1));
    plan = filled(LIST(off), TWIGMANTLE_MODE_INDEXED, LIST(list));
    expect("a placeholder switched off", &plan, PLENTY, ROWS("?x7", 6, 0, 2, 0, 1));
    plan = filled(LIST(named), TWIGMANTLE_MODE_NAMED, LIST(names));
    expect("the first of two names", &plan, PLENTY, ROWS("3", 0, 0, 0, 0, 1));
    plan = filled(from_one, 2, TWIGMANTLE_MODE_INDEXED, LIST(list));
    expect("numbers", &plan, PLENTY, ROWS("12 7", 0, 1, 0, 0, 2, 1, 0, 3, 0, 1));
    plan.token_count = 3;
    expect("a number from one that is 0", &plan, PLENTY, REFUSAL(5, 2));
    plan.options.one_line = TWIGMANTLE_INLINE_ON;
    expect("the same, and inline is withdrawn", &plan, PLENTY, REFUSAL(14, 28));
    plan.options.one_line = TWIGMANTLE_INLINE_OFF;
    plan.mode = TWIGMANTLE_MODE_NONE;
    plan.param_count = 0;
    expect("the same with no parameters", &plan, PLENTY, TEXT("$2 ?0 $0"));
}

static const struct sheet_token MARKS[] = {TOKEN(PLACEHOLDER, "?"), TOKEN(PLACEHOLDER, "?"), TOKEN(PLACEHOLDER, "?")};

/* What is left of values with white ends, and where. */
static void known_cuts(expect *expect)
{
    static const struct sheet_param white[] = {{.value = VALUE(" \n")}, {.value = VALUE("x")}}, ends[] = {{.value = VALUE("ab\n ")}};
    static const struct sheet_param blank[] = {{.value = VALUE(" ")}}, empty[] = {{.value = VALUE("")}}, feed[] = {{.value = VALUE("\n")}};
    static const struct sheet_token comma[] = {TOKEN(PLACEHOLDER, "?"), TOKEN(OPERATOR, ","), TOKEN(WORD, "c")};
    static const struct sheet_token dot[] = {TOKEN(WORD, "a"), TOKEN(PLACEHOLDER, "?"), TOKEN(OPERATOR, ".")};
    static const struct sheet_token typed[] = {TOKEN(WORD, "a"), TOKEN(PLACEHOLDER, "?"), TOKEN(PLACEHOLDER, " "), TOKEN(TYPE_SPECIFIER, "::t")};
    static const struct sheet_token noted[] = {TOKEN(WORD, "a"), TOKEN(OPERATOR, ","), TOKEN(PLACEHOLDER, "?"), TOKEN(LINE_COMMENT, "-- c")};
    static const struct sheet_token closed[] = {TOKEN(LINE_COMMENT, "-- c"), TOKEN(PLACEHOLDER, "?"), TOKEN(TYPE_SPECIFIER, "::t")};
    struct sheet_plan plan = filled(MARKS, 2, TWIGMANTLE_MODE_INDEXED, LIST(white));
    expect("white, then x", &plan, PLENTY, ROWS("x", 0, 0, 0, 0, 0, 1, 1, 0, 0, 1));
    plan = filled(LIST(comma), TWIGMANTLE_MODE_INDEXED, LIST(ends));
    expect("white before a comma", &plan, PLENTY, ROWS("ab\n,\nc", 0, 0, 0, 0, 3));
    plan = filled(LIST(dot), TWIGMANTLE_MODE_INDEXED, LIST(blank));
    expect("nothing left before a dot", &plan, PLENTY, ROWS("a.", 1, 0, 1, 0, 0));
    plan = filled(LIST(typed), TWIGMANTLE_MODE_INDEXED, LIST(feed));
    expect("two cut by a type specifier", &plan, PLENTY, ROWS("a::t", 1, 0, 1, 0, 0, 2, OWN, 1, 0, 0));
    plan = filled(LIST(noted), TWIGMANTLE_MODE_INDEXED, LIST(feed));
    expect("cut by a comment after a comma", &plan, PLENTY, ROWS("a,  -- c", 2, 0, 2, 0, 0));
    plan = filled(MARKS, 1, TWIGMANTLE_MODE_INDEXED, LIST(empty));
    expect("five zero words", &plan, PLENTY, ROWS("", 0, 0, 0, 0, 0));
    plan = filled(LIST(closed), TWIGMANTLE_MODE_INDEXED, LIST(feed));
    expect("after a comment", &plan, PLENTY, ROWS("-- c::t", 1, 0, 4, 0, 0));
    plan.options.one_line = TWIGMANTLE_INLINE_COMMENTS;
    expect("after a held line feed", &plan, PLENTY, ROWS("-- c\n::t", 1, 0, 5, 0, 0));
}

static void known_brackets(expect *expect)
{
    static const struct sheet_token block[] = {TOKEN(OPEN_PAREN, "("), TOKEN(WORD, "a"), TOKEN(CLOSE_PAREN, ")")};
    static const struct sheet_token folded[] = {{.kind = TWIGMANTLE_KIND_RESERVED_TOP_LEVEL, .value = VALUE("CREATE"), .create = 1},
                                                TOKEN(OPEN_PAREN, "("), TOKEN(WORD, "a"), TOKEN(CLOSE_PAREN, ")")};
    static struct sheet_token open[TWIGMANTLE_MOST_DEPTH + 1];
    static char opened[2 * TWIGMANTLE_MOST_DEPTH];
    struct sheet_plan plan = of(LIST(block));
    plan.options.block = 3;
    expect("a block of 3", &plan, PLENTY, TEXT("(a)"));
    plan.options.block = 2;
    expect("a block over 2", &plan, PLENTY, TEXT("(\n  a\n)"));
    plan = of(LIST(folded));
    plan.options.block = plan.options.top_level = 0;
    expect("a folded block with no entry left", &plan, PLENTY, REFUSAL(8, 3));
    plan.options.one_line = TWIGMANTLE_INLINE_COMMENTS;
    expect("the same with inline 2", &plan, PLENTY, TEXT("CREATE ( a )"));
    for (size_t i = 0; i <= TWIGMANTLE_MOST_DEPTH; i++)
        open[i] = block[0];
    for (size_t i = 0; i + 1 < sizeof opened; i++)
        opened[i] = i % 2 == 0 ? '(' : '\n';
    plan = of(open, TWIGMANTLE_MOST_DEPTH);
    plan.options.block = plan.options.indent = 0;
    expect("128 brackets", &plan, PLENTY, TEXT(opened));
    plan.token_count++;
    expect("129 brackets", &plan, PLENTY, REFUSAL(6, 128));
}

static void known_sheets(expect *expect)
{
    known_queries(expect);
    known_tabs(expect);
    known_words(expect);
    known_comments(expect);
    known_placeholders(expect);
    known_cuts(expect);
    known_brackets(expect);
}

#endif
