/* Hard use of the calls: sheets whose answer is known; random and damaged sheets, sheets of every length, buffers and lists of every length around the need; and what is
 * refused with 14, again once it is converted.
 *
 *     hard [N [SEED]]        N random sheets (20,000) from a seed (1)
 *
 * The sheet, the buffer and the list of a call lie at the fences of fence.h, in turn in each way that it has; a sheet there may only be read. Every answer is held
 * to judge.h, and the second call's report and text to the first's. The first wrong thing is said, its sheet is saved as hard.sheet (compare show reads it), and
 * the program ends with 1. With HARD_WITHOUT_ROWS defined it makes the first call alone; else each pair of calls is made again by the engine that reads ahead once,
 * with a table at the same fences, which must give the same and leave the table zero. */
#define _GNU_SOURCE
#include <fcntl.h>
#include <inttypes.h>
#include <signal.h>

#include "fence.h"
#include "judge.h"
#include "known.h"
#include "random_sheet.h"

enum { AMPLE = 1 << 16, MOST_ROOM = 1 << 22, MOST_WORDS = TWIGMANTLE_MOST_LIST + 64, LONGER = 64, SECONDS = 60, MANY = 5000 };

static struct pages sheets, texts, lists, tables;
static uint8_t made[LONGEST + LONGER], text_now[MOST_ROOM], text_first[MOST_ROOM];
static size_t length, room_now, words_now; /* of the made sheet, of the buffer and of the list */
static enum where where_now;
static const char *stage = "the default head";
static uint64_t turn, calls, too_short, short_lists, short_tables, converted, counts[TWIGMANTLE_REFUSAL_WITHDRAWN + 1];

/* A line put together without stdio, for it may be said in the middle of a call. */
static char line[512];
static size_t said;

static void say(const char *what)
{
    while (*what != 0 && said < sizeof line)
        line[said++] = *what++;
}

static void say_number(uint64_t n)
{
    char digits[21], *at = digits + 20;
    *at = 0;
    do
        *--at = (char)('0' + n % 10);
    while ((n /= 10) > 0);
    say(at);
}

/* Says what is wrong in which turn, with which buffer and at which fence, saves the sheet, and ends. */
static void wrong(const char *what)
{
    say(stage);
    say(", turn ");
    say_number(turn);
    say(": a sheet of ");
    say_number(length);
    say(" bytes, a buffer of ");
    say_number(room_now);
    say(", a list of ");
    say_number(words_now);
    say(", each ");
    say(WHERE[where_now]);
    say(": ");
    say(what);
    say("\n");
    int file = open("hard.sheet", O_WRONLY | O_CREAT | O_TRUNC, 0644);
    int saved = file >= 0 && write(file, made, length) == (ssize_t)length && close(file) == 0;
    _exit(write(1, line, said) == (ssize_t)said && saved ? 1 : 2);
}

/* Which of these pages the byte is in or beside. */
static const char *beside(const struct pages *pages, const uint8_t *at, const char *before, const char *in, const char *after)
{
    if (at < pages->start - pages->page || at >= pages->end + pages->page)
        return NULL;
    return at < pages->start ? before : at < pages->end ? in : after;
}

/* Comes in the middle of a call: nothing here that a signal's handler may not do. */
static void caught(int number, siginfo_t *info, void *context)
{
    const uint8_t *at = info->si_addr;
    (void)context;
    if (number == SIGALRM)
        wrong("the call did not end");
    if (number != SIGSEGV && number != SIGBUS) {
        say("signal ");
        say_number((uint64_t)number);
        say(" in ");
        wrong("the call stopped");
    }
    const char *sheet = beside(&sheets, at, "a byte before the sheet was touched", "the sheet was written to", "a byte after the sheet was touched");
    const char *text = beside(&texts, at, "a byte before the buffer was touched", "the buffer", "a byte after the buffer was touched");
    const char *table = beside(&tables, at, "a byte before the table was touched", "the table", "a byte after the table was touched");
    const char *list = beside(&lists, at, "a byte before the list was touched", "the list", "a byte after the list was touched");
    wrong(sheet != NULL ? sheet : text != NULL ? text : list != NULL ? list : table != NULL ? table : "a byte far from what was lent was touched");
}

/* The numbers go together, the text is what is due, and zero follows it. Lines and width are counted again, so that every byte of the text is read. */
static const char *fault(struct twigmantle_report r, const uint8_t *text, size_t room)
{
    struct offence offence = layout_offence(made, length);
    uint64_t lines = r.length > 0, width = 0, column = 0;
    if ((r.refusal > TWIGMANTLE_REFUSAL_ROOM && r.refusal != TWIGMANTLE_REFUSAL_WITHDRAWN) || r.length > room)
        return "a number out of range";
    if (offence.refusal != 0 ? r.refusal != offence.refusal || r.place != offence.place : (r.refusal > 0 && r.refusal < 5) || r.refusal == TWIGMANTLE_REFUSAL_WITHDRAWN)
        return "another answer of checks 1 to 4 and 14";
    if (offence.refusal == 0 && r.refusal != 0 && !can_be_refused(made, r.refusal, r.place, room))
        return "a refusal that this token cannot have";
    for (size_t i = 0; i < r.length; i++) {
        lines += text[i] == '\n';
        column = text[i] == '\n' ? 0 : text[i] == '\t' ? column + 8 - column % 8 : column + 1;
        width = column > width ? column : width;
    }
    if ((r.refusal != 0 && r.length != 0) || (r.refusal == 0 && r.place != 0) || r.lines != lines || r.width != width)
        return "counts that are not the text's";
    if (r.length > 0 && (is_white(text[0]) || is_white(text[r.length - 1])))
        return "white at an end of the text";
    for (size_t i = (size_t)r.length; i < room; i++)
        if (text[i] != 0)
            return "a byte after the text that is not zero";
    return r.refusal == 0 && !is_due(made, text, (size_t)r.length, NULL) ? "a text that is not what is due" : NULL;
}

/* The sheet in `made`, lent. */
static uint8_t *lend_sheet(enum where where)
{
    uint8_t *sheet = lend(&sheets, length, where);
    if (length > 0)
        memcpy(own_of(&sheets, sheet, where), made, length);
    return sheet;
}

/* A buffer or a list with something in it; one on the heap is as malloc left it. */
static uint8_t *lend_painted(const struct pages *pages, size_t n, enum where where)
{
    uint8_t *at = lend(pages, n, where);
    if (where != HEAP)
        memset(at, (int)under(256), n);
    return at;
}

#ifndef HARD_WITHOUT_ROWS

static uint32_t list_now[MOST_WORDS];

static int same_report(struct twigmantle_report r, struct twigmantle_report s)
{
    return r.refusal == s.refusal && r.place == s.place && r.length == s.length && r.lines == s.lines && r.width == s.width;
}

static int is_zero(const uint8_t *at, size_t n)
{
    while (n > 0 && at[n - 1] == 0)
        n--;
    return n == 0;
}

/* The words that the list must have: 10 is given after refusals 1 to 4 and 14. */
static size_t words_needed(void)
{
    return layout_offence(made, length).refusal == 0 ? words_for(made) : 0;
}

/* What is wrong with the second call's answer: it is the first call's, whose text is in `text_now`; or 10, which leaves everything zero. */
static const char *rows_fault(struct twigmantle_report r, struct twigmantle_report first, const uint8_t *text, const uint32_t *list)
{
    static const struct twigmantle_report refusal_10 = {.refusal = TWIGMANTLE_REFUSAL_LIST};
    int is_short = words_now < words_needed();
    if (!same_report(r, is_short ? refusal_10 : first))
        return is_short ? "a list that is too short, and not refused with 10 at 0" : "not the first call's report";
    if (memcmp(text, text_now, (size_t)r.length) != 0 || !is_zero(text + r.length, room_now - (size_t)r.length))
        return "not the first call's text";
    if (r.refusal != 0)
        return is_zero((const uint8_t *)list, sizeof *list * words_now) ? NULL : "a list that is not zero on a refusal";
    return are_due_rows(made, text, (size_t)r.length, list, words_now) ? NULL : "rows that are not what is due";
}

static void lay_once(size_t room, size_t words, struct twigmantle_report first, struct twigmantle_report listed);

/* The second call, after the first gave `first` for the same sheet and buffer; its list is left in `list_now`. */
static void lay_rows(size_t room, size_t words, struct twigmantle_report first)
{
    enum where where = calls++ % WAYS;
    uint8_t *sheet = lend_sheet(where), *text = lend_painted(&texts, room, where);
    uint32_t *list = (uint32_t *)(void *)lend_painted(&lists, sizeof *list * words, where);
    room_now = room;
    words_now = words;
    where_now = where;
    struct twigmantle_report r = twigmantle_layout_rows(sheet, length, text, room, list, words);
    const char *what = rows_fault(r, first, text, list);
    if (what == NULL && length > 0 && memcmp(sheet, made, length) != 0)
        what = "the sheet was written to";
    if (what != NULL)
        wrong(what);
    short_lists += r.refusal == TWIGMANTLE_REFUSAL_LIST;
    memcpy(list_now, list, sizeof *list * words);
    give_back(sheet, where);
    give_back(text, where);
    give_back((uint8_t *)list, where);
    words_now = 0;
    if (one_in(2))
        lay_once(room, words, first, r);
}

/* What is wrong with the answer of the other engine: it is the plain call's, whose text is in `text_now`; or 12, which leaves everything zero. */
static const char *once_fault(struct twigmantle_report r, struct twigmantle_report plain, const uint8_t *text, const uint32_t *table, size_t words)
{
    static const struct twigmantle_report refusal_12 = {.refusal = TWIGMANTLE_REFUSAL_TABLE};
    int sound = layout_offence(made, length).refusal == 0, narrow = sound && words < TWIGMANTLE_TABLE_WORDS * (size_t)word_at(made, 0);
    if (!same_report(r, narrow ? refusal_12 : plain))
        return narrow ? "a table that is too short, and not refused with 12 at 0" : "not the plain call's report";
    if (!is_zero((const uint8_t *)table, sizeof *table * words))
        return "a table that is not zero";
    if ((r.length > 0 && memcmp(text, text_now, (size_t)r.length) != 0) || !is_zero(text + r.length, room_now - (size_t)r.length))
        return "not the plain call's text";
    short_tables += (uint64_t)narrow;
    return NULL;
}

/* Tables that just serve or just do not, or any. */
static size_t some_table(void)
{
    size_t n = length >= 4 ? word_at(made, 0) : 0, need = TWIGMANTLE_TABLE_WORDS * (n <= TWIGMANTLE_MOST_TOKENS ? n : TWIGMANTLE_MOST_TOKENS);
    size_t some[] = {need, need, need + under(40), need - (need > 0), under((uint32_t)need)};
    return some[under(5)];
}

/* The two calls of the other engine, after the plain ones gave `first` and, with a list, `listed` and the list in `list_now`. */
static void lay_once(size_t room, size_t words, struct twigmantle_report first, struct twigmantle_report listed)
{
    for (int with_rows = 0; with_rows < 2; with_rows++) {
        enum where where = calls++ % WAYS;
        size_t wide = some_table();
        uint8_t *sheet = lend_sheet(where), *text = lend_painted(&texts, room, where);
        uint32_t *list = (uint32_t *)(void *)lend_painted(&lists, sizeof *list * words, where);
        uint32_t *table = (uint32_t *)(void *)lend_painted(&tables, sizeof *table * wide, where);
        room_now = room;
        words_now = words;
        where_now = where;
        struct twigmantle_report r = with_rows ? twigmantle_layout_rows_once(sheet, length, text, room, list, words, table, wide)
                                               : twigmantle_layout_once(sheet, length, text, room, table, wide);
        const char *what = once_fault(r, with_rows ? listed : first, text, table, wide);
        int narrow = r.refusal == TWIGMANTLE_REFUSAL_TABLE;
        if (what == NULL && with_rows && words > 0 && (narrow ? !is_zero((uint8_t *)list, sizeof *list * words) : memcmp(list, list_now, sizeof *list * words) != 0))
            what = "not the plain call's list";
        if (what == NULL && length > 0 && memcmp(sheet, made, length) != 0)
            what = "the sheet was written to";
        if (what != NULL)
            wrong(what);
        give_back(sheet, where);
        give_back(text, where);
        give_back((uint8_t *)list, where);
        give_back((uint8_t *)table, where);
        words_now = 0;
    }
}

/* A list that just serves, or one that is longer or shorter. */
static size_t some_words(void)
{
    size_t need = words_needed(), some[] = {need, need, need + 1, need + under(60), need - (need > 0), under((uint32_t)need)};
    return some[under(6)];
}

/* Lists of every length from 0 to past the need. */
static void every_list(size_t room, struct twigmantle_report first)
{
    for (size_t words = 0, need = words_needed(); words <= need + 8; words++)
        lay_rows(room, words, first);
}

/* A list just as long as the known rows, and one that is longer. */
static void known_rows_are(size_t room, struct twigmantle_report first, const uint32_t *rows, size_t count)
{
    size_t words = TWIGMANTLE_ROW_WORDS * count;
    for (size_t more = 0; more < 9; more += 8) {
        lay_rows(room, words + more, first);
        if (count > 0 && memcmp(list_now, rows, sizeof *rows * words) != 0)
            wrong("other rows than are known");
        if (words_needed() != words)
            wrong("more or fewer rows than are known");
    }
}

#else

static void lay_rows(size_t room, size_t words, struct twigmantle_report first)
{
    (void)room, (void)words, (void)first;
}

static size_t some_words(void)
{
    return 0;
}

static void every_list(size_t room, struct twigmantle_report first)
{
    (void)room, (void)first;
}

static void known_rows_are(size_t room, struct twigmantle_report first, const uint32_t *rows, size_t count)
{
    (void)room, (void)first, (void)rows, (void)count;
}

#endif

/* Both calls on the sheet in `made`; the text is left in `text_now`. */
static struct twigmantle_report lay(size_t room)
{
    enum where where = calls++ % WAYS;
    uint8_t *sheet = lend_sheet(where), *text = lend_painted(&texts, room, where);
    room_now = room;
    where_now = where;
    struct twigmantle_report r = twigmantle_layout(sheet, length, text, room);
    const char *what = fault(r, text, room);
    if (what == NULL && length > 0 && memcmp(sheet, made, length) != 0)
        what = "the sheet was written to";
    if (what != NULL)
        wrong(what);
    memcpy(text_now, text, (size_t)r.length);
    give_back(sheet, where);
    give_back(text, where);
    lay_rows(room, some_words(), r);
    return r;
}

/* Builds the plan, with TWIGMANTLE_INLINE_ON too, which was stored once and is not built any more. */
static size_t store(struct sheet_plan plan)
{
    uint32_t one_line = plan.options.one_line;
    plan.options.one_line = one_line == TWIGMANTLE_INLINE_ON ? TWIGMANTLE_INLINE_COMMENTS : one_line;
    size_t n = sheet_build(&plan, made, sizeof made).length;
    put(made, 4 * TWIGMANTLE_HEAD_INLINE, one_line);
    return n;
}

/* A sheet of known.h, in each way of lending. */
static void expected(const char *name, const struct sheet_plan *plan, size_t room, struct wanted wanted)
{
    stage = name;
    length = store(*plan);
    for (int way = 0; way < WAYS; way++) {
        struct twigmantle_report r = lay(room);
        if (r.refusal != wanted.refusal || r.place != wanted.place)
            wrong("another number or place than is known");
        if (wanted.text != NULL && (r.length != strlen(wanted.text) || memcmp(text_now, wanted.text, (size_t)r.length) != 0))
            wrong("another text than is known");
        if (wanted.width != 0 && r.width != wanted.width)
            wrong("another width than is known");
        if (wanted.rows != NULL)
            known_rows_are(room, r, wanted.rows, wanted.row_count);
        every_list(room, r);
    }
}

/* The least buffer that is not refused with 9: at least the text's length, and more where the working text was longer than it was left. */
static size_t need_of(struct twigmantle_report ample)
{
    size_t low = (size_t)ample.length, high = low;
    for (size_t step = 1; lay(high).refusal == 9; step *= 2) {
        low = high + 1;
        high = high + step < MOST_ROOM ? high + step : MOST_ROOM;
    }
    while (low < high) {
        size_t middle = (low + high) / 2;
        if (lay(middle).refusal == 9)
            low = middle + 1;
        else
            high = middle;
    }
    return low;
}

/* Below the need 9, from it up the ample buffer's answer; the place of the 9. */
static uint64_t at_room(size_t room, size_t need, struct twigmantle_report ample)
{
    struct twigmantle_report r = lay(room);
    too_short += r.refusal == 9;
    if (room < need && r.refusal != 9)
        wrong("less than the least room, and not refused with 9");
    int same = r.refusal == ample.refusal && r.place == ample.place && r.length == ample.length;
    if (room >= need && (!same || memcmp(text_now, text_first, (size_t)r.length) != 0))
        wrong("another answer for another buffer");
    return room < need ? r.place : UINT64_MAX;
}

/* The call that says how much to lend: the judge's sum, no less than the need, and the layout's refusals 1 to 4 and 14. */
static void room_is_known(struct twigmantle_report ample, size_t need)
{
    enum where where = calls++ % WAYS;
    uint8_t *sheet = lend_sheet(where);
    where_now = where;
    struct twigmantle_outcome known = twigmantle_room(sheet, length);
    give_back(sheet, where);
    if (layout_offence(made, length).refusal != 0) {
        if (known.refusal != ample.refusal || known.place != ample.place || known.length != 0)
            wrong("the room of a refused sheet");
    } else if (known.refusal != 0 || known.place != 0 || known.length != enough(made) || (ample.refusal != TWIGMANTLE_REFUSAL_ROOM && known.length < need))
        wrong("another room than is needed");
}

/* Buffers around the need; every length from 0 up, and lists of every length, for one small text in 16. */
static void rooms(void)
{
    struct twigmantle_report ample = lay(AMPLE);
    if (ample.refusal == 9)
        ample = lay(MOST_ROOM);
    counts[ample.refusal]++;
    memcpy(text_first, text_now, (size_t)ample.length);
    size_t need = ample.refusal == 9 ? MOST_ROOM + 1 : need_of(ample);
    room_is_known(ample, need);
    if (need <= 200 && one_in(16)) {
        uint64_t last = 0;
        for (size_t room = 0; room <= need + 8; room++) {
            uint64_t place = at_room(room, need, ample);
            if (place < last)
                wrong("more room, and an earlier token is refused");
            last = place;
        }
        every_list(need, lay(need));
    } else {
        size_t some[] = {under(3), under((uint32_t)need), need - (need > 1) - (need > 0), need - (need > 0), need, need + 1, need + under(300)};
        for (size_t i = 0; i < sizeof some / sizeof some[0]; i++)
            at_room(some[i] < MOST_ROOM ? some[i] : MOST_ROOM, need, ample);
    }
}

/* The call that converts: refusals 1 to 4 leave the sheet, 1 becomes 2 in byte 28 alone, and nothing else is changed. The sheet that is lent can be written. */
static void convert(void)
{
    struct offence offence = first_offence(made, length);
    int is_one = offence.refusal == 0 && word_at(made, 4 * TWIGMANTLE_HEAD_INLINE) == TWIGMANTLE_INLINE_ON;
    enum where where = calls++ % WAYS;
    uint8_t *sheet = lend(&texts, length, where);
    if (length > 0)
        memcpy(sheet, made, length);
    where_now = where;
    struct twigmantle_outcome o = twigmantle_convert(sheet, length);
    if (o.refusal != offence.refusal || o.place != offence.place || o.length != (uint64_t)is_one)
        wrong("converted, another number, place or length");
    if (is_one)
        put(made, 4 * TWIGMANTLE_HEAD_INLINE, TWIGMANTLE_INLINE_COMMENTS);
    if (length > 0 && memcmp(sheet, made, length) != 0)
        wrong("converted, another sheet");
    converted += (uint64_t)is_one;
    give_back(sheet, where);
}

/* Every length from 0 to past the sheet's own: judge.h refuses all but that one by their size. */
static void lengths(void)
{
    size_t whole = length;
    for (length = 0; length <= whole + LONGER; length++) {
        if (length > whole)
            made[length - 1] = (uint8_t)under(256);
        lay(under(80));
    }
    length = whole;
}

/* Any bytes, every length from 0 to 200; then with counts that fit, so that the checks after the first are met. */
static void noise(void)
{
    for (length = 0; length <= 200; length++) {
        for (size_t i = 0; i < length; i++)
            made[i] = (uint8_t)under(one_in(2) ? 256 : 2);
        lay(under(80));
        if (length < 48)
            continue;
        uint32_t n = under((uint32_t)(length - 48) / 20 + 1), b = (uint32_t)length - 48 - 20 * n;
        memset(made, 0, 48);
        put(made, 4 * TWIGMANTLE_HEAD_TOKENS, n);
        put(made, 4 * TWIGMANTLE_HEAD_BODY, b);
        put(made, 4 * (TWIGMANTLE_HEAD_MODE + under(8)), under(300));
        lay(under(80));
    }
}

/* Up to three bytes by chance, or words at the edges of what is allowed. */
static void damage(void)
{
    static const uint32_t edges[] = {0, 1, 2, 3, 16, 17, 31, 32, 64, 65, 127, 128, 255, 256, 257, 1024, 1025, 32768, 32769, 0x80000000u, 0xffffffffu};
    for (uint32_t i = 1 + under(3); i > 0; i--) {
        size_t at = under((uint32_t)length);
        if (one_in(2) && at / 4 * 4 + 4 <= length)
            put(made, at / 4 * 4, one_in(3) ? word_at(made, 12) + under(2) : edges[under(sizeof edges / sizeof edges[0])]);
        else
            made[at] = (uint8_t)under(256);
    }
}

/* A head, into slices of every length. */
static void head_is(const uint8_t *head, size_t (*write_head)(uint8_t *, size_t))
{
    for (size_t n = 0; n < WAYS * 100; n++) {
        where_now = n % WAYS;
        room_now = n / WAYS;
        uint8_t *out = lend(&texts, room_now, where_now);
        if (where_now != HEAP)
            memset(out, 7, room_now);
        size_t given = write_head(out, room_now), wanted = room_now < 48 ? 0 : 48;
        if (given != wanted || memcmp(out, head, wanted) != 0)
            wrong("another head");
        for (size_t i = wanted; i < room_now; i++)
            if (out[i] != 0)
                wrong("a byte after the head that is not zero");
        give_back(out, where_now);
    }
}

/* Both: they differ in word 11 alone. */
static void heads(void)
{
    static const uint8_t usual[48] = {[20] = 2, [32] = 1, [36] = 50, [40] = 255, 255, 255, 255, 60};
    static const uint8_t rust[48] = {[20] = 2, [32] = 1, [36] = 50, [40] = 255, 255, 255, 255, 255, 255, 255, 255};
    stage = "the default head";
    head_is(usual, twigmantle_default_head);
    stage = "the Rust's head";
    head_is(rust, twigmantle_rust_head);
}

/* A null pointer with length 0. */
static void nulls(void)
{
    static const uint8_t head[48] = {[20] = 2};
    uint8_t text[3] = {1, 2, 3};
    stage = "null pointers with length 0";
    room_now = length = 0;
    struct twigmantle_report none = twigmantle_layout(NULL, 0, NULL, 0), sheet = twigmantle_layout(NULL, 0, text, 3), room = twigmantle_layout(head, 48, NULL, 0);
    if (twigmantle_convert(NULL, 0).refusal != 1)
        wrong("no bytes to convert, and not refused with 1");
    if (none.refusal != 1 || sheet.refusal != 1 || text[0] + text[1] + text[2] != 0 || room.refusal != 0 || twigmantle_default_head(NULL, 0) + twigmantle_rust_head(NULL, 0) != 0)
        wrong("another answer than for no bytes");
#ifndef HARD_WITHOUT_ROWS
    static const uint8_t placeholder[68] = {[0] = 1, [20] = 2, [48] = TWIGMANTLE_KIND_PLACEHOLDER};
    uint32_t list[2] = {1, 2};
    none = twigmantle_layout_rows(NULL, 0, NULL, 0, NULL, 0);
    sheet = twigmantle_layout_rows(NULL, 0, NULL, 0, list, 2);
    room = twigmantle_layout_rows(head, 48, NULL, 0, NULL, 0);
    struct twigmantle_report no_list = twigmantle_layout_rows(placeholder, sizeof placeholder, text, 3, NULL, 0);
    if (none.refusal != 1 || sheet.refusal != 1 || list[0] + list[1] != 0 || room.refusal != 0 || no_list.refusal != 10 || no_list.place != 0)
        wrong("another answer than for no words");
#endif
}

/* On a stack of its own, so that a call that runs out of stack is told too. */
static void watch(void)
{
    static uint8_t stack[1 << 16];
    static const int numbers[] = {SIGSEGV, SIGBUS, SIGALRM, SIGILL, SIGTRAP, SIGFPE, SIGABRT};
    struct sigaction action = {.sa_sigaction = caught, .sa_flags = SA_SIGINFO | SA_ONSTACK};
    sigaltstack(&(stack_t){.ss_sp = stack, .ss_size = sizeof stack}, NULL);
    for (size_t i = 0; i < sizeof numbers / sizeof numbers[0]; i++)
        sigaction(numbers[i], &action, NULL);
}

/* A run of many sheets must meet texts, and every refusal that a sheet can reach: no sheet reaches 7. */
static int meets_all(uint64_t turns)
{
    int all = counts[0] > 0 && ((too_short > 0 && converted > 0) || turns < MANY);
    for (int i = 1; i < 9; i++)
        all &= counts[i] > 0 || i == 7 || turns < MANY;
    if (!all)
        printf("no text, or a refusal that no sheet met\n");
    return all;
}

int main(int argc, char **argv)
{
    uint64_t turns = argc > 1 ? strtoull(argv[1], NULL, 10) : 20000;
    dice = argc > 2 ? strtoull(argv[2], NULL, 10) : 1;
    sheets = fenced(sizeof made, 0);
    texts = fenced(MOST_ROOM, 1);
    lists = fenced(MOST_WORDS * sizeof(uint32_t), 1);
    tables = fenced((TWIGMANTLE_MOST_TABLE + 64) * sizeof(uint32_t), 1);
    watch();
    alarm(SECONDS);
    heads();
    known_sheets(expected);
    nulls();
    stage = "random";
    for (turn = 0; turn < turns; turn++) {
        alarm(SECONDS);
        if (turn % 256 == 0)
            noise();
        length = random_sheet(made);
        if (turn % 64 == 0)
            lengths();
        if (one_in(3))
            damage();
        rooms();
        int was_one = layout_offence(made, length).refusal == TWIGMANTLE_REFUSAL_WITHDRAWN;
        convert();
        if (was_one)
            rooms();
        if ((turn + 1) % (turns < 10 ? 1 : turns / 10) == 0)
            fprintf(stderr, "%" PRIu64 " of %" PRIu64 " sheets\n", turn + 1, turns);
    }
    printf("%" PRIu64 " sheets, %" PRIu64 " calls, no fault\nat an ample buffer %" PRIu64 " texts, refusals 1 to 9:", turns, calls, counts[0]);
    for (int i = 1; i < 10; i++)
        printf(" %" PRIu64, counts[i]);
    printf("; 14: %" PRIu64 ", each laid out once it was converted", counts[TWIGMANTLE_REFUSAL_WITHDRAWN]);
    printf("\n%" PRIu64 " further buffers, %" PRIu64 " lists and %" PRIu64 " tables too short\n", too_short, short_lists, short_tables);
    return meets_all(turns) ? 0 : 1;
}
