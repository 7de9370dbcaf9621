/* The layout of a query sheet: any bytes, any buffer. docs/sheet.md says what a sheet is.
 *
 * Link libtwigmantle.a (tools/staticlib; x86-64). It may call memcpy, memmove and memset, and nothing else; it allocates nothing.
 *
 * Pointers. Each must be good for the length given with it, and may be null where that length is 0. The sheet is only read, but by twigmantle_mend and twigmantle_convert. The sheet, the buffer, the
 * list, the table and the report may not overlap, and no one else may write to any of them during the call: to compact a sheet, lend another buffer than its own. A text that is
 * judged is only read; it may overlap its sheet.
 *
 * Threads. The library keeps no state between calls or across them: any number of threads may call at once, each with a buffer and a list of its own. Sheets may be
 * shared, but one that is being mended or converted. */
#ifndef TWIGMANTLE_H
#define TWIGMANTLE_H

#include <stddef.h>
#include <stdint.h>

/* The version of the sheet's form. It goes up when a number below changes, or when another set of sheets passes refusals 1 to 4 and 14. A sheet does not carry it. */
#define TWIGMANTLE_FORM 3 /* 2: word TWIGMANTLE_HEAD_INLINE may be TWIGMANTLE_INLINE_COMMENTS. 3: TWIGMANTLE_INLINE_ON is withdrawn there */

#ifdef __cplusplus
extern "C" {
#endif

/* What a layout call gives back. refusal 0: the text stands at the buffer's start, zero bytes after it, and place is 0. Otherwise place says where,
 * length, lines and width are 0, and the buffer is all zero. */
struct twigmantle_report {
    uint32_t refusal; /* enum twigmantle_refusal */
    uint64_t place;
    uint64_t length; /* of the text, in bytes */
    uint64_t lines;  /* line feeds and one more; 0 if the text is empty */
    uint64_t width;  /* the largest column reached on any line: a tab goes to the next multiple of 8 above, every other byte is one column */
};

/* Lays out the sheet of n bytes into text, a buffer of room bytes.
 * n 0: refusal 1 at 0. room 0: the empty text if nothing was to be written, else a refusal; no byte is written.
 *
 * Refusal 14 at 28, of this and every other layout call: the sheet passes 1 to 4, and has TWIGMANTLE_INLINE_ON, which is withdrawn. It comes before every refusal but those
 * four, whatever is lent. twigmantle_convert makes such a sheet one that is laid out. */
struct twigmantle_report twigmantle_layout(const uint8_t *sheet, size_t n, uint8_t *text, size_t room);

/* Does the same, with the same report and the same bytes in text, and lists in rows, a list of so many words, which parameter stands where: a row of
 * TWIGMANTLE_ROW_WORDS words (enum twigmantle_row) for each placeholder laid out, in the order of the tokens, and zero after the last row. A placeholder that is
 * switched off or dropped has no row. On a refusal the whole list is zero.
 *
 * Refusal 10 is for a list, here and in twigmantle_layout_rows_once: fewer words than all those rows need. It comes after 4 and 14, and before any token is laid out: it counts the placeholders after a
 * token that would be refused too. A list of TWIGMANTLE_MOST_LIST words is never too short. words 0, and rows may be null: serves a sheet that has no placeholder to
 * lay out; for any other 10 at 0. n 0 and room 0 are as above.
 *
 * How many rows. A row can be five zero words (token 0 shows entry 0, and nothing of it is left), so the list does not end at the first zero. But the tokens of
 * the rows rise, and token 0 has a row exactly if it is a placeholder. So after a text count the rows whose token is not 0, and one more if token 0 of the sheet
 * is a placeholder. */
struct twigmantle_report twigmantle_layout_rows(const uint8_t *sheet, size_t n, uint8_t *text, size_t room, uint32_t *rows, size_t words);

/* The two layout calls again, for long and deep sheets: they read ahead once, into table, a lent list of so many words, and lay out from it. The report, the text and the
 * rows are those of the plain calls; their time grows with the number of tokens, where a plain call reads the rest of the sheet again at each top-level word and bracket.
 * The table is scratch: it may hold anything before the call, and is all zero afterwards, whatever the answer.
 *
 * Refusal 12 is these calls' alone: fewer than TWIGMANTLE_TABLE_WORDS words for each token of the sheet; after 4 and 14, and before 10. A table of TWIGMANTLE_MOST_TABLE words is
 * never too short. words 0, and table may be null: serves a sheet without tokens. */
struct twigmantle_report twigmantle_layout_once(const uint8_t *sheet, size_t n, uint8_t *text, size_t room, uint32_t *table, size_t table_words);
struct twigmantle_report twigmantle_layout_rows_once(const uint8_t *sheet, size_t n, uint8_t *text, size_t room, uint32_t *rows, size_t words, uint32_t *table,
                                                     size_t table_words);

/* What a call gives back that lays nothing out. refusal 0: place is 0. Otherwise place says where, and length is 0. */
struct twigmantle_outcome {
    uint32_t refusal; /* enum twigmantle_refusal */
    uint64_t place;
    uint64_t length; /* as the call says */
};

/* How long a buffer never meets refusal 9 with the sheet of n bytes, whichever layout call is made: its length. Over the tokens laid out it is the sum of: the
 * length of what the token shows, 3, twice I, for each line feed in it I + 1, and the lines between queries if it is a `;`, where I is 128 times the indent's
 * width, a tab being 1. A token copied while formatting is off counts its length; one that is not kept, nothing. Most texts are far shorter.
 * Refusals 1 to 4 and 14 are those of the layout calls; no other is given. The sum can be larger than any memory: up to some 2 ^ 40. */
struct twigmantle_outcome twigmantle_room(const uint8_t *sheet, size_t n);

/* Writes the sheet of n bytes anew into out, a buffer of room bytes, and gives its length, with only those bytes of the bodies that some place covers, in their old order: a place
 * then starts at the number of kept bytes before its old start, and an empty place at 0. The new sheet stands at out's start, zero bytes after it. It passes
 * refusals 1 to 4, every layout call answers as it does for the old one, it is not longer, and compacting it gives it back. TWIGMANTLE_INLINE_ON stays, so both sheets
 * are then refused with 14; converted, they are laid out alike. To compact and then to convert gives the same sheet as to convert and then to compact.
 *
 * Refusals 1 to 4 are those of the layout calls. 11 at 0: room is less than the new sheet's length. A buffer as long as the old sheet is never too short. On a
 * refusal out is all zero. */
struct twigmantle_outcome twigmantle_compact(const uint8_t *sheet, size_t n, uint8_t *out, size_t room);

/* Mends the sheet of n bytes where it stands, so that it is not refused with 1 to 4, and gives as length how many words and bytes it changed. A bad option takes the Rust's
 * default; a bad mode, and mode None with parameters, becomes Indexed if there are parameters and else None; a name that the mode then forbids becomes 0, 0. A bad packed
 * word becomes TWIGMANTLE_KIND_WORD without key or alias, and key words that the class then forbids become 0. A place past the bodies becomes 0, 0. A body byte of 128 or
 * more becomes `?`. Nothing else is changed, nothing at all in a sheet that passes refusals 1 to 4 (so TWIGMANTLE_INLINE_ON stays), and mending twice is mending once.
 *
 * The report, a list of so many words, gets a row of TWIGMANTLE_CHANGE_WORDS words (enum twigmantle_change) for each change, in the order of the file, and zero after the
 * last row. With the old numbers put back the sheet is the one that came.
 *
 * Refusal 1 at 0 is that of the layout calls: nothing can be mended where the size is wrong; n 0 too. 13 at 0, this call's alone: fewer words than all those rows need. Both
 * leave the sheet as it came and the report all zero. A report of TWIGMANTLE_MOST_REPORT words is never too short. words 0, and report may be null: serves a sheet with
 * nothing to mend; for any other 13. So a call with words 0 tells whether a sheet is sound, and leaves it alone. */
struct twigmantle_outcome twigmantle_mend(uint8_t *sheet, size_t n, uint32_t *report, size_t words);

/* Converts the sheet of n bytes where it stands, and gives as length how many of its bytes it changed: TWIGMANTLE_INLINE_ON becomes TWIGMANTLE_INLINE_COMMENTS, which is
 * byte 28 alone, and any other sheet is left as it is. The sheet then passes refusals 1 to 4 with the same counts, no layout call refuses it with 14, and converting
 * twice is converting once.
 *
 * Refusals 1 to 4 are those of the layout calls; no other is given. A refusal leaves the sheet as it came; n 0 is refusal 1 at 0. */
struct twigmantle_outcome twigmantle_convert(uint8_t *sheet, size_t n);

/* What the judge of a text gives back. refusal 0: place is 0, and matches says whether the text is what is due; if it is not, token says from which token on. Otherwise place
 * says where, and matches and token are 0. */
struct twigmantle_judged {
    uint32_t refusal; /* enum twigmantle_refusal */
    uint64_t place;
    uint32_t matches; /* 1: the text is what is due; token is 0. 0: it is not, or a refusal */
    uint64_t token;   /* the first kept token whose bytes are not matched; the number of tokens if only extra bytes remain */
};

/* Judges a text of length bytes that any tool laid out for the sheet of n bytes: whether it is, white bytes (9 to 13 and 32) taken out, the sheet's kept tokens in order, white
 * bytes taken out, each as its own value, in the asked letter case where case applies, or as its parameter. Kept are all tokens but the switch comments, the tokens dropped after
 * them, and Whitespace while formatting is on; a token copied while it is off is due as it is. Where the lines and blanks stand does not matter, so every text of the
 * layout calls is a yes for its sheet, and so can be a text that they would lay out otherwise. A token without a byte that is not white is always matched.
 *
 * Refusals 1 to 4 are those of the layout calls. 5 at its token, before any text is compared: the mode is Indexed, and a placeholder to be laid out counts from one and says 0. Then
 * 15, this call's alone: a byte of the text is 128 or more; place is its offset in the text. No other is given: a sheet that layout refuses for its depth, its folds or
 * TWIGMANTLE_INLINE_ON is judged too, and no buffer is lent.
 * n 0: refusal 1 at 0, whatever the text. length 0, and text may be null: the empty text, which is a yes exactly if nothing but white is due. */
struct twigmantle_judged twigmantle_judge(const uint8_t *sheet, size_t n, const uint8_t *text, size_t length);

/* Writes the default head into out, n bytes: its 48 bytes, zero after them, and gives 48. An out under 48 bytes becomes zero, and it gives 0; n 0 too. */
size_t twigmantle_default_head(uint8_t *out, size_t n);

/* The same with the head of the Rust's own defaults, for a host that compares with the Rust: all as in the default head, but no limit in word 11. */
size_t twigmantle_rust_head(uint8_t *out, size_t n);

#ifdef __cplusplus
}
#endif

/* The struct is the library's: a compiler that lays it out otherwise stops here, at an array of length -1. */
typedef char twigmantle_report_has_40_bytes[sizeof(struct twigmantle_report) == 40 ? 1 : -1];
typedef char twigmantle_report_has_place_at_8[offsetof(struct twigmantle_report, place) == 8 ? 1 : -1];
typedef char twigmantle_report_has_length_at_16[offsetof(struct twigmantle_report, length) == 16 ? 1 : -1];
typedef char twigmantle_report_has_lines_at_24[offsetof(struct twigmantle_report, lines) == 24 ? 1 : -1];
typedef char twigmantle_report_has_width_at_32[offsetof(struct twigmantle_report, width) == 32 ? 1 : -1];
typedef char twigmantle_outcome_has_24_bytes[sizeof(struct twigmantle_outcome) == 24 ? 1 : -1];
typedef char twigmantle_outcome_has_place_at_8[offsetof(struct twigmantle_outcome, place) == 8 ? 1 : -1];
typedef char twigmantle_outcome_has_length_at_16[offsetof(struct twigmantle_outcome, length) == 16 ? 1 : -1];
typedef char twigmantle_judged_has_32_bytes[sizeof(struct twigmantle_judged) == 32 ? 1 : -1];
typedef char twigmantle_judged_has_place_at_8[offsetof(struct twigmantle_judged, place) == 8 ? 1 : -1];
typedef char twigmantle_judged_has_matches_at_16[offsetof(struct twigmantle_judged, matches) == 16 ? 1 : -1];
typedef char twigmantle_judged_has_token_at_24[offsetof(struct twigmantle_judged, token) == 24 ? 1 : -1];
typedef char twigmantle_lengths_have_64_bits[sizeof(size_t) == 8 && sizeof(void *) == 8 ? 1 : -1];

/* Refusals, and what the place counts: bytes of the sheet up to TWIGMANTLE_REFUSAL_BYTE and at TWIGMANTLE_REFUSAL_WITHDRAWN, tokens up to TWIGMANTLE_REFUSAL_ROOM, bytes of the
 * text at TWIGMANTLE_REFUSAL_TEXT. */
enum twigmantle_refusal {
    TWIGMANTLE_REFUSAL_NONE = 0,
    TWIGMANTLE_REFUSAL_SIZE = 1,   /* under 48 bytes, a count over its bound, or a length that the counts do not give; place 0 */
    TWIGMANTLE_REFUSAL_WORD = 2,   /* a word that is not allowed: its offset */
    TWIGMANTLE_REFUSAL_PLACE = 3,  /* start + length past the bodies: the start word's offset */
    TWIGMANTLE_REFUSAL_BYTE = 4,   /* a body byte of 128 or more: its offset */
    TWIGMANTLE_REFUSAL_NOUGHT = 5, /* mode Indexed, and a placeholder counts from one and says 0 */
    TWIGMANTLE_REFUSAL_INDENT = 6, /* one more entry on the indent stack than TWIGMANTLE_MOST_DEPTH */
    /* 7 is not given: no sheet meets it */
    TWIGMANTLE_REFUSAL_FOLDED = 8, /* a folded block closed with no unfolded entry left */
    TWIGMANTLE_REFUSAL_ROOM = 9,   /* the working text would be longer than the buffer */
    TWIGMANTLE_REFUSAL_LIST = 10,  /* fewer than TWIGMANTLE_ROW_WORDS words for each placeholder to be laid out; place 0; of the two layout calls with a list */
    TWIGMANTLE_REFUSAL_SHEET = 11, /* a buffer shorter than the new sheet; place 0; of twigmantle_compact alone */
    TWIGMANTLE_REFUSAL_TABLE = 12, /* fewer than TWIGMANTLE_TABLE_WORDS words for each token; place 0; of the calls that read ahead once */
    TWIGMANTLE_REFUSAL_REPORT = 13, /* fewer than TWIGMANTLE_CHANGE_WORDS words for each change; place 0; of twigmantle_mend alone */
    TWIGMANTLE_REFUSAL_WITHDRAWN = 14, /* word TWIGMANTLE_HEAD_INLINE is TWIGMANTLE_INLINE_ON: its offset, 28; of the layout calls and twigmantle_room */
    TWIGMANTLE_REFUSAL_TEXT = 15       /* a byte of the text of 128 or more: its offset in the text; of twigmantle_judge alone */
};

/* A row of the list, by word: where a placeholder's value stands in the text. */
enum twigmantle_row {
    TWIGMANTLE_ROW_TOKEN = 0,       /* the placeholder's number */
    TWIGMANTLE_ROW_ENTRY = 1,       /* the entry's number, counted from nought, or TWIGMANTLE_ENTRY_OWN */
    TWIGMANTLE_ROW_BEFORE_LOW = 2,  /* the bytes of the text before the value, modulo 2^32 */
    TWIGMANTLE_ROW_BEFORE_HIGH = 3, /* the same, divided by 2^32 */
    TWIGMANTLE_ROW_SURVIVED = 4,    /* how many bytes of the value are in the text: white at its ends may have been cut, all of it too */
    TWIGMANTLE_ROW_WORDS = 5
};

/* A row of the mender's report, by word. */
enum twigmantle_change {
    TWIGMANTLE_CHANGE_OFFSET = 0, /* of a word before the bodies, of a byte in them; counted from the sheet's first byte */
    TWIGMANTLE_CHANGE_OLD = 1,    /* what it was */
    TWIGMANTLE_CHANGE_NEW = 2,    /* what it is; never the same */
    TWIGMANTLE_CHANGE_WORDS = 3
};

#define TWIGMANTLE_TABLE_WORDS 6 /* of the table, for each token */

#define TWIGMANTLE_ENTRY_OWN 0xffffffffu /* no entry: the token's own value was shown */

/* The sheet: a head, records, bodies. Words are 32 bits, the low byte first. */
enum twigmantle_size { /* in bytes */
    TWIGMANTLE_SIZE_WORD = 4,
    TWIGMANTLE_SIZE_HEAD = 48,
    TWIGMANTLE_SIZE_TOKEN = 20,
    TWIGMANTLE_SIZE_PARAM = 16,
    TWIGMANTLE_SIZE_KEEP = 8
};

enum twigmantle_most {
    TWIGMANTLE_MOST_TOKENS = 1024,
    TWIGMANTLE_MOST_PARAMS = 256,
    TWIGMANTLE_MOST_KEEPS = 64,
    TWIGMANTLE_MOST_BODY = 32768, /* bytes of the bodies */
    TWIGMANTLE_MOST_BYTE = 127,   /* in the bodies */
    TWIGMANTLE_MOST_SPACES = 255, /* word TWIGMANTLE_HEAD_INDENT; one more is TWIGMANTLE_INDENT_TABS */
    TWIGMANTLE_MOST_LINES = 255,  /* word TWIGMANTLE_HEAD_LINES */
    TWIGMANTLE_MOST_DEPTH = 128,  /* entries on the indent stack */
    TWIGMANTLE_MOST_LIST = 5120,  /* words of a list with a row for each of TWIGMANTLE_MOST_TOKENS */
    TWIGMANTLE_MOST_TABLE = 6144, /* words of a table for as many tokens */
    TWIGMANTLE_MOST_SHEET = 57904, /* bytes of a sheet with every count at its bound */
    /* Words of a report with a row for each word and byte of such a sheet that can be bad: words 4 to 8 of the head, every word of every record, every byte of the bodies. */
    TWIGMANTLE_MOST_REPORT = 117135
};

/* The head's twelve words, by number. */
enum twigmantle_head {
    TWIGMANTLE_HEAD_TOKENS = 0,
    TWIGMANTLE_HEAD_PARAMS = 1, /* 0 in mode None */
    TWIGMANTLE_HEAD_KEEPS = 2,
    TWIGMANTLE_HEAD_BODY = 3,      /* bytes of the bodies */
    TWIGMANTLE_HEAD_MODE = 4,      /* enum twigmantle_mode */
    TWIGMANTLE_HEAD_INDENT = 5,    /* so many spaces, or TWIGMANTLE_INDENT_TABS */
    TWIGMANTLE_HEAD_CASE = 6,      /* enum twigmantle_case */
    TWIGMANTLE_HEAD_INLINE = 7,    /* enum twigmantle_inline */
    TWIGMANTLE_HEAD_LINES = 8,     /* lines between queries */
    TWIGMANTLE_HEAD_BLOCK = 9,     /* longest inline block */
    TWIGMANTLE_HEAD_ARGUMENTS = 10, /* longest inline arguments, or TWIGMANTLE_LIMIT_NONE */
    TWIGMANTLE_HEAD_TOP_LEVEL = 11  /* longest inline top-level part, or TWIGMANTLE_LIMIT_NONE */
};

enum twigmantle_mode { TWIGMANTLE_MODE_NONE = 0, TWIGMANTLE_MODE_INDEXED = 1, TWIGMANTLE_MODE_NAMED = 2 };

enum twigmantle_indent { TWIGMANTLE_INDENT_TABS = 256 };

enum twigmantle_case { TWIGMANTLE_CASE_AS_IS = 0, TWIGMANTLE_CASE_UPPER = 1, TWIGMANTLE_CASE_LOWER = 2 };

enum twigmantle_inline {
    TWIGMANTLE_INLINE_OFF = 0,
    TWIGMANTLE_INLINE_ON = 1,      /* withdrawn: refusal 14. It was everything on one line, so that what followed a line comment was part of the comment */
    TWIGMANTLE_INLINE_COMMENTS = 2 /* everything on one line, but each line comment ends its line: a text to be run */
};

#define TWIGMANTLE_LIMIT_NONE 0xffffffffu /* no limit given, in words 10 and 11 alone */

/* The options of the default head; its counts and its mode are 0. The Rust's head has them too, but for the last. */
#define TWIGMANTLE_DEFAULT_INDENT 2u
#define TWIGMANTLE_DEFAULT_CASE TWIGMANTLE_CASE_AS_IS
#define TWIGMANTLE_DEFAULT_INLINE TWIGMANTLE_INLINE_OFF
#define TWIGMANTLE_DEFAULT_LINES 1u
#define TWIGMANTLE_DEFAULT_BLOCK 50u
#define TWIGMANTLE_DEFAULT_ARGUMENTS TWIGMANTLE_LIMIT_NONE
#define TWIGMANTLE_DEFAULT_TOP_LEVEL 60u
#define TWIGMANTLE_RUST_TOP_LEVEL TWIGMANTLE_LIMIT_NONE

/* The words of each record, by number. Starts count from the first byte of the bodies. */
enum twigmantle_token {
    TWIGMANTLE_TOKEN_PACKED = 0, /* enum twigmantle_packed */
    TWIGMANTLE_TOKEN_START = 1,
    TWIGMANTLE_TOKEN_LENGTH = 2,
    TWIGMANTLE_TOKEN_KEY_A = 3, /* the name's start, or the number, or 0 */
    TWIGMANTLE_TOKEN_KEY_B = 4  /* the name's length, or 0 */
};

enum twigmantle_param {
    TWIGMANTLE_PARAM_NAME_START = 0, /* 0 unless the mode is Named */
    TWIGMANTLE_PARAM_NAME_LENGTH = 1,
    TWIGMANTLE_PARAM_START = 2,
    TWIGMANTLE_PARAM_LENGTH = 3
};

enum twigmantle_keep { TWIGMANTLE_KEEP_START = 0, TWIGMANTLE_KEEP_LENGTH = 1 };

/* The packed word: bits 0 to 4 the kind, 5 and 6 the key class, 7 the alias; all others 0. */
enum twigmantle_packed {
    TWIGMANTLE_PACKED_KIND_MASK = 31,
    TWIGMANTLE_PACKED_CLASS_SHIFT = 5,
    TWIGMANTLE_PACKED_CLASS_MASK = 3, /* after the shift */
    TWIGMANTLE_PACKED_CREATE = 128    /* set if the alias is CREATE */
};

enum twigmantle_kind {
    TWIGMANTLE_KIND_TYPE_SPECIFIER = 0,
    TWIGMANTLE_KIND_WHITESPACE = 1,
    TWIGMANTLE_KIND_STRING = 2,
    TWIGMANTLE_KIND_RESERVED = 3,
    TWIGMANTLE_KIND_RESERVED_TOP_LEVEL = 4,
    TWIGMANTLE_KIND_RESERVED_TOP_LEVEL_NO_INDENT = 5,
    TWIGMANTLE_KIND_RESERVED_NEWLINE = 6,
    TWIGMANTLE_KIND_RESERVED_NEWLINE_AFTER = 7,
    TWIGMANTLE_KIND_OPERATOR = 8,
    TWIGMANTLE_KIND_OPEN_PAREN = 9,
    TWIGMANTLE_KIND_CLOSE_PAREN = 10,
    TWIGMANTLE_KIND_LINE_COMMENT = 11,
    TWIGMANTLE_KIND_BLOCK_COMMENT = 12,
    TWIGMANTLE_KIND_NUMBER = 13,
    TWIGMANTLE_KIND_PLACEHOLDER = 14,
    TWIGMANTLE_KIND_WORD = 15,
    TWIGMANTLE_KIND_JOIN = 16,
    TWIGMANTLE_KIND_LAST = TWIGMANTLE_KIND_JOIN
};

enum twigmantle_key {
    TWIGMANTLE_KEY_NONE = 0,
    TWIGMANTLE_KEY_NAMED = 1,
    TWIGMANTLE_KEY_ZERO_INDEXED = 2, /* a number that counts from nought */
    TWIGMANTLE_KEY_ONE_INDEXED = 3   /* a number that counts from one */
};

#endif
