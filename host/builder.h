/* Builds a sheet into a caller's buffer. This pair and twigmantle.h are what a host copies.
 *
 * What it builds is never refused with 1 to 4 or 14. Nothing is allocated, nothing kept between calls, nothing written outside the buffer. Equal values share one
 * place in the bodies. A buffer of TWIGMANTLE_MOST_SHEET bytes is never too short. */
#ifndef BUILDER_H
#define BUILDER_H

#include "twigmantle.h"

#ifdef __cplusplus
extern "C" {
#endif

/* A value or a name: n bytes, at may be null if n is 0. It may not lie in the buffer that is built into. */
struct sheet_bytes {
    const void *at;
    size_t n;
};

struct sheet_options {
    uint32_t indent;      /* so many spaces, or TWIGMANTLE_INDENT_TABS */
    uint32_t letter_case; /* enum twigmantle_case */
    uint32_t one_line;    /* enum twigmantle_inline, but not TWIGMANTLE_INLINE_ON, which is withdrawn */
    uint32_t lines;       /* between queries */
    uint32_t block;
    uint32_t arguments; /* or TWIGMANTLE_LIMIT_NONE */
    uint32_t top_level; /* or TWIGMANTLE_LIMIT_NONE */
};

/* A name belongs to key class Named alone, a number to the two numbered ones alone: anything else there is a fault, not left out. */
struct sheet_token {
    uint32_t kind; /* enum twigmantle_kind */
    struct sheet_bytes value;
    uint32_t key_class; /* enum twigmantle_key */
    struct sheet_bytes name;
    uint32_t number;
    int create; /* the alias is CREATE */
};

struct sheet_param {
    struct sheet_bytes name; /* of 0 bytes unless the mode is Named */
    struct sheet_bytes value;
};

struct sheet_plan {
    struct sheet_options options;
    uint32_t mode; /* enum twigmantle_mode */
    const struct sheet_token *tokens;
    size_t token_count;
    const struct sheet_param *params;
    size_t param_count;
    const struct sheet_bytes *keeps;
    size_t keep_count;
};

enum sheet_fault {
    SHEET_BUILT = 0,
    SHEET_NULL,   /* a null pointer with a length or a count that is not 0 */
    SHEET_COUNT,  /* more tokens, parameters or keep words than a sheet has */
    SHEET_OPTION, /* an option or the mode out of its range, TWIGMANTLE_INLINE_ON, or parameters in mode None; index is the word of the head */
    SHEET_KIND,   /* a kind that there is not */
    SHEET_KEY,    /* a key class that there is not, or a name or a number that the class does not have */
    SHEET_NAME,   /* a parameter's name, and the mode is not Named */
    SHEET_BYTE,   /* a byte of 128 or more */
    SHEET_BODY,   /* the bodies would be longer than TWIGMANTLE_MOST_BODY */
    SHEET_ROOM    /* the sheet would be longer than the buffer */
};

enum sheet_part { SHEET_IN_HEAD, SHEET_IN_TOKENS, SHEET_IN_PARAMS, SHEET_IN_KEEPS };

/* The sheet's length; or the first fault in the order of the plan, the list it is in and the number in that list, and length 0. */
struct sheet_built {
    enum sheet_fault fault;
    enum sheet_part part;
    size_t index;
    size_t length;
};

/* Writes the sheet at the buffer's start and zero after it; on a fault the buffer is all zero. */
struct sheet_built sheet_build(const struct sheet_plan *plan, uint8_t *sheet, size_t room);

/* The options of the library's default head, and those of the Rust's head. */
struct sheet_options sheet_default_options(void);
struct sheet_options sheet_rust_options(void);

/* The bytes of a C string, without its end. */
struct sheet_bytes sheet_text(const char *text);

#ifdef __cplusplus
}
#endif

#endif
