/* Holds the call against the Rust's answers: reads the lines of `compare list` on standard input and lays each sheet out into a buffer of the room named there.
 * Every number, every byte of the text and every byte after it must be the same. The first difference is shown and ends the program with 1; so does a list with
 * no text in it. A line that cannot be read ends it with 2. */
#define _POSIX_C_SOURCE 200809L
#include <inttypes.h>
#include <stdio.h>
#include <stdlib.h>
#include <string.h>

#include "twigmantle.h"

enum { PAINT = 0xa5 };

struct answer {
    struct twigmantle_report report;
    uint8_t *text;
};

static void *sure(void *p)
{
    if (p == NULL) {
        perror("against");
        exit(2);
    }
    return p;
}

static uint64_t turn; /* the line's number */

static void bad_line(const char *why)
{
    fprintf(stderr, "against: line %" PRIu64 ": %s\n", turn, why);
    exit(2);
}

static unsigned digit(char c)
{
    const char *digits = "0123456789abcdef", *at = c == 0 ? NULL : strchr(digits, c);
    if (at == NULL)
        bad_line("not a hex digit");
    return (unsigned)(at - digits);
}

/* The bytes that a field of hex digits stands for; none is written as '-'. */
static uint8_t *bytes(const char *hex, size_t *n)
{
    int none = strcmp(hex, "-") == 0;
    *n = none ? 0 : strlen(hex) / 2;
    if (!none && strlen(hex) % 2 != 0)
        bad_line("half a byte");
    uint8_t *out = sure(malloc(*n + 1));
    for (size_t i = 0; i < *n; i++)
        out[i] = (uint8_t)(digit(hex[2 * i]) << 4 | digit(hex[2 * i + 1]));
    return out;
}

/* The next field; the line at the first one, then NULL. */
static char *field(char *line)
{
    char *f = strtok(line, " \n");
    if (f == NULL)
        bad_line(line != NULL ? "empty" : "ends early");
    return f;
}

static uint64_t number(void)
{
    char *f = field(NULL), *end;
    uint64_t n = strtoull(f, &end, 10);
    if (*end != 0 || f[0] < '0' || f[0] > '9')
        bad_line("not a number");
    return n;
}

/* What a line says after the room: the report and the text. */
static struct answer expected(void)
{
    struct answer a = {{0, 0, 0, 0, 0}, NULL};
    size_t n = 0;
    const char *how = field(NULL);
    if (strcmp(how, "ok") == 0) {
        a.text = bytes(field(NULL), &n);
        a.report.length = n;
        a.report.lines = number();
        a.report.width = number();
    } else if (strcmp(how, "refused") == 0) {
        a.text = bytes("-", &n);
        a.report.refusal = (uint32_t)number();
        a.report.place = number();
    } else
        bad_line("neither ok nor refused");
    if (strtok(NULL, " \n") != NULL)
        bad_line("goes on too long");
    return a;
}

static int same(struct twigmantle_report r, struct twigmantle_report s)
{
    return r.refusal == s.refusal && r.place == s.place && r.length == s.length && r.lines == s.lines && r.width == s.width;
}

/* Where the buffer is not the text and zero after it; room if it is. The byte past the buffer must be as it was. */
static size_t difference(const uint8_t *buffer, size_t room, const struct answer *a)
{
    size_t at = 0;
    while (at < room && buffer[at] == (at < a->report.length ? a->text[at] : 0))
        at++;
    return at == room && buffer[room] != PAINT ? room + 1 : at;
}

static void show(const char *whose, struct twigmantle_report r)
{
    printf("%s: refusal %" PRIu32 " at %" PRIu64 ", length %" PRIu64 ", lines %" PRIu64 ", width %" PRIu64 "\n", whose, r.refusal, r.place, r.length, r.lines, r.width);
}

static void show_bytes(const char *whose, const uint8_t *text, size_t from, size_t to)
{
    printf("%s, from byte %zu:", whose, from);
    for (size_t i = from; i < to && i < from + 16; i++)
        printf(" %02x", text[i]);
    printf("%s\n", to <= from ? " nothing" : "");
}

static void differs(const struct answer *a, struct twigmantle_report r, const uint8_t *buffer, size_t room)
{
    size_t at = difference(buffer, room, a);
    printf("line %" PRIu64 " differs, with a buffer of %zu bytes\n", turn, room);
    show("the list", a->report);
    show("the call", r);
    if (at < room) {
        show_bytes("the list's text", a->text, at, (size_t)a->report.length);
        show_bytes("the buffer", buffer, at, room);
    } else if (at > room)
        printf("the byte after the buffer was written to\n");
    exit(1);
}

/* Lays out the sheet of one line and compares; gives whether it was laid out. */
static int try(char *line)
{
    size_t n;
    uint8_t *sheet = bytes(field(line), &n);
    size_t room = (size_t)number();
    struct answer a = expected();
    if (a.report.length > room)
        bad_line("a text longer than its buffer");
    uint8_t *buffer = sure(malloc(room + 1));
    memset(buffer, PAINT, room + 1);
    struct twigmantle_report r = twigmantle_layout(sheet, n, buffer, room);
    if (!same(r, a.report) || difference(buffer, room, &a) != room)
        differs(&a, r, buffer, room);
    free(sheet);
    free(a.text);
    free(buffer);
    return r.refusal == 0;
}

int main(void)
{
    char *line = NULL;
    size_t room = 0;
    uint64_t texts = 0;
    while (getline(&line, &room, stdin) > 0) {
        turn++;
        texts += (uint64_t)try(line);
        if (turn % 10000 == 0)
            fprintf(stderr, "%" PRIu64 "\n", turn);
    }
    free(line);
    printf("%" PRIu64 " sheets, %" PRIu64 " texts, %s\n", turn, texts, texts > 0 ? "no difference" : "too few to judge by");
    return texts == 0;
}
