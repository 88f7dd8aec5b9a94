/* Prints what is wrong with the manifest on standard input, a line for each diagnostic as `7:12: error[unknown-feature]: ..`, and
   below it its second places, its notes and what to write. With the word `--publish` it says also what a registry wants. */
#include "cargo_manifest.h"

#include <stdio.h>
#include <stdlib.h>
#include <string.h>

/* no diagnostics are as long of what a person wrote */
#define MOST ((size_t)1 << 26)

static const char *const LEVELS[] = {"error", "warning", "note"};
static const char *const FILES[] = {"", "of the root, ", "of a member, "};

/* Tagged bytes that are read from the beginning. */
static const uint8_t *at, *end;

/* Ends the program where the bytes are not those that the header describes. */
static void stop(void)
{
    fputs("the library is of another version than the header\n", stderr);
    exit(2);
}

static uint8_t next_byte(void)
{
    if (at == end)
        stop();
    return *at++;
}

/* Groups of seven bits, the lowest first, with 128 added to each but the last. */
static size_t next_number(void)
{
    size_t number = 0;
    for (unsigned bits = 0; bits < 64; bits += 7) {
        uint8_t group = next_byte();
        number |= (size_t)(group & 127) << bits;
        if (group < 128)
            return number;
    }
    stop();
    return 0;
}

/* The number after a tag: the length of a text or of an array, or a whole number. */
static size_t after(uint8_t tag)
{
    if (next_byte() != tag)
        stop();
    return next_number();
}

enum { TEXT = 1, NUMBER = 2, YES = 5, ARRAY = 7 };

static struct manifest_bytes next_text(void)
{
    struct manifest_bytes text;
    text.length = after(TEXT);
    text.at = at;
    if (text.length > (size_t)(end - at))
        stop();
    at += text.length;
    return text;
}

/* A range, and whether there is one. */
struct range {
    int is_there;
    size_t from;
    size_t to;
};

static struct range next_range(void)
{
    struct range range = {after(ARRAY) == 2, 0, 0};
    if (range.is_there) {
        range.from = after(NUMBER);
        range.to = after(NUMBER);
    }
    return range;
}

/* Steps over a value of texts, whole numbers, booleans and arrays. */
static void skip(void)
{
    size_t left = 1;
    while (left-- > 0) {
        if (at < end && *at == TEXT)
            next_text();
        else if (at < end && *at == ARRAY)
            left += after(ARRAY);
        else if (at < end && *at == NUMBER)
            after(NUMBER);
        else
            next_byte();
    }
}

/* Writes a text in one line. No control character of the manifest is passed on to the terminal. */
static void put(struct manifest_bytes text)
{
    for (size_t i = 0; i < text.length; i++)
        if (text.at[i] == '\n')
            fputs("\\n", stdout);
        else
            putchar(text.at[i] < 32 || text.at[i] == 127 ? '?' : text.at[i]);
}

/* Writes where an offset is in the manifest: its line, and its column in characters. A byte order mark is in no column. */
static void put_place(const uint8_t *bytes, size_t offset)
{
    size_t line = 1, column = 1, mark = offset >= 3 && !memcmp(bytes, "\xef\xbb\xbf", 3) ? 3 : 0;
    for (size_t i = mark; i < offset; i++)
        if (bytes[i] == '\n')
            line++, column = 1;
        else
            column += (bytes[i] & 0xc0) != 0x80;
    printf("%zu:%zu: ", line, column);
}

static void put_labels(const uint8_t *bytes)
{
    for (size_t left = after(ARRAY); left > 0; left--) {
        after(ARRAY);
        size_t file = after(NUMBER);
        after(NUMBER);
        struct range range = next_range();
        fputs("  ", stdout);
        if (file == MANIFEST_OF_MANIFEST && range.is_there)
            put_place(bytes, range.from);
        fputs(file < 3 ? FILES[file] : "", stdout);
        put(next_text());
        putchar('\n');
    }
}

static void put_notes(void)
{
    for (size_t left = after(ARRAY); left > 0; left--) {
        fputs("  note: ", stdout);
        put(next_text());
        putchar('\n');
    }
}

static void put_suggestions(const uint8_t *bytes)
{
    for (size_t left = after(ARRAY); left > 0; left--) {
        after(ARRAY);
        fputs("  help: ", stdout);
        put(next_text());
        puts(next_byte() == YES ? " (certain)" : "");
        for (size_t parts = after(ARRAY); parts > 0; parts--) {
            after(ARRAY);
            size_t from = after(NUMBER), to = after(NUMBER);
            fputs("    ", stdout);
            put_place(bytes, from);
            printf("`");
            put((struct manifest_bytes){bytes + from, to - from});
            printf("` to `");
            put(next_text());
            puts("`");
        }
    }
}

/* Writes a diagnostic, and answers whether it is an error. */
static int put_diagnostic(const uint8_t *bytes)
{
    if (after(ARRAY) != 9)
        stop();
    struct manifest_bytes code = next_text();
    size_t level = after(NUMBER);
    struct manifest_bytes message = next_text();
    skip();
    struct range range = next_range();
    skip();
    put_place(bytes, range.from);
    printf("%s[", level < 3 ? LEVELS[level] : "?");
    put(code);
    printf("]: ");
    put(message);
    putchar('\n');
    put_labels(bytes);
    put_notes();
    put_suggestions(bytes);
    return level == MANIFEST_ERROR;
}

int main(int words_length, char **words)
{
    static uint8_t bytes[1 << 20];
    size_t length = fread(bytes, 1, sizeof bytes, stdin);
    if (ferror(stdin) || length == sizeof bytes) {
        fputs("standard input is not read, or has more than a megabyte\n", stderr);
        return 2;
    }
    struct manifest_check_request request = {0};
    request.bytes.at = bytes;
    request.bytes.length = length;
    request.most = MOST;
    request.publishes = words_length == 2 && !strcmp(words[1], "--publish");

    /* how long the diagnostics are, and then these */
    struct manifest_answer answer = manifest_diagnostics(request, NULL, 0);
    size_t room = answer.length;
    uint8_t *out = malloc(room ? room : 1);
    if (!out)
        return 2;
    answer = manifest_diagnostics(request, out, room);
    if (answer.status != MANIFEST_ACCEPTED || answer.length > room) {
        fprintf(stderr, "status %d\n", answer.status);
        free(out);
        return 2;
    }
    at = out;
    end = out + answer.length;
    int has_error = 0;
    for (size_t left = after(ARRAY); left > 0; left--)
        has_error |= put_diagnostic(bytes);
    int is_whole = at == end;
    free(out);
    return is_whole && !fflush(stdout) ? has_error : 2;
}
