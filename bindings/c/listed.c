/* Prints the canonical text of a manifest, completed by a list of files in place of a folder, as that of an archive. The
   word is the path of the manifest, and standard input has the files next to it, a path on each line, as `src/lib.rs`. */
#include "cargo_manifest.h"

#include <stdio.h>
#include <stdlib.h>
#include <string.h>

/* No text is as long that a person wrote the manifest of. */
#define MOST ((size_t)1 << 26)

static const struct manifest_bytes HERE = {(const uint8_t *)".", 1}, MANIFEST = {(const uint8_t *)"Cargo.toml", 10};

/* A name, and the folder that it stands in. */
struct entry {
    struct manifest_bytes folder;
    struct manifest_bytes name;
};

/* Ends the program with one line on standard error. */
static void stop(const char *line, int status)
{
    fprintf(stderr, "%s\n", line);
    exit(status);
}

/* Memory for this many items. */
static void *room_for(size_t count, size_t size)
{
    void *room = calloc(count, size);
    if (!room)
        stop("error: memory", 1);
    return room;
}

/* All that a file holds. */
static struct manifest_bytes read_all(FILE *file)
{
    size_t length = 0, room = 4096;
    uint8_t *bytes = room_for(room, 1);
    while ((length += fread(bytes + length, 1, room - length, file)) == room) {
        uint8_t *more = realloc(bytes, room *= 2);
        if (!more)
            stop("error: memory", 1);
        bytes = more;
    }
    if (ferror(file))
        stop("error: io", 1);
    struct manifest_bytes all = {bytes, length};
    return all;
}

/* Whether a text goes before another (less than 0), after it, or is the same (0), in the order of bytes. */
static int order(struct manifest_bytes left, struct manifest_bytes right)
{
    int first = memcmp(left.at, right.at, left.length < right.length ? left.length : right.length);
    return first ? first : (left.length > right.length) - (left.length < right.length);
}

/* The same for entries: by their folders, and then by their names. */
static int order_of_entries(const void *left, const void *right)
{
    const struct entry *one = left, *other = right;
    int by_folder = order(one->folder, other->folder);
    return by_folder ? by_folder : order(one->name, other->name);
}

/* Puts a file into its folder, that folder into its own, and so on up to `.`, and answers the end of the entries. */
static struct entry *put(struct entry *end, struct manifest_bytes path)
{
    do {
        size_t name = path.length;
        while (name > 0 && path.at[name - 1] != '/')
            name--;
        struct manifest_bytes folder = {path.at, name - (name > 0)};
        end->folder = name > 0 ? folder : HERE;
        end->name.at = path.at + name;
        end->name.length = path.length - name;
        path = end++->folder;
    } while (order(path, HERE));
    return end;
}

/* The entries of a list of files and of the manifest, in their order, and how many they are. */
static struct entry *entries_of(struct manifest_bytes files, size_t *count)
{
    size_t most = 2;
    for (size_t i = 0; i < files.length; i++)
        most += files.at[i] == '\n' || files.at[i] == '/';
    struct entry *entries = room_for(most, sizeof *entries), *end = put(entries, MANIFEST);
    struct manifest_bytes path = files;
    for (size_t left = files.length; left > 0; left = files.at + files.length - path.at) {
        const uint8_t *line_end = memchr(path.at, '\n', left);
        path.length = line_end ? (size_t)(line_end - path.at) : left;
        end = put(end, path);
        path.at += path.length + (line_end != NULL);
    }
    *count = end - entries;
    qsort(entries, *count, sizeof *entries, order_of_entries);
    return entries;
}

/* Makes the folders of the entries, with their names at `names`, each once. Answers how many folders there are. */
static size_t make_folders(const struct entry *entries, size_t count, struct manifest_bytes *names,
                           struct manifest_folder *folders)
{
    size_t made = 0;
    for (size_t i = 0; i < count; i++) {
        if (i > 0 && !order_of_entries(&entries[i - 1], &entries[i]))
            continue;
        if (i == 0 || order(entries[i - 1].folder, entries[i].folder)) {
            struct manifest_folder folder = {entries[i].folder, {names, 0}, MANIFEST_NO_FAULT};
            folders[made++] = folder;
        }
        *names++ = entries[i].name;
        folders[made - 1].names.length++;
    }
    return made;
}

/* Says why there is no text. */
static void print_refusal(struct manifest_answer answer, const uint8_t *out)
{
    static const char *const causes[] = {"", "wrong kind", "missing", "two spellings", "not a choice", "out of range",
                                         "not true", "holds a float", "metadata"};
    static const char *const faults[] = {"", "not found", "out of memory", "a fault"};
    const char *text = (const char *)out;
    int length = (int)answer.length;
    if (answer.status == MANIFEST_NO_TOML)
        fprintf(stderr, "error: toml: %.*s at byte %zu\n", length, text, answer.start);
    else if (answer.status == MANIFEST_SCHEMA)
        fprintf(stderr, "error: schema: %s at %.*s\n", causes[answer.cause], length, text);
    else if (answer.status == MANIFEST_IO)
        fprintf(stderr, "error: io: %s\n", faults[answer.cause]);
    else if (answer.status == MANIFEST_NOT_UTF8)
        fputs("error: utf8\n", stderr);
    else if (answer.status == MANIFEST_MEMORY)
        fputs("error: memory\n", stderr);
    else if (answer.status == MANIFEST_LISTINGS)
        fputs("error: the list of files is not UTF-8\n", stderr);
    else if (answer.status == MANIFEST_TOO_DEEP)
        fputs("error: too deep\n", stderr);
    else if (answer.status == MANIFEST_TOO_LONG)
        fputs("error: too long\n", stderr);
    else
        fprintf(stderr, "error: %.*s\n", length, text);
}

/* Prints the manifest, completed over the folders, or why it is not, and answers the status of the program. */
static int print_completed(struct manifest_bytes manifest, const struct manifest_folder *folders, size_t count)
{
    struct manifest_answer answer;
    uint8_t *out = NULL;
    size_t room = 0;
    /* (the first call says how long the text is) */
    while ((answer = manifest_completed(manifest.at, manifest.length, folders, count, MOST, out, room)).length > room) {
        free(out);
        room = answer.length;
        out = room_for(room, 1);
    }
    int status = answer.status != MANIFEST_ACCEPTED;
    if (status)
        print_refusal(answer, out);
    else if (fwrite(out, 1, answer.length, stdout) < answer.length || fflush(stdout))
        stop("error: io", 1);
    free(out);
    return status;
}

int main(int count, char **words)
{
    if (count != 2)
        stop("usage: listed FILE < FILES", 2);
    FILE *file = fopen(words[1], "rb");
    if (!file)
        stop("error: io", 1);
    struct manifest_bytes manifest = read_all(file), files = read_all(stdin);
    fclose(file);

    size_t length;
    struct entry *entries = entries_of(files, &length);
    struct manifest_bytes *names = room_for(length, sizeof *names);
    struct manifest_folder *folders = room_for(length, sizeof *folders);
    int status = print_completed(manifest, folders, make_folders(entries, length, names, folders));
    free(folders);
    free(names);
    free(entries);
    free((void *)files.at);
    free((void *)manifest.at);
    return status;
}
