/* Prints the canonical text of the manifest on standard input, or why it has none. */
#include "cargo_manifest.h"

#include <stdio.h>
#include <stdlib.h>

/* no text is as long that a person wrote the manifest of */
#define MOST ((size_t)1 << 26)

int main(void)
{
    static uint8_t bytes[1 << 20];
    size_t length = fread(bytes, 1, sizeof bytes, stdin);
    if (ferror(stdin) || length == sizeof bytes) {
        fputs("standard input is not read, or has more than a megabyte\n", stderr);
        return 2;
    }

    /* room for most texts; a second call where it is not enough */
    size_t room = 2 * length + 256;
    uint8_t *out = malloc(room);
    if (!out)
        return 2;
    struct manifest_answer answer = manifest_canonical(bytes, length, MOST, out, room);
    if (answer.length > room) {
        free(out);
        room = answer.length;
        out = malloc(room);
        if (!out)
            return 2;
        answer = manifest_canonical(bytes, length, MOST, out, room);
    }

    int is_written = 1;
    if (answer.status == MANIFEST_ACCEPTED)
        is_written = fwrite(out, 1, answer.length, stdout) == answer.length && !fflush(stdout);
    else
        fprintf(stderr, "status %d, cause %d, bytes %zu to %zu: %.*s\n", answer.status, answer.cause, answer.start,
                answer.end, (int)answer.length, (const char *)out);
    free(out);
    return is_written ? answer.status != MANIFEST_ACCEPTED : 2;
}
