/* Loads a shared library while it runs, as Python does, and prints the canonical text of the manifest on standard input by
   it; the status is 1 where there is none, and standard error has the text of the refusal then. Four threads make the call,
   three of which began before the library was loaded, and all have to give the same.

       loaded LIBRARY */
#include <dlfcn.h>
#include <pthread.h>
#include <stdio.h>
#include <string.h>

#include "../../bindings/c/cargo_manifest.h"

enum { THREADS = 4, ROOM = 4096 };

typedef struct manifest_answer run(struct manifest_request, uint8_t *, size_t);

struct answered {
    struct manifest_answer answer;
    uint8_t out[ROOM];
};

static uint8_t bytes[ROOM];
static size_t length;
static struct answered answers[THREADS];
static run *call;
static pthread_mutex_t loading = PTHREAD_MUTEX_INITIALIZER;

static void *answer_in_thread(void *answered)
{
    struct answered *own = answered;
    pthread_mutex_lock(&loading);
    pthread_mutex_unlock(&loading);
    struct manifest_request request = {{bytes, length}, {0, 0}, {0, 0}, SIZE_MAX, MANIFEST_OF_TEXT, MANIFEST_AS_TEXT, 0, 0};
    own->answer = call(request, own->out, sizeof own->out);
    return 0;
}

static int load(const char *library)
{
    void *loaded = dlopen(library, RTLD_NOW | RTLD_LOCAL), *found = loaded ? dlsym(loaded, "manifest_run") : 0;
    if (!found) {
        fprintf(stderr, "%s\n", dlerror());
        return 0;
    }
    memcpy(&call, &found, sizeof call);
    return 1;
}

static int is_same(const struct answered *one, const struct answered *other)
{
    return one->answer.status == other->answer.status && one->answer.length == other->answer.length
           && memcmp(one->out, other->out, sizeof one->out) == 0;
}

int main(int count, char **words)
{
    pthread_t threads[THREADS];
    length = fread(bytes, 1, sizeof bytes, stdin);
    pthread_mutex_lock(&loading);
    for (int number = 0; number < THREADS - 1; number++)
        if (pthread_create(&threads[number], 0, answer_in_thread, &answers[number]) != 0)
            return 2;
    if (count != 2 || !load(words[1]))
        return 2;
    pthread_mutex_unlock(&loading);
    answer_in_thread(&answers[THREADS - 1]);
    for (int number = 0; number < THREADS - 1; number++)
        if (pthread_join(threads[number], 0) != 0 || !is_same(&answers[number], &answers[THREADS - 1]))
            return 2;
    const struct answered *own = &answers[THREADS - 1];
    FILE *to = own->answer.status == MANIFEST_ACCEPTED ? stdout : stderr;
    if (own->answer.length > ROOM || fwrite(own->out, 1, own->answer.length, to) != own->answer.length)
        return 2;
    return own->answer.status != MANIFEST_ACCEPTED;
}
