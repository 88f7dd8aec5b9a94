// Takes the time, and the memory, of the steps of crate_steps, as __init__.py says:
//
//     speed time FILE CALLS TURNS              toml alone, from_slice, from_slice with a text, and toml with inspect
//     speed complete FILE NAMES CALLS TURNS    a completion, with `src/bin` listing the lines of NAMES
//     speed once STEP CALLS FILE [NAMES]       a step by itself
//
// A time is one of TURNS, each that of CALLS calls over CALLS. crate.rs answers the same words. It takes no header: the
// toolchain's compiler has none.
typedef __SIZE_TYPE__ size_t;
struct time {
    long seconds, nanoseconds;
};
struct bytes {
    unsigned char *front;
    size_t length;
};

size_t manifest_speed_toml(const unsigned char *, size_t);
_Bool manifest_speed_read(const unsigned char *, size_t);
size_t manifest_speed_rewrite(const unsigned char *, size_t);
size_t manifest_speed_inspect(const unsigned char *, size_t);
size_t manifest_speed_prepare(const unsigned char *, size_t, const unsigned char *, size_t);
size_t manifest_speed_complete(const unsigned char *, size_t, const unsigned char *, size_t);
int atoi(const char *);
int clock_gettime(int, struct time *);
void exit(int);
int open(const char *, int, ...);
int printf(const char *, ...);
long read(int, void *, size_t);
void *malloc(size_t);
void qsort(void *, size_t, size_t, int (*)(const void *, const void *));
int strcmp(const char *, const char *);
char *strstr(const char *, const char *);

enum { ROOM = 1 << 26, MOST = 10000, STEADY_CLOCK = 1 };
enum step { TOML, READ, REWRITE, INSPECT, PREPARE, COMPLETE, STEPS };

static const char *const names[STEPS] = {"toml", "from_slice", "text", "inspect", "prepared", "completed"};
static double taken[STEPS][MOST];
static struct bytes manifest, listed;

static void refuse(const char *why)
{
    printf("speed: %s\n", why);
    exit(1);
}

static double now(void)
{
    struct time time;
    clock_gettime(STEADY_CLOCK, &time);
    return (double)time.seconds * 1e9 + (double)time.nanoseconds;
}

static struct bytes contents(const char *name)
{
    int file = open(name, 0);
    struct bytes bytes = {malloc(ROOM), 0};
    if (file < 0 || !bytes.front)
        refuse("a file does not open");
    for (long more; bytes.length < ROOM && (more = read(file, bytes.front + bytes.length, ROOM - bytes.length)) > 0;)
        bytes.length += (size_t)more;
    if (bytes.length == ROOM)
        refuse("a file is too large");
    return bytes;
}

static size_t answer(enum step step)
{
    switch (step) {
    case TOML:
        return manifest_speed_toml(manifest.front, manifest.length);
    case READ:
        return manifest_speed_read(manifest.front, manifest.length);
    case REWRITE:
        return manifest_speed_rewrite(manifest.front, manifest.length);
    case INSPECT:
        return manifest_speed_inspect(manifest.front, manifest.length);
    case PREPARE:
        return manifest_speed_prepare(manifest.front, manifest.length, listed.front, listed.length);
    default:
        return manifest_speed_complete(manifest.front, manifest.length, listed.front, listed.length);
    }
}

static int order(const void *a, const void *b)
{
    double x = *(const double *)a, y = *(const double *)b;
    return (x > y) - (x < y);
}

// Takes the steps from the first to the last by turns, and prints their times.
static void take(enum step first, enum step last, int calls, int turns)
{
    size_t answers[STEPS];
    if (calls < 1 || turns < 1 || turns > MOST)
        refuse("there is at least one call, and at least one turn and at most 10000");
    for (int turn = 0; turn < turns; turn++) {
        for (enum step step = first; step <= last; step++) {
            double began = now();
            for (int call = 0; call < calls; call++)
                if (!(answers[step] = answer(step)))
                    refuse("a step refuses");
            taken[step][turn] = (now() - began) / calls;
        }
    }
    for (enum step step = first; step <= last; step++) {
        qsort(taken[step], (size_t)turns, sizeof(double), order);
        printf("%s %.1f %.1f %zu\n", names[step], taken[step][0], taken[step][turns / 2], answers[step]);
    }
}

// The most memory that this process has had, in kB.
static int peak(void)
{
    static char status[1 << 13];
    int file = open("/proc/self/status", 0);
    if (file < 0 || read(file, status, sizeof status - 1) < 0 || !strstr(status, "VmHWM:"))
        refuse("there is no /proc/self/status");
    return atoi(strstr(status, "VmHWM:") + 6);
}

// Takes one step this many times, and prints the peak of memory.
static void once(const char *name, int calls)
{
    enum step step = TOML;
    int takes_none = !strcmp(name, "nothing");
    while (!takes_none && strcmp(name, names[step]))
        if (++step == STEPS)
            refuse("there is no such step");
    for (int call = 0; call < calls; call++)
        if (!takes_none && !answer(step))
            refuse("a step refuses");
    printf("peak %d\n", peak());
}

int main(int count, char **words)
{
    if (count == 5 && !strcmp(words[1], "time")) {
        manifest = contents(words[2]);
        take(TOML, INSPECT, atoi(words[3]), atoi(words[4]));
    } else if (count == 6 && !strcmp(words[1], "complete")) {
        manifest = contents(words[2]);
        listed = contents(words[3]);
        take(PREPARE, COMPLETE, atoi(words[4]), atoi(words[5]));
    } else if ((count == 5 || count == 6) && !strcmp(words[1], "once")) {
        manifest = contents(words[4]);
        if (count == 6)
            listed = contents(words[5]);
        once(words[2], atoi(words[3]));
    } else {
        refuse("usage: speed time FILE CALLS TURNS | complete FILE NAMES CALLS TURNS | once STEP CALLS FILE [NAMES]");
    }
    return 0;
}
