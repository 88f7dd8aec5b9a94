// Preloaded into a program, it makes the program's streams fail, by environment variables that hold numbers:
//
//     STREAMS_MOST       how many bytes a read of standard input and a write to standard output take at a time, at most
//     STREAMS_READS      how many reads of standard input there are before each one fails
//     STREAMS_WRITES     how many writes to standard output there are before each one fails
//     STREAMS_ROOM       how many bytes standard output takes before it takes none, without a failure
//     STREAMS_TURNS      where it is 1, each second of these calls is interrupted
//     STREAMS_SILENT     where it is 1, each write to standard error fails
//
// What is not set is without a bound. The system's calls are made by their numbers on x86-64. It takes no header: the toolchain's
// compiler has none.
typedef __SIZE_TYPE__ size_t;

char *getenv(const char *);
long atol(const char *);
long syscall(long, ...);
int *__errno_location(void);

enum { READ = 0, WRITE = 1, INPUT = 0, OUTPUT = 1, ERRORS = 2, INTERRUPTED = 4, FAILED = 5 }; // calls, streams, EINTR, EIO

static long bound(const char *name)
{
    const char *number = getenv(name);
    return number ? atol(number) : 1L << 62;
}

static long fail(int cause)
{
    *__errno_location() = cause;
    return -1;
}

// Whether this call of a stream is interrupted: its first, its third, and so on.
static int turns(int *is_interrupted)
{
    const char *set = getenv("STREAMS_TURNS");
    if (!set || *set != '1')
        return 0;
    *is_interrupted = !*is_interrupted;
    return *is_interrupted;
}

static size_t least(size_t size, long most)
{
    return (long)size < most ? size : (size_t)most;
}

long read(int stream, void *bytes, size_t size)
{
    static long reads;
    static int is_interrupted;
    if (stream != INPUT)
        return syscall(READ, stream, bytes, size);
    if (turns(&is_interrupted))
        return fail(INTERRUPTED);
    if (reads++ >= bound("STREAMS_READS"))
        return fail(FAILED);
    return syscall(READ, stream, bytes, least(size, bound("STREAMS_MOST")));
}

long write(int stream, const void *bytes, size_t size)
{
    static long writes, taken;
    static int is_interrupted;
    if (stream == ERRORS && bound("STREAMS_SILENT") == 1)
        return fail(FAILED);
    if (stream != OUTPUT)
        return syscall(WRITE, stream, bytes, size);
    if (turns(&is_interrupted))
        return fail(INTERRUPTED);
    if (writes++ >= bound("STREAMS_WRITES"))
        return fail(FAILED);
    size = least(least(size, bound("STREAMS_MOST")), bound("STREAMS_ROOM") - taken);
    long done = size ? syscall(WRITE, stream, bytes, size) : 0;
    taken += done > 0 ? done : 0;
    return done;
}
