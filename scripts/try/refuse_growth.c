// Preloaded into a program, it refuses the program one growth: the n-th call of malloc, calloc, realloc, aligned_alloc
// or posix_memalign fails as out of memory, where n is the number that the environment variable REFUSE_GROWTH holds. It then
// makes the file that REFUSE_GROWTH_TOLD names, so that it is known whether the run came as far as that call.
//
// It takes no header: the toolchain's compiler has none.
typedef __SIZE_TYPE__ size_t;

void *__libc_malloc(size_t);
void *__libc_calloc(size_t, size_t);
void *__libc_realloc(void *, size_t);
void *__libc_memalign(size_t, size_t);
char *getenv(const char *);
long atol(const char *);
int open(const char *, int, ...);
int close(int);
int *__errno_location(void);

enum { NO_MEMORY = 12, TO_WRITE = 01, TO_MAKE = 0100 }; // ENOMEM, O_WRONLY, O_CREAT

static long refused; // the number of the call to refuse, or 0 for none
static long calls;
static const char *told;

__attribute__((constructor)) static void begin(void)
{
    const char *number = getenv("REFUSE_GROWTH");
    told = getenv("REFUSE_GROWTH_TOLD");
    refused = number && told ? atol(number) : 0;
    calls = 0;
}

static int refuses(void)
{
    if (refused == 0 || ++calls != refused)
        return 0;
    int file = open(told, TO_WRITE | TO_MAKE, 0600);
    if (file >= 0)
        close(file);
    *__errno_location() = NO_MEMORY;
    return 1;
}

void *malloc(size_t size)
{
    return refuses() ? 0 : __libc_malloc(size);
}

void *calloc(size_t count, size_t size)
{
    return refuses() ? 0 : __libc_calloc(count, size);
}

void *realloc(void *old, size_t size)
{
    return refuses() ? 0 : __libc_realloc(old, size);
}

void *aligned_alloc(size_t alignment, size_t size)
{
    return refuses() ? 0 : __libc_memalign(alignment, size);
}

int posix_memalign(void **made, size_t alignment, size_t size)
{
    void *found = refuses() ? 0 : __libc_memalign(alignment, size);
    if (!found)
        return NO_MEMORY;
    *made = found;
    return 0;
}
