/* Loaded before a program, by LD_PRELOAD: refuses one growth or one start of a thread, and tells what calls took.

   The program writes the name of a call and ": ", makes the call, and writes what it answered. From the one write to
   the other its growths (malloc and realloc) and starts of threads are counted. The environment says which is refused:
   REFUSED_CALL, the number of the call, from 1, and REFUSED_GROWTH or REFUSED_START, a number from 1 in that call. With
   WHOLE_RUN=1 the whole run is one call, of the number 0. Of each call a line goes to the file descriptor TOLD: how
   many growths it asked for, how many starts, how many of these were refused, how many threads were left running, and
   the most bytes that it held beyond those before it.

   A file whose name begins with REFUSED_FILE is not opened: the system has no memory for it. */
typedef unsigned long size;
extern void *__libc_malloc(size), *__libc_realloc(void *, size), __libc_free(void *);
extern size malloc_usable_size(void *);
extern long syscall(long, ...);
extern void *dlsym(void *, const char *);
extern char *getenv(const char *);
extern long atol(const char *);
extern int usleep(unsigned);
extern size strlen(const char *);
extern char *strrchr(const char *, int);
extern int strncmp(const char *, const char *, size);
extern int dprintf(int, const char *, ...);
extern int *__errno_location(void);

enum { WRITE = 1, OPEN = 2, EXIT_GROUP = 231, OUTPUT = 1, NO_MEMORY = 12, TRY_AGAIN = 11, LONGEST_WAIT = 2000 };

static long whole_run, refused_call, refused_growth, refused_start, told;
static _Atomic long is_open, calls, growths, starts, refusals, running, held, before, most;

static long asked(const char *name)
{
    const char *text = getenv(name);
    return text ? atol(text) : 0;
}

__attribute__((constructor)) static void begin(void)
{
    refused_call = asked("REFUSED_CALL");
    refused_growth = asked("REFUSED_GROWTH");
    refused_start = asked("REFUSED_START");
    told = asked("TOLD");
    is_open = whole_run = asked("WHOLE_RUN");
}

static int is_refused(_Atomic long *count, long number)
{
    if (!is_open || ++*count != number || calls != refused_call)
        return 0;
    refusals++;
    return 1;
}

static void hold(void *block)
{
    long now = held += malloc_usable_size(block);
    __c11_atomic_fetch_max(&most, now, __ATOMIC_SEQ_CST);
}

void *malloc(size n)
{
    void *block;
    if (is_refused(&growths, refused_growth)) {
        *__errno_location() = NO_MEMORY;
        return 0;
    }
    block = __libc_malloc(n);
    hold(block);
    return block;
}

void *realloc(void *old, size n)
{
    void *block;
    size had = malloc_usable_size(old);
    if (is_refused(&growths, refused_growth)) {
        *__errno_location() = NO_MEMORY;
        return 0;
    }
    block = __libc_realloc(old, n);
    if (block) {
        held -= had;
        hold(block);
    }
    return block;
}

void free(void *block)
{
    held -= malloc_usable_size(block);
    __libc_free(block);
}

struct task {
    void *(*work)(void *);
    void *of;
};

static void *run(void *given)
{
    struct task task = *(struct task *)given;
    void *result;
    __libc_free(given);
    result = task.work(task.of);
    running--;
    return result;
}

int pthread_create(void *thread, const void *how, void *(*work)(void *), void *of)
{
    int (*create)(void *, const void *, void *(*)(void *), void *) = dlsym((void *)-1L, "pthread_create");
    struct task *task;
    int status;
    if (is_refused(&starts, refused_start))
        return TRY_AGAIN;
    task = __libc_malloc(sizeof *task);
    task->work = work;
    task->of = of;
    running++;
    status = create(thread, how, run, task);
    if (status) {
        running--;
        __libc_free(task);
    }
    return status;
}

static void open_call(void)
{
    calls++;
    growths = starts = refusals = 0;
    before = most = held;
    is_open = 1;
}

static void close_call(void)
{
    int wait;
    is_open = 0;
    /* A thread that has done its work may have to take its last instructions. */
    for (wait = 0; running && wait < LONGEST_WAIT; wait++)
        usleep(1000);
    if (told)
        dprintf(told, "%ld %ld %ld %ld %ld\n", growths, starts, refusals, running, most - before);
}

__attribute__((destructor)) static void end(void)
{
    if (whole_run && is_open)
        close_call();
}

/* A program may end without its destructors. */
void _exit(int status)
{
    end();
    for (;;)
        syscall(EXIT_GROUP, status);
}

long write(int to, const char *bytes, size n)
{
    if (whole_run || to != OUTPUT)
        ;
    else if (is_open)
        close_call();
    else if (n >= 2 && bytes[n - 2] == ':' && bytes[n - 1] == ' ')
        open_call();
    return syscall(WRITE, to, bytes, n);
}

long __write(int to, const char *bytes, size n)
{
    return write(to, bytes, n);
}

int open(const char *name, int flags, unsigned mode)
{
    const char *refused = getenv("REFUSED_FILE"), *last = strrchr(name, '/');
    if (refused && !strncmp(last ? last + 1 : name, refused, strlen(refused))) {
        *__errno_location() = NO_MEMORY;
        return -1;
    }
    return syscall(OPEN, name, flags, mode);
}
