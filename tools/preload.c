// malloc, realloc, free and pthread_create, put before those of the C library by LD_PRELOAD: it counts calls and what is held,
// and refuses one of them. REFUSE names a kind, `allocation` (malloc and realloc, by which vectors and texts grow) or `thread`.
// The call of number FAIL_AT among those of that kind fails, and the file TELL then says so; what a refused realloc was to
// move stays as it is. Without FAIL_AT the file has three numbers at the end of the program: the calls of that kind, the most
// bytes that were held at once, as they were asked for, and the blocks that are held still. With IN_TURN a thread begins when
// it is joined, so that threads run one after another.
#define _GNU_SOURCE
#include <dlfcn.h>
#include <errno.h>
#include <fcntl.h>
#include <pthread.h>
#include <semaphore.h>
#include <stdio.h>
#include <stdlib.h>
#include <string.h>
#include <sys/syscall.h>
#include <unistd.h>

enum kind { NONE, ALLOCATION, THREAD };

// What stands before each block; no block that others made has this mark, since the size of a chunk stands there.
struct head {
    size_t size;
    size_t mark;
};
static const size_t MARK = 0x6f6c61702d626c6b;

static enum kind refused;
static long calls, fail_at, held, most, blocks;
static void *(*next_malloc)(size_t);
static void *(*next_realloc)(void *, size_t);
static void (*next_free)(void *);
static int (*next_create)(pthread_t *, const pthread_attr_t *, void *(*)(void *), void *);
static int (*next_join)(pthread_t, void **);

static int (*next_detach)(pthread_t);

// A thread that begins when it is joined.
struct waiting {
    void *(*start)(void *);
    void *with;
    pthread_t thread;
    sem_t wanted;
    struct waiting *older;
};
static int in_turn;
static struct waiting *youngest;
static pthread_mutex_t list = PTHREAD_MUTEX_INITIALIZER;

static void tell(const char *text, int length)
{
    int file = open(getenv("TELL"), O_WRONLY | O_CREAT | O_TRUNC, 0600);
    if (file < 0 || write(file, text, length) != length)
        syscall(SYS_exit_group, 99);
    close(file);
}

static void tell_counts(void)
{
    char text[96];
    tell(text, snprintf(text, sizeof text, "%ld %ld %ld", calls, most, blocks));
}

void _exit(int status)
{
    // a program may end here and run nothing that waits for its exit
    if (refused && !fail_at)
        tell_counts();
    syscall(SYS_exit_group, status);
    __builtin_unreachable();
}

// (at the start of the program, or at a call before that)
__attribute__((constructor)) static void look_up(void)
{
    if (next_malloc)
        return;
    const char *number = getenv("FAIL_AT"), *kind = getenv("REFUSE");
    next_malloc = dlsym(RTLD_NEXT, "malloc");
    next_realloc = dlsym(RTLD_NEXT, "realloc");
    next_free = dlsym(RTLD_NEXT, "free");
    next_create = dlsym(RTLD_NEXT, "pthread_create");
    next_join = dlsym(RTLD_NEXT, "pthread_join");
    next_detach = dlsym(RTLD_NEXT, "pthread_detach");
    in_turn = getenv("IN_TURN") != NULL;
    fail_at = number ? atol(number) : 0;
    refused = strcmp(kind, "thread") ? ALLOCATION : THREAD;
    if (!number)
        atexit(tell_counts);
}

static int is_refused(enum kind kind)
{
    look_up();
    if (kind != refused || __atomic_add_fetch(&calls, 1, __ATOMIC_SEQ_CST) != fail_at)
        return 0;
    tell("refused", 7);
    return 1;
}

static void count(long bytes, long more)
{
    long now = __atomic_add_fetch(&held, bytes, __ATOMIC_SEQ_CST), before = most;
    while (before < now && !__atomic_compare_exchange_n(&most, &before, now, 0, __ATOMIC_SEQ_CST, __ATOMIC_SEQ_CST))
        ;
    __atomic_add_fetch(&blocks, more, __ATOMIC_SEQ_CST);
}

// The head of a block that was made here, or NULL.
static struct head *head_of(void *block)
{
    struct head *head = (struct head *)block - 1;
    return block && head->mark == MARK ? head : NULL;
}

// The size with that of the head; where there is none so large, one that no block can have.
static size_t with_head(size_t size)
{
    size_t whole;
    return __builtin_add_overflow(size, sizeof(struct head), &whole) ? (size_t)-1 : whole;
}

static void *behind(struct head *head, size_t size)
{
    *head = (struct head){size, MARK};
    return head + 1;
}

void *malloc(size_t size)
{
    struct head *head = is_refused(ALLOCATION) ? NULL : next_malloc(with_head(size));
    if (!head)
        return NULL;
    count(size, 1);
    return behind(head, size);
}

void *realloc(void *block, size_t size)
{
    struct head *head = head_of(block);
    if (!block)
        return malloc(size);
    if (is_refused(ALLOCATION))
        return NULL;
    if (!head)
        return next_realloc(block, size);
    long before = head->size;
    struct head *moved = next_realloc(head, with_head(size));
    if (!moved)
        return NULL;
    count((long)size - before, 0);
    return behind(moved, size);
}

void free(void *block)
{
    struct head *head = head_of(block);
    look_up();
    if (!head) {
        next_free(block);
        return;
    }
    count(-(long)head->size, -1);
    head->mark = 0;
    next_free(head);
}

static void *begin(void *block)
{
    struct waiting *self = block;
    while (sem_wait(&self->wanted))
        ;
    return self->start(self->with);
}

int pthread_create(pthread_t *thread, const pthread_attr_t *how, void *(*start)(void *), void *with)
{
    if (is_refused(THREAD))
        return EAGAIN;
    if (!in_turn)
        return next_create(thread, how, start, with);
    // (it is not counted, and stays)
    struct waiting *self = next_malloc(sizeof *self);
    if (!self)
        return EAGAIN;
    *self = (struct waiting){.start = start, .with = with};
    sem_init(&self->wanted, 0, 0);
    int failed = next_create(thread, how, begin, self);
    if (failed)
        return failed;
    self->thread = *thread;
    pthread_mutex_lock(&list);
    self->older = youngest;
    youngest = self;
    pthread_mutex_unlock(&list);
    return 0;
}

// (the youngest of this number, since an older one has ended)
static void let_begin(pthread_t thread)
{
    look_up();
    pthread_mutex_lock(&list);
    struct waiting *it = youngest;
    while (it && it->thread != thread)
        it = it->older;
    pthread_mutex_unlock(&list);
    if (it)
        sem_post(&it->wanted);
}

int pthread_join(pthread_t thread, void **result)
{
    let_begin(thread);
    return next_join(thread, result);
}

int pthread_detach(pthread_t thread)
{
    let_begin(thread);
    return next_detach(thread);
}
