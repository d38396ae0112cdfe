/* Functions of C's and POSIX's libraries, for programs that call them: haft-cc adds those that are called. Each does what its standard says,
 * in the C locale. Waiting is a loop, since a schedule gives each thread its turns. */
#include <pthread.h>
#include <semaphore.h>
#include <stdatomic.h>
#include <stddef.h>
#include <stdint.h>
#include <stdlib.h>

int putchar(int c);

void *memcpy(void *restrict to, const void *restrict from, size_t size) {
    for (size_t k = 0; k < size; k++)
        ((char *)to)[k] = ((const char *)from)[k];
    return to;
}

void *memmove(void *to, const void *from, size_t size) {
    char *t = to;
    const char *f = from;
    if ((uintptr_t)t <= (uintptr_t)f)
        for (size_t k = 0; k < size; k++)
            t[k] = f[k];
    else
        for (size_t k = size; k > 0; k--)
            t[k - 1] = f[k - 1];
    return to;
}

void *memset(void *at, int byte, size_t size) {
    for (size_t k = 0; k < size; k++)
        ((char *)at)[k] = (char)byte;
    return at;
}

int memcmp(const void *a, const void *b, size_t size) {
    const unsigned char *x = a, *y = b;
    for (size_t k = 0; k < size; k++)
        if (x[k] != y[k])
            return x[k] - y[k];
    return 0;
}

int bcmp(const void *a, const void *b, size_t size) {
    return memcmp(a, b, size);
}

void *memchr(const void *at, int byte, size_t size) {
    const unsigned char *p = at;
    for (size_t k = 0; k < size; k++)
        if (p[k] == (unsigned char)byte)
            return (void *)(p + k);
    return NULL;
}

size_t strlen(const char *text) {
    size_t size = 0;
    while (text[size])
        size++;
    return size;
}

size_t strnlen(const char *text, size_t most) {
    size_t size = 0;
    while (size < most && text[size])
        size++;
    return size;
}

int strcmp(const char *a, const char *b) {
    while (*a && *a == *b)
        a++, b++;
    return (unsigned char)*a - (unsigned char)*b;
}

int strncmp(const char *a, const char *b, size_t most) {
    for (; most > 0; most--, a++, b++)
        if (*a != *b || !*a)
            return (unsigned char)*a - (unsigned char)*b;
    return 0;
}

char *stpcpy(char *restrict to, const char *restrict from) {
    while ((*to = *from))
        to++, from++;
    return to;
}

char *strcpy(char *restrict to, const char *restrict from) {
    stpcpy(to, from);
    return to;
}

char *strncpy(char *restrict to, const char *restrict from, size_t size) {
    size_t k = 0;
    for (; k < size && from[k]; k++)
        to[k] = from[k];
    for (; k < size; k++)
        to[k] = 0;
    return to;
}

char *strcat(char *restrict to, const char *restrict from) {
    stpcpy(to + strlen(to), from);
    return to;
}

char *strncat(char *restrict to, const char *restrict from, size_t most) {
    char *end = to + strlen(to);
    for (; most > 0 && *from; most--)
        *end++ = *from++;
    *end = 0;
    return to;
}

char *strchr(const char *text, int c) {
    for (;; text++) {
        if (*text == (char)c)
            return (char *)text;
        if (!*text)
            return NULL;
    }
}

char *strrchr(const char *text, int c) {
    const char *last = NULL;
    for (;; text++) {
        if (*text == (char)c)
            last = text;
        if (!*text)
            return (char *)last;
    }
}

char *strstr(const char *text, const char *part) {
    size_t size = strlen(part);
    for (;; text++) {
        if (strncmp(text, part, size) == 0)
            return (char *)text;
        if (!*text)
            return NULL;
    }
}

int isdigit(int c) { return c >= '0' && c <= '9'; }
int isupper(int c) { return c >= 'A' && c <= 'Z'; }
int islower(int c) { return c >= 'a' && c <= 'z'; }
int isalpha(int c) { return isupper(c) || islower(c); }
int isalnum(int c) { return isalpha(c) || isdigit(c); }
int isxdigit(int c) { return isdigit(c) || (c >= 'A' && c <= 'F') || (c >= 'a' && c <= 'f'); }
int isspace(int c) { return c == ' ' || (c >= '\t' && c <= '\r'); }
int isblank(int c) { return c == ' ' || c == '\t'; }
int isprint(int c) { return c >= ' ' && c <= '~'; }
int isgraph(int c) { return c > ' ' && c <= '~'; }
int ispunct(int c) { return isgraph(c) && !isalnum(c); }
int iscntrl(int c) { return (c >= 0 && c < ' ') || c == 127; }
int toupper(int c) { return islower(c) ? c - 'a' + 'A' : c; }
int tolower(int c) { return isupper(c) ? c - 'A' + 'a' : c; }

int abs(int n) { return n < 0 ? -n : n; }
long labs(long n) { return n < 0 ? -n : n; }
long long llabs(long long n) { return n < 0 ? -n : n; }

int atoi(const char *text) {
    while (isspace((unsigned char)*text))
        text++;
    int minus = *text == '-', value = 0;
    if (*text == '-' || *text == '+')
        text++;
    for (; isdigit((unsigned char)*text); text++)
        value = 10 * value - (*text - '0');
    return minus ? value : -value;
}

long atol(const char *text) {
    while (isspace((unsigned char)*text))
        text++;
    int minus = *text == '-';
    long value = 0;
    if (*text == '-' || *text == '+')
        text++;
    for (; isdigit((unsigned char)*text); text++)
        value = 10 * value - (*text - '0');
    return minus ? value : -value;
}

int puts(const char *text) {
    while (*text)
        putchar((unsigned char)*text++);
    return putchar('\n');
}

void *calloc(size_t count, size_t size) {
    if (size && count > SIZE_MAX / size)
        return NULL;
    char *at = malloc(count * size);
    if (at)
        memset(at, 0, count * size);
    return at;
}

char *strdup(const char *text) {
    size_t size = strlen(text) + 1;
    char *at = malloc(size);
    return at ? memcpy(at, text, size) : NULL;
}

int sched_yield(void) { return 0; }

int pthread_mutex_init(pthread_mutex_t *restrict mutex, const pthread_mutexattr_t *restrict attributes) {
    (void)attributes;
    memset(mutex, 0, sizeof *mutex);
    return 0;
}

int pthread_mutex_destroy(pthread_mutex_t *mutex) {
    (void)mutex;
    return 0;
}

/* A condition is a count of wakings. A thread waits until it has changed; that may wake more than one, as the standard allows. */
static _Atomic unsigned *wakings(pthread_cond_t *condition) {
    return (_Atomic unsigned *)condition;
}

int pthread_cond_init(pthread_cond_t *restrict condition, const pthread_condattr_t *restrict attributes) {
    (void)attributes;
    atomic_store(wakings(condition), 0);
    return 0;
}

int pthread_cond_destroy(pthread_cond_t *condition) {
    (void)condition;
    return 0;
}

int pthread_cond_wait(pthread_cond_t *restrict condition, pthread_mutex_t *restrict mutex) {
    unsigned before = atomic_load(wakings(condition));
    pthread_mutex_unlock(mutex);
    while (atomic_load(wakings(condition)) == before)
        ;
    return pthread_mutex_lock(mutex);
}

int pthread_cond_broadcast(pthread_cond_t *condition) {
    atomic_fetch_add(wakings(condition), 1);
    return 0;
}

int pthread_cond_signal(pthread_cond_t *condition) {
    return pthread_cond_broadcast(condition);
}

static _Atomic unsigned *units(sem_t *semaphore) {
    return (_Atomic unsigned *)semaphore;
}

int sem_init(sem_t *semaphore, int shared, unsigned value) {
    (void)shared;
    atomic_store(units(semaphore), value);
    return 0;
}

int sem_destroy(sem_t *semaphore) {
    (void)semaphore;
    return 0;
}

int sem_post(sem_t *semaphore) {
    atomic_fetch_add(units(semaphore), 1);
    return 0;
}

int sem_wait(sem_t *semaphore) {
    for (;;) {
        unsigned value = atomic_load(units(semaphore));
        if (value > 0 && atomic_compare_exchange_strong(units(semaphore), &value, value - 1))
            return 0;
    }
}

/* A barrier: how many threads it is for, how many have come, and how often it has opened. */
struct haft_barrier {
    _Atomic unsigned wanted, come, opened;
};

int pthread_barrier_init(pthread_barrier_t *restrict barrier, const pthread_barrierattr_t *restrict attributes, unsigned count) {
    struct haft_barrier *b = (struct haft_barrier *)barrier;
    (void)attributes;
    atomic_store(&b->wanted, count);
    atomic_store(&b->come, 0);
    atomic_store(&b->opened, 0);
    return 0;
}

int pthread_barrier_destroy(pthread_barrier_t *barrier) {
    (void)barrier;
    return 0;
}

int pthread_barrier_wait(pthread_barrier_t *barrier) {
    struct haft_barrier *b = (struct haft_barrier *)barrier;
    unsigned before = atomic_load(&b->opened);
    if (atomic_fetch_add(&b->come, 1) + 1 == atomic_load(&b->wanted)) {
        atomic_store(&b->come, 0);
        atomic_fetch_add(&b->opened, 1);
        return PTHREAD_BARRIER_SERIAL_THREAD;
    }
    while (atomic_load(&b->opened) == before)
        ;
    return 0;
}
