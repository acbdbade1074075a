/* Preloaded into a program, refuses its allocation number REFUSE, counted from 1 over all threads (0:
   none), if it is compiled with REFUSE_ALLOCATIONS, or each thread, with REFUSE_THREADS. If file
   descriptor 9 is open, it tells there how many of them were asked for. */
#include <errno.h>
#include <pthread.h>
#include <stdio.h>
#include <stdlib.h>
#include <sys/syscall.h>
#include <unistd.h>

static unsigned long asked;

__attribute__((destructor)) static void end(void)
{
    dprintf(9, "%lu\n", asked);
}

/* Programs that may have threads end so, and then no destructor runs. */
void _exit(int status)
{
    end();
    for (;;)
        syscall(SYS_exit_group, status);
}

#ifdef REFUSE_THREADS
int pthread_create(pthread_t *thread, const pthread_attr_t *attributes, void *(*start)(void *),
                   void *argument)
{
    (void)thread, (void)attributes, (void)start, (void)argument;
    __atomic_add_fetch(&asked, 1, __ATOMIC_RELAXED);
    return EAGAIN;
}
#endif

#ifdef REFUSE_ALLOCATIONS
void *__libc_malloc(size_t size);
void *__libc_realloc(void *old, size_t size);

static unsigned long refused;

__attribute__((constructor)) static void begin(void)
{
    const char *number = getenv("REFUSE");
    refused = number ? strtoul(number, NULL, 10) : 0;
    asked = 0;
}

static int is_refused(void)
{
    return __atomic_add_fetch(&asked, 1, __ATOMIC_RELAXED) == refused;
}

void *malloc(size_t size)
{
    if (is_refused()) {
        errno = ENOMEM;
        return NULL;
    }
    return __libc_malloc(size);
}

void *realloc(void *old, size_t size)
{
    if (is_refused()) {
        errno = ENOMEM;
        return NULL;
    }
    return __libc_realloc(old, size);
}
#endif
