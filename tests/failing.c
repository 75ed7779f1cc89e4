/* Preloaded into a program: lets one call of one function of the C library fail, or all from one on.
 *
 * FAILING is `rename 2 28`: the function's name, which of its calls is to fail, from 1 on, and the
 * error's number; `rename -2 28` lets the second fail and each after it. `memory` stands for malloc,
 * calloc and realloc together. A `read` that has to fail with the number 0 reads one byte. FAILED
 * names a file that is made as soon as a call has failed. What the program starts isn't meddled with.
 */
#define _GNU_SOURCE
#include <dlfcn.h>
#include <errno.h>
#include <fcntl.h>
#include <pthread.h>
#include <spawn.h>
#include <stdarg.h>
#include <stdatomic.h>
#include <stddef.h>
#include <stdio.h>
#include <stdlib.h>
#include <string.h>
#include <sys/types.h>
#include <sys/uio.h>
#include <sys/wait.h>
#include <time.h>
#include <unistd.h>

static char wanted[32];
static long which;
static int error;
static char told[4096];
static atomic_long calls;

__attribute__((constructor)) static void begin(void) {
    const char *asked = getenv("FAILING");
    const char *file = getenv("FAILED");
    if (asked && sscanf(asked, "%31s %ld %d", wanted, &which, &error) != 3)
        abort();
    if (file && strlen(file) < sizeof told)
        strcpy(told, file);
    unsetenv("LD_PRELOAD");
    unsetenv("FAILING");
    unsetenv("FAILED");
}

static void *next(const char *name) { return dlsym(RTLD_NEXT, name); }

/* Makes the file that tells of a failure. */
static void tell(void) {
    int (*create)(const char *, int, ...) = next("open");
    int made = create(told, O_WRONLY | O_CREAT, 0600);
    if (made >= 0)
        close(made);
}

/* Whether this call of the function has to fail. */
static int fails(const char *name) {
    long call;
    if (strcmp(wanted, name) != 0)
        return 0;
    call = atomic_fetch_add(&calls, 1) + 1;
    if (call < labs(which) || (call > which && which > 0))
        return 0;
    if (call == labs(which))
        tell();
    errno = error;
    return 1;
}

extern void *__libc_malloc(size_t);
extern void *__libc_calloc(size_t, size_t);
extern void *__libc_realloc(void *, size_t);

void *malloc(size_t size) { return fails("memory") ? NULL : __libc_malloc(size); }

void *calloc(size_t count, size_t size) {
    return fails("memory") ? NULL : __libc_calloc(count, size);
}

void *realloc(void *old, size_t size) {
    return fails("memory") ? NULL : __libc_realloc(old, size);
}

#define CALL(result, name, parameters, arguments, failure)                                         \
    result name parameters {                                                                       \
        result(*real) parameters = next(#name);                                                    \
        return fails(#name) ? failure : real arguments;                                            \
    }

ssize_t read(int file, void *to, size_t size) {
    ssize_t (*real)(int, void *, size_t) = next("read");
    if (!fails("read"))
        return real(file, to, size);
    return error ? -1 : real(file, to, size > 0);
}

CALL(ssize_t, pread64, (int file, void *to, size_t size, off64_t at), (file, to, size, at), -1)
CALL(ssize_t, write, (int file, const void *from, size_t size), (file, from, size), -1)
CALL(ssize_t, writev, (int file, const struct iovec *from, int count), (file, from, count), -1)
CALL(int, fsync, (int file), (file), -1)
CALL(int, fdatasync, (int file), (file), -1)
CALL(int, rename, (const char *from, const char *to), (from, to), -1)
CALL(int, pipe2, (int files[2], int flags), (files, flags), -1)
CALL(pid_t, waitpid, (pid_t of, int *status, int how), (of, status, how), -1)
CALL(int, waitid, (idtype_t kind, id_t of, siginfo_t *said, int how), (kind, of, said, how), -1)
CALL(int, clock_gettime, (clockid_t clock, struct timespec *now), (clock, now), -1)
CALL(int, nanosleep, (const struct timespec *time, struct timespec *left), (time, left), -1)
CALL(int, clock_nanosleep,
     (clockid_t clock, int flags, const struct timespec *time, struct timespec *left),
     (clock, flags, time, left), error)
CALL(int, pthread_create,
     (pthread_t *made, const pthread_attr_t *how, void *(*body)(void *), void *given),
     (made, how, body, given), error)
CALL(int, posix_spawn,
     (pid_t *made, const char *path, const posix_spawn_file_actions_t *files,
      const posix_spawnattr_t *how, char *const words[], char *const environment[]),
     (made, path, files, how, words, environment), error)

#define OPEN(name, parameters, arguments)                                                          \
    int name parameters {                                                                          \
        int(*real) parameters = next(#name);                                                       \
        mode_t mode = 0;                                                                           \
        va_list more;                                                                              \
        va_start(more, flags);                                                                     \
        if (flags & (O_CREAT | O_TMPFILE))                                                         \
            mode = va_arg(more, mode_t);                                                           \
        va_end(more);                                                                              \
        return fails("open") ? -1 : real arguments;                                                \
    }

OPEN(open, (const char *path, int flags, ...), (path, flags, mode))
OPEN(open64, (const char *path, int flags, ...), (path, flags, mode))
OPEN(openat, (int folder, const char *path, int flags, ...), (folder, path, flags, mode))
OPEN(openat64, (int folder, const char *path, int flags, ...), (folder, path, flags, mode))
