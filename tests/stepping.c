/* Preloaded into a program: its clock goes on by steps, and can be put back.
 *
 * With STEP, a number of seconds, a sleep of a second or more takes a hundredth of one, and the clock
 * goes on by so many seconds in it, and by nothing else, so that a slow machine loses no minute. With
 * PATIENT too, it goes on once no child of the program is left and all its threads sleep. SHIFT names
 * a file with a number of seconds that are added to the clock; it may be absent. What the program
 * starts isn't meddled with.
 */
#define _GNU_SOURCE
#include <dirent.h>
#include <dlfcn.h>
#include <fcntl.h>
#include <stdatomic.h>
#include <stdio.h>
#include <stdlib.h>
#include <string.h>
#include <sys/wait.h>
#include <time.h>
#include <unistd.h>

static long step;
static int is_patient;
static char shift_file[4096];
static struct timespec begun;
static atomic_long stepped;

__attribute__((constructor)) static void begin(void) {
    const char *asked = getenv("STEP");
    const char *file = getenv("SHIFT");
    if (asked && clock_gettime(CLOCK_REALTIME, &begun) == 0)
        step = atol(asked);
    is_patient = getenv("PATIENT") != NULL;
    if (file && strlen(file) < sizeof shift_file)
        strcpy(shift_file, file);
    unsetenv("LD_PRELOAD");
    unsetenv("STEP");
    unsetenv("PATIENT");
    unsetenv("SHIFT");
}

static void *next(const char *name) { return dlsym(RTLD_NEXT, name); }

/* The seconds in the file of shifts. */
static long shift(void) {
    char text[32] = "";
    int file = shift_file[0] ? open(shift_file, O_RDONLY | O_CLOEXEC) : -1;
    if (file < 0)
        return 0;
    if (read(file, text, sizeof text - 1) < 0)
        text[0] = 0;
    close(file);
    return atol(text);
}

int clock_gettime(clockid_t clock, struct timespec *now) {
    int (*real)(clockid_t, struct timespec *) = next("clock_gettime");
    int done = real(clock, now);
    if (done != 0 || clock != CLOCK_REALTIME)
        return done;
    if (step != 0)
        *now = begun;
    now->tv_sec += stepped + shift();
    return 0;
}

static int has_child(void) {
    siginfo_t child;
    return waitid(P_ALL, 0, &child, WEXITED | WNOHANG | WNOWAIT) == 0;
}

/* Whether the thread of a number does anything but sleep; one that is gone doesn't. */
static int is_awake(const char *thread) {
    char path[64], text[512] = "";
    snprintf(path, sizeof path, "/proc/self/task/%s/stat", thread);
    int file = open(path, O_RDONLY | O_CLOEXEC);
    if (file < 0)
        return 0;
    ssize_t length = read(file, text, sizeof text - 1);
    close(file);
    const char *state = length > 0 ? strrchr(text, ')') : NULL;
    return state && state[2] != 'S';
}

static int has_other_awake(void) {
    DIR *threads = opendir("/proc/self/task");
    int found = 0;
    for (struct dirent *it; threads && (it = readdir(threads));)
        found |= it->d_name[0] != '.' && atoi(it->d_name) != gettid() && is_awake(it->d_name);
    if (threads)
        closedir(threads);
    return found;
}

int clock_nanosleep(clockid_t clock, int flags, const struct timespec *time, struct timespec *left) {
    int (*real)(clockid_t, int, const struct timespec *, struct timespec *) = next("clock_nanosleep");
    static const struct timespec moment = {0, 10000000}, instant = {0, 2000000};
    if (step == 0 || flags != 0 || time->tv_sec < 1)
        return real(clock, flags, time, left);
    // (a thread that is asleep now has nothing to start, or waits for its child)
    while (is_patient && (has_child() || has_other_awake() || has_child()))
        real(clock, 0, &instant, left);
    atomic_fetch_add(&stepped, step);
    return real(clock, 0, is_patient ? &instant : &moment, left);
}

int nanosleep(const struct timespec *time, struct timespec *left) {
    return clock_nanosleep(CLOCK_MONOTONIC, 0, time, left);
}
