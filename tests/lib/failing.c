/* A library to preload: it counts the calls of one sort that a program makes, and lets the one whose number FAILED_CALL
   gives fail, none where that is 0, each where it is -1. FAILED_SORT is `stat` (a file's metadata), `spawn` (a command
   is started), `write` (to a file whose name ends with `record` or `record.new`), `thread` (one is started), or
   `memory` (some is asked for). How many calls there were goes to CALLS_FILE as they come, a byte each. Commands that
   the program starts are left alone. */
#define _GNU_SOURCE
#include <dlfcn.h>
#include <errno.h>
#include <fcntl.h>
#include <pthread.h>
#include <spawn.h>
#include <stdatomic.h>
#include <stdio.h>
#include <stdlib.h>
#include <string.h>
#include <sys/stat.h>
#include <sys/uio.h>
#include <unistd.h>

static atomic_long calls;
static long failing;
static char sort[16], counts[4096];

__attribute__((constructor)) static void begin(void) {
    const char *asked = getenv("FAILED_SORT"), *at = getenv("FAILED_CALL"), *path = getenv("CALLS_FILE");
    snprintf(sort, sizeof sort, "%s", asked ? asked : "");
    snprintf(counts, sizeof counts, "%s", path ? path : "");
    failing = at ? atol(at) : 0;
    unsetenv("LD_PRELOAD");
}

/* Whether this call is of the sort that is counted, and the one that fails. */
static int fails(const char *of) {
    if (strcmp(sort, of) != 0) return 0;
    int file = openat(AT_FDCWD, counts, O_WRONLY | O_CREAT | O_APPEND, 0644);
    if (file >= 0) {
        struct iovec one = {".", 1};
        if (writev(file, &one, 1) < 0) perror(counts);
        close(file);
    }
    return atomic_fetch_add(&calls, 1) + 1 == failing || failing < 0;
}

static int is_record(int fd) {
    char link[64], path[4096];
    snprintf(link, sizeof link, "/proc/self/fd/%d", fd);
    ssize_t count = readlink(link, path, sizeof path - 1);
    if (count < 6) return 0;
    path[count] = 0;
    if (count > 4 + 6 && strcmp(path + count - 4, ".new") == 0) path[count -= 4] = 0;
    return strcmp(path + count - 6, "record") == 0;
}

#define NEXT(name) __typeof__(&name) next = (__typeof__(&name))dlsym(RTLD_NEXT, #name)

int statx(int folder, const char *path, int flags, unsigned mask, struct statx *found) {
    NEXT(statx);
    if (path[0] && fails("stat")) { errno = EIO; return -1; }
    return next(folder, path, flags, mask, found);
}

int posix_spawn(pid_t *child, const char *path, const posix_spawn_file_actions_t *actions, const posix_spawnattr_t *attr,
                char *const words[], char *const env[]) {
    NEXT(posix_spawn);
    return fails("spawn") ? EAGAIN : next(child, path, actions, attr, words, env);
}

ssize_t write(int fd, const void *bytes, size_t count) {
    NEXT(write);
    if (strcmp(sort, "write") == 0 && is_record(fd) && fails("write")) { errno = ENOSPC; return -1; }
    return next(fd, bytes, count);
}

int pthread_create(pthread_t *thread, const pthread_attr_t *attr, void *(*begins)(void *), void *with) {
    NEXT(pthread_create);
    return fails("thread") ? EAGAIN : next(thread, attr, begins, with);
}

void *malloc(size_t size) { NEXT(malloc); return fails("memory") ? NULL : next(size); }
void *realloc(void *old, size_t size) { NEXT(realloc); return fails("memory") ? NULL : next(old, size); }
void *aligned_alloc(size_t to, size_t size) { NEXT(aligned_alloc); return fails("memory") ? NULL : next(to, size); }

int posix_memalign(void **at, size_t to, size_t size) {
    NEXT(posix_memalign);
    return fails("memory") ? ENOMEM : next(at, to, size);
}
