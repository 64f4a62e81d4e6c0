// Refuses one start of a thread: the one with the number REFUSE_THREAD, counted from 1 among those
// of one thread. That is the main thread where REFUSE_OF is 0, and else the one that the main
// thread started as its first, second and so on. Where REFUSE_ALL is set each later one is refused as
// well. Where REFUSE_EVERY is set, and not 0, all threads' starts are counted, and behind the first
// REFUSE_THREAD each one whose number REFUSE_EVERY divides is refused. The first REFUSE_SPAWNS starts
// of processes by a path are refused, as of a worker's sweeps, and as many of those by a name. What
// was refused is told by the file REFUSE_TOLD, which it makes.
#define _GNU_SOURCE
#include <dlfcn.h>
#include <errno.h>
#include <fcntl.h>
#include <pthread.h>
#include <spawn.h>
#include <stdlib.h>
#include <unistd.h>
#define MOST 1000
static struct start { void *(*work)(void *); void *with; unsigned long place; } starts[MOST];
static unsigned long asked, refused, of, begun, every, all, spawns, spawned[2];
static int and_all;
// Which of the main thread's this one is: 0 for all that other threads started.
static __thread unsigned long place;
// Programs that this one starts are refused nothing.
__attribute__((constructor)) static void begin(void) {
    const char *at = getenv("REFUSE_THREAD"), *by = getenv("REFUSE_OF"), *each = getenv("REFUSE_EVERY");
    const char *first = getenv("REFUSE_SPAWNS");
    spawns = first ? strtoul(first, 0, 10) : 0;
    refused = at ? strtoul(at, 0, 10) : 0;
    of = by ? strtoul(by, 0, 10) : 0;
    every = each ? strtoul(each, 0, 10) : 0;
    and_all = getenv("REFUSE_ALL") != 0;
    unsetenv("LD_PRELOAD");
}
static void *placed(void *with) {
    struct start *start = with;
    place = start->place;
    return start->work(start->with);
}
static int refuse(void) {
    const char *path = getenv("REFUSE_TOLD");
    int fd = path ? open(path, O_CREAT | O_WRONLY, 0600) : -1;
    if (fd >= 0) close(fd);
    return EAGAIN;
}
int pthread_create(pthread_t *thread, const pthread_attr_t *attr, void *(*work)(void *), void *with) {
    static int (*real)(pthread_t *, const pthread_attr_t *, void *(*)(void *), void *);
    if (!real) real = dlsym(RTLD_NEXT, "pthread_create");
    if (every) {
        unsigned long number = __atomic_add_fetch(&all, 1, __ATOMIC_SEQ_CST);
        return number > refused && number % every == 0 ? refuse() : real(thread, attr, work, with);
    }
    int is_main = gettid() == getpid();
    int is_counted = of ? place == of : is_main;
    unsigned long number = is_counted ? __atomic_add_fetch(&asked, 1, __ATOMIC_SEQ_CST) : 0;
    if (is_counted && refused && (number == refused || (and_all && number > refused))) return refuse();
    // The main thread alone counts here.
    if (!is_main || begun == MOST) return real(thread, attr, work, with);
    struct start *start = &starts[begun];
    *start = (struct start){work, with, ++begun};
    return real(thread, attr, placed, start);
}
int posix_spawn(pid_t *process, const char *path, const posix_spawn_file_actions_t *files, const posix_spawnattr_t *how,
                char *const words[], char *const environment[]) {
    static __typeof__(posix_spawn) *real;
    if (!real) real = dlsym(RTLD_NEXT, "posix_spawn");
    if (__atomic_add_fetch(&spawned[words[0][0] == '/'], 1, __ATOMIC_SEQ_CST) <= spawns) return refuse();
    return real(process, path, files, how, words, environment);
}
