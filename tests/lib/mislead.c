// Misleads a program, so that it does what one of its wrong bodies would do. Each variable of the
// environment is one way; programs that it starts are not misled.
//
//     PACE=3          its clock and its waits are three times as slow; PACE=0.1: ten times as fast
//     SPIN=1          one of its threads never sleeps
//     KEEP_INPUT=1    what it starts has its own input, KEEP_OUTPUT=1 its own output
//     DROP_ERRORS=1   what it starts has no standard error
//     THROUGH=WORDS   what a line of the shell prints goes through these words
//     SPARE=1         it kills nothing, ASK_NOT=1 it asks nothing to end
//     UNHEARD=1       a failed write to its output is none
//     DELAY=1         its connections send with delay
//     SAYS=A TELLS=B  of what it writes to its standard error each A becomes B
//     STATUS=2        it ends with that status in place of 1
#define _GNU_SOURCE
#include <dlfcn.h>
#include <errno.h>
#include <fcntl.h>
#include <linux/futex.h>
#include <netinet/in.h>
#include <netinet/tcp.h>
#include <pthread.h>
#include <signal.h>
#include <spawn.h>
#include <stdarg.h>
#include <stdlib.h>
#include <string.h>
#include <sys/epoll.h>
#include <sys/socket.h>
#include <sys/syscall.h>
#include <sys/time.h>
#include <time.h>
#include <unistd.h>
#define REAL(name) static __typeof__(name) *real; if (!real) real = dlsym(RTLD_NEXT, #name)
static double pace = 1;
static int keeps_input, keeps_output, drops_errors, spares, asks_not, is_unheard, delays, status;
static const char *says, *tells, *through;
static struct timespec begun;
static long long nanos(struct timespec t) { return t.tv_sec * 1000000000LL + t.tv_nsec; }
static struct timespec of_nanos(double n) {
    return (struct timespec){(time_t)(n / 1e9), (long)((long long)n % 1000000000LL)};
}
static void *spin(void *nothing) { for (volatile unsigned long n = 0;; n++) {} return nothing; }
__attribute__((constructor)) static void begin(void) {
    unsetenv("LD_PRELOAD");
    if (getenv("PACE")) pace = atof(getenv("PACE"));
    keeps_input = getenv("KEEP_INPUT") != 0;
    keeps_output = getenv("KEEP_OUTPUT") != 0;
    drops_errors = getenv("DROP_ERRORS") != 0;
    spares = getenv("SPARE") != 0;
    asks_not = getenv("ASK_NOT") != 0;
    delays = getenv("DELAY") != 0;
    is_unheard = getenv("UNHEARD") != 0;
    status = getenv("STATUS") ? atoi(getenv("STATUS")) : 1;
    says = getenv("SAYS");
    tells = getenv("TELLS");
    through = getenv("THROUGH");
    syscall(SYS_clock_gettime, CLOCK_MONOTONIC, &begun);
    pthread_t thread;
    if (getenv("SPIN")) pthread_create(&thread, 0, spin, 0);
}
int clock_gettime(clockid_t clock, struct timespec *now) {
    int failed = syscall(SYS_clock_gettime, clock, now);
    if (!failed && clock == CLOCK_MONOTONIC) *now = of_nanos(nanos(begun) + (nanos(*now) - nanos(begun)) / pace);
    return failed;
}
// A thread that waits for another one has a time for that, too.
long syscall(long number, ...) {
    static long (*real)(long, ...);
    if (!real) real = dlsym(RTLD_NEXT, "syscall");
    va_list more;
    long given[6];
    va_start(more, number);
    for (int at = 0; at < 6; at++) given[at] = va_arg(more, long);
    va_end(more);
    struct timespec all;
    if (number == SYS_futex && (given[1] & FUTEX_CMD_MASK) == FUTEX_WAIT && given[3]) {
        all = of_nanos(nanos(*(struct timespec *)given[3]) * pace);
        given[3] = (long)&all;
    }
    return real(number, given[0], given[1], given[2], given[3], given[4], given[5]);
}
int nanosleep(const struct timespec *time, struct timespec *left) {
    struct timespec all = of_nanos(nanos(*time) * pace);
    return syscall(SYS_nanosleep, &all, left);
}
int epoll_wait(int set, struct epoll_event *events, int most, int time) {
    REAL(epoll_wait);
    return real(set, events, most, time > 0 ? (int)(time * pace) + 1 : time);
}
int setsockopt(int socket, int level, int name, const void *value, socklen_t size) {
    REAL(setsockopt);
    if (delays && level == IPPROTO_TCP && name == TCP_NODELAY) return 0;
    if (level != SOL_SOCKET || (name != SO_RCVTIMEO && name != SO_SNDTIMEO)) return real(socket, level, name, value, size);
    struct timeval time = *(const struct timeval *)value;
    long long micros = (long long)((time.tv_sec * 1000000LL + time.tv_usec) * pace);
    time = (struct timeval){micros / 1000000, micros % 1000000};
    return real(socket, level, name, &time, size);
}
int kill(pid_t process, int signal) { return spares && signal == SIGKILL ? 0 : syscall(SYS_kill, process, signal); }
int posix_spawn_file_actions_adddup2(posix_spawn_file_actions_t *all, int from, int to) {
    REAL(posix_spawn_file_actions_adddup2);
    if ((to == 0 && keeps_input) || (to == 1 && keeps_output)) return 0;
    if (to == 1 && drops_errors) real(all, open("/dev/null", O_WRONLY), 2);
    return real(all, from, to);
}
int posix_spawn(pid_t *process, const char *path, const posix_spawn_file_actions_t *files, const posix_spawnattr_t *how,
                char *const words[], char *const variables[]) {
    REAL(posix_spawn);
    static char *const nothing[] = {"sh", "-c", "true", 0};
    int is_asked = asks_not && words[0] && words[1] && words[2] && !strncmp(words[2], "kill ", 5);
    if (through && words[0] && words[1] && words[2]) {
        char *const filtered[] = {"sh", "-c", "sh -c \"$0\" | sh -c \"$1\"", words[2], (char *)through, 0};
        return real(process, path, files, how, filtered, variables);
    }
    return real(process, path, files, how, is_asked ? nothing : words, variables);
}
static ssize_t tell(const char *text, size_t size) {
    const char *at = says ? memmem(text, size, says, strlen(says)) : 0;
    if (!at) return syscall(SYS_write, 2, text, size);
    char line[4096];
    size_t before = at - text, after = size - before - strlen(says);
    if (before + strlen(tells) + after > sizeof line) return syscall(SYS_write, 2, text, size);
    memcpy(line, text, before);
    memcpy(line + before, tells, strlen(tells));
    memcpy(line + before + strlen(tells), at + strlen(says), after);
    ssize_t written = syscall(SYS_write, 2, line, before + strlen(tells) + after);
    return written < 0 ? written : (ssize_t)size;
}
ssize_t write(int file, const void *text, size_t size) {
    if (file == 2) return tell(text, size);
    ssize_t written = syscall(SYS_write, file, text, size);
    return written < 0 && is_unheard && file == 1 ? (ssize_t)size : written;
}
ssize_t __write(int file, const void *text, size_t size) { return write(file, text, size); }
void _exit(int came) {
    syscall(SYS_exit_group, came == 1 ? status : came);
    __builtin_unreachable();
}
