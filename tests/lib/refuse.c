// Refuses one request for memory: the one with the number REFUSE, counted from 1. Where no request
// had that number it says so by the file REFUSE_SPARE, which it then makes.
#define _GNU_SOURCE
#include <dlfcn.h>
#include <errno.h>
#include <fcntl.h>
#include <stdlib.h>
#include <sys/syscall.h>
#include <unistd.h>
static unsigned long asked, refused;
// Programs that this one starts are refused nothing.
__attribute__((constructor)) static void alone(void) { unsetenv("LD_PRELOAD"); }
static int due(void) {
    if (!refused) { const char *at = getenv("REFUSE"); refused = at ? strtoul(at, 0, 10) : (unsigned long)-1; }
    return __atomic_add_fetch(&asked, 1, __ATOMIC_SEQ_CST) == refused;
}
void *malloc(size_t n) {
    static void *(*real)(size_t);
    if (!real) real = dlsym(RTLD_NEXT, "malloc");
    if (due()) { errno = ENOMEM; return 0; }
    return real(n);
}
void *realloc(void *p, size_t n) {
    static void *(*real)(void *, size_t);
    if (!real) real = dlsym(RTLD_NEXT, "realloc");
    if (due()) { errno = ENOMEM; return 0; }
    return real(p, n);
}
int posix_memalign(void **out, size_t align, size_t n) {
    static int (*real)(void **, size_t, size_t);
    if (!real) real = dlsym(RTLD_NEXT, "posix_memalign");
    if (due()) return ENOMEM;
    return real(out, align, n);
}
void *aligned_alloc(size_t align, size_t n) {
    static void *(*real)(size_t, size_t);
    if (!real) real = dlsym(RTLD_NEXT, "aligned_alloc");
    if (due()) { errno = ENOMEM; return 0; }
    return real(align, n);
}
__attribute__((destructor)) static void tell(void) {
    const char *path = getenv("REFUSE_SPARE");
    if (path && asked < refused) { int fd = open(path, O_CREAT | O_WRONLY, 0600); if (fd >= 0) close(fd); }
}
// A program with threads ends so, which runs no destructor.
void _exit(int status) {
    tell();
    syscall(SYS_exit_group, status);
    __builtin_unreachable();
}
