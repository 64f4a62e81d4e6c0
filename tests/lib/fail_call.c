// Fails one call of a program's connections: the one with the number FAIL_CALL, counted from 1 among
// all reads and writes of all its threads. It answers that the connection was reset, and the calls
// after it succeed: one that fails for good can't show a program that tries again. What came of it
// is told in the file FAIL_TOLD: `failed`, and `again` where the thread that met it called that
// connection once more. An answer to a handshake is read in pieces of three bytes, the fewest that
// `tungstenite` doesn't take for an attack, and all else byte by byte.
// Where FAIL_UNHEARD is set a write that fails is told as done, and where FAIL_REPEATED is set it is
// made again: so would a wrong program do.
#define _GNU_SOURCE
#include <dlfcn.h>
#include <errno.h>
#include <fcntl.h>
#include <stdlib.h>
#include <string.h>
#include <sys/socket.h>
#include <sys/syscall.h>
#include <unistd.h>
#define FILES 1024
#define HEAD_PIECE 3
static unsigned long asked, failing;
static int is_unheard, is_repeated;
// Of each connection: the thread that met the failure, and how much of the head's end was read.
static int met_by[FILES], ended[FILES];
// Programs that this one starts have no call that fails.
__attribute__((constructor)) static void begin(void) {
    const char *at = getenv("FAIL_CALL");
    failing = at ? strtoul(at, 0, 10) : 0;
    is_unheard = getenv("FAIL_UNHEARD") != 0;
    is_repeated = getenv("FAIL_REPEATED") != 0;
    unsetenv("LD_PRELOAD");
}
static void tell(const char *what) {
    const char *path = getenv("FAIL_TOLD");
    int file = path ? open(path, O_CREAT | O_WRONLY | O_APPEND, 0600) : -1;
    if (file < 0) return;
    if (syscall(SYS_write, file, what, strlen(what)) < 0) abort();
    close(file);
}
// Whether this call of a connection fails. A look alone tells the program nothing: it reads then.
static int fails(int file, int is_look) {
    if (file < 0 || file >= FILES) return 0;
    if (met_by[file] == gettid() && !is_look) tell("again\n");
    if (__atomic_add_fetch(&asked, 1, __ATOMIC_SEQ_CST) != failing) return 0;
    if (!is_look) met_by[file] = gettid();
    tell("failed\n");
    errno = ECONNRESET;
    return 1;
}
// Notes how much of a head's end these bytes bring.
static void note(int file, const char *bytes, ssize_t count) {
    for (ssize_t at = 0; at < count && ended[file] < 4; at++) {
        ended[file] = bytes[at] == "\r\n\r\n"[ended[file]] ? ended[file] + 1 : bytes[at] == '\r';
    }
}
ssize_t recv(int file, void *into, size_t size, int flags) {
    if (fails(file, flags & MSG_PEEK)) return -1;
    size_t most = ended[file] < 4 ? HEAD_PIECE : 1;
    ssize_t count = syscall(SYS_recvfrom, file, into, size < most ? size : most, flags, 0, 0);
    if (!(flags & MSG_PEEK)) note(file, into, count);
    return count;
}
ssize_t send(int file, const void *from, size_t size, int flags) {
    if (fails(file, 0)) return is_unheard ? (ssize_t)size : is_repeated ? send(file, from, size, flags) : -1;
    return syscall(SYS_sendto, file, from, size, flags, 0, 0);
}
// A connection that is closed leaves its number to another one.
int close(int file) {
    if (file >= 0 && file < FILES) met_by[file] = ended[file] = 0;
    return syscall(SYS_close, file);
}
