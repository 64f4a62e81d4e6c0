/* The least that any system does for bench/live: plain code without a protocol, for the same bytes.

       limit move          reads standard input, and passes it on over a loopback connection to a
                           thread that keeps it in memory. Prints how many bytes that thread had
                           in the end
       limit lag COUNT     sends so many lines the same way, one at a time. Prints the median and
                           the worst of 99 in 100 of the times until the other thread had one, in
                           microseconds
       limit serve BYTES   answers each request of HTTP with a body of so many bytes. Prints its
                           port, and ends with its standard input

   cc -O2 -pthread -o limit limit.c */

#define _GNU_SOURCE
#include <arpa/inet.h>
#include <netinet/in.h>
#include <netinet/tcp.h>
#include <pthread.h>
#include <stdatomic.h>
#include <stdio.h>
#include <stdlib.h>
#include <string.h>
#include <sys/socket.h>
#include <time.h>
#include <unistd.h>

enum { PIECE = 1 << 16 };

static void fail(const char *what) {
    perror(what);
    exit(1);
}

static double now(void) {
    struct timespec at;
    clock_gettime(CLOCK_MONOTONIC, &at);
    return at.tv_sec + at.tv_nsec / 1e9;
}

static int listener(int *port) {
    struct sockaddr_in at = {.sin_family = AF_INET, .sin_addr.s_addr = htonl(INADDR_LOOPBACK)};
    socklen_t size = sizeof at;
    int fd = socket(AF_INET, SOCK_STREAM, 0);
    if (fd < 0 || bind(fd, (struct sockaddr *)&at, sizeof at) || listen(fd, 128) || getsockname(fd, (struct sockaddr *)&at, &size))
        fail("listen");
    *port = ntohs(at.sin_port);
    return fd;
}

static int connected(int port) {
    struct sockaddr_in at = {.sin_family = AF_INET, .sin_port = htons(port), .sin_addr.s_addr = htonl(INADDR_LOOPBACK)};
    int fd = socket(AF_INET, SOCK_STREAM, 0), yes = 1;
    if (fd < 0 || connect(fd, (struct sockaddr *)&at, sizeof at))
        fail("connect");
    setsockopt(fd, IPPROTO_TCP, TCP_NODELAY, &yes, sizeof yes);
    return fd;
}

/* What the other thread keeps, and when it had the last of it. */
static char *kept;
static size_t kept_size, kept_room;
static _Atomic double last_at;
static _Atomic size_t had;

static void *keep(void *given) {
    int fd = accept(*(int *)given, NULL, NULL);
    for (;;) {
        if (kept_room - kept_size < PIECE && !(kept = realloc(kept, kept_room = 2 * kept_room + PIECE)))
            fail("realloc");
        ssize_t count = read(fd, kept + kept_size, PIECE);
        if (count <= 0)
            return NULL;
        kept_size += count;
        atomic_store(&last_at, now());
        atomic_store(&had, kept_size);
    }
}

static void write_all(int fd, const char *data, size_t count) {
    while (count) {
        ssize_t done = write(fd, data, count);
        if (done <= 0)
            fail("write");
        data += done, count -= done;
    }
}

static void move(void) {
    static char piece[PIECE];
    int port, fd = listener(&port);
    pthread_t thread;
    pthread_create(&thread, NULL, keep, &fd);
    int to = connected(port);
    for (ssize_t count; (count = read(0, piece, PIECE)) > 0;)
        write_all(to, piece, count);
    close(to);
    pthread_join(thread, NULL);
    printf("%zu\n", kept_size);
}

static int by_size(const void *one, const void *other) {
    double a = *(const double *)one, b = *(const double *)other;
    return (a > b) - (a < b);
}

static void lag(int count) {
    double *took = calloc(count, sizeof *took);
    char line[64];
    memset(line, 'x', sizeof line);
    line[63] = '\n';
    int port, fd = listener(&port), ends[2];
    pthread_t thread;
    pthread_create(&thread, NULL, keep, &fd);
    int to = connected(port);
    if (pipe(ends))
        fail("pipe");
    for (int i = 0; i < count; i++) {
        usleep(1000 + rand() % 4000);
        double begun = now();
        char again[64];
        write_all(ends[1], line, 64);
        if (read(ends[0], again, 64) != 64)
            fail("read");
        write_all(to, again, 64);
        while (atomic_load(&had) < 64 * (size_t)(i + 1))
            ;
        took[i] = atomic_load(&last_at) - begun;
    }
    qsort(took, count, sizeof *took, by_size);
    printf("%.0f %.0f\n", took[count / 2] * 1e6, took[count * 99 / 100] * 1e6);
}

static char *answer;
static size_t answer_size;

static void *answer_all(void *given) {
    int fd = (int)(size_t)given;
    static __thread char request[PIECE];
    size_t held = 0;
    for (ssize_t count; (count = read(fd, request + held, PIECE - 1 - held)) > 0;) {
        held += count;
        request[held] = 0;
        for (char *end; (end = strstr(request, "\r\n\r\n"));) {
            size_t used = end + 4 - request;
            write_all(fd, answer, answer_size);
            memmove(request, end + 4, held - used + 1);
            held -= used;
        }
    }
    close(fd);
    return NULL;
}

static void *accept_all(void *given) {
    int fd = *(int *)given, yes = 1;
    for (;;) {
        int one = accept(fd, NULL, NULL);
        pthread_t thread;
        if (one < 0)
            continue;
        setsockopt(one, IPPROTO_TCP, TCP_NODELAY, &yes, sizeof yes);
        pthread_create(&thread, NULL, answer_all, (void *)(size_t)one);
        pthread_detach(thread);
    }
}

static void serve(size_t size) {
    answer = malloc(size + 256);
    answer_size = sprintf(answer, "HTTP/1.1 200 OK\r\ncontent-type: application/json\r\ncontent-length: %zu\r\n\r\n", size);
    memset(answer + answer_size, 'x', size);
    answer_size += size;
    int port, fd = listener(&port);
    pthread_t thread;
    pthread_create(&thread, NULL, accept_all, &fd);
    printf("%d\n", port);
    fflush(stdout);
    for (char byte; read(0, &byte, 1) > 0;)
        ;
}

int main(int count, char **words) {
    if (count == 2 && !strcmp(words[1], "move"))
        move();
    else if (count == 3 && !strcmp(words[1], "lag"))
        lag(atoi(words[2]));
    else if (count == 3 && !strcmp(words[1], "serve"))
        serve(strtoul(words[2], NULL, 10));
    else
        return fputs("usage: limit move | lag COUNT | serve BYTES\n", stderr), 2;
    return 0;
}
