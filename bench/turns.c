/* How long a station's turns are: what is between two calls by which it asks its socket, by the clock and in processor time, and whether the
 * disk was asked to sync meanwhile. To be loaded before the C library (LD_PRELOAD); a line for each turn goes to the file that TURNS names. */
#define _GNU_SOURCE
#include <dlfcn.h>
#include <stdio.h>
#include <stdlib.h>
#include <sys/socket.h>
#include <time.h>

static FILE *told;
static double begun, worked;
static int synced;

static double seconds(clockid_t clock) {
    struct timespec at;
    clock_gettime(clock, &at);
    return at.tv_sec + at.tv_nsec / 1e9;
}

__attribute__((constructor)) static void open_told(void) {
    const char *path = getenv("TURNS");
    told = path == NULL ? NULL : fopen(path, "w");
}

__attribute__((destructor)) static void close_told(void) {
    if (told != NULL) fclose(told);
}

ssize_t recvfrom(int socket, void *room, size_t size, int flags, struct sockaddr *from, socklen_t *length) {
    static ssize_t (*next)(int, void *, size_t, int, struct sockaddr *, socklen_t *);
    if (next == NULL) next = (ssize_t (*)(int, void *, size_t, int, struct sockaddr *, socklen_t *))dlsym(RTLD_NEXT, "recvfrom");
    double now = seconds(CLOCK_MONOTONIC), used = seconds(CLOCK_THREAD_CPUTIME_ID);
    if (told != NULL && begun > 0) fprintf(told, "%.6f %.6f %.6f %d\n", now, now - begun, used - worked, synced);
    ssize_t got = next(socket, room, size, flags, from, length);
    synced = 0;
    begun = seconds(CLOCK_MONOTONIC);
    worked = seconds(CLOCK_THREAD_CPUTIME_ID);
    return got;
}

int fsync(int file) {
    static int (*next)(int);
    if (next == NULL) next = (int (*)(int))dlsym(RTLD_NEXT, "fsync");
    synced = 1;
    return next(file);
}

int fdatasync(int file) {
    static int (*next)(int);
    if (next == NULL) next = (int (*)(int))dlsym(RTLD_NEXT, "fdatasync");
    synced = 1;
    return next(file);
}
