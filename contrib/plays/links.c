/* Links between a look and the use of what was seen. Before each move of a tape the passage and the place `sent` are replaced by links to the
 * folder `elsewhere`, and before one in four opens of either by its name, too. Behind the call they are themselves again. Each such try puts a
 * byte into the file `tries`. To be loaded before the C library (LD_PRELOAD); the working folder is that of the plant. */
#define _GNU_SOURCE
#include <errno.h>
#include <fcntl.h>
#include <stdarg.h>
#include <string.h>
#include <sys/syscall.h>
#include <unistd.h>

static const char *const PLACES[] = {"offers/.circuitd", "offers/sent"};
static const char *const HELD[] = {"offers/.held1", "offers/.held2"};
static int is_laid[2], tries = -1;
static unsigned opens;

static int ends_with(const char *path, const char *end) {
    size_t length = strlen(path), most = strlen(end);
    return length >= most && strcmp(path + length - most, end) == 0;
}

static int move(const char *from, const char *to) { return syscall(SYS_renameat, AT_FDCWD, from, AT_FDCWD, to) == 0; }

static void lay(void) {
    for (int i = 0; i < 2; i++) {
        is_laid[i] = move(PLACES[i], HELD[i]);
        if (is_laid[i] && symlink("../elsewhere", PLACES[i]) != 0) _exit(98);
    }
    if (tries < 0) tries = syscall(SYS_openat, AT_FDCWD, "tries", O_WRONLY | O_CREAT | O_APPEND | O_CLOEXEC, 0600);
    if ((is_laid[0] || is_laid[1]) && write(tries, ".", 1) != 1) _exit(98);
}

static void take_back(void) {
    int error = errno;
    for (int i = 0; i < 2; i++)
        if (is_laid[i] && (unlink(PLACES[i]) != 0 || !move(HELD[i], PLACES[i]))) _exit(98);
    errno = error;
}

static int is_tried(const char *path) {
    if (!ends_with(path, "/.circuitd/.") && !ends_with(path, "/sent/.")) return 0;
    opens += 1;
    return (opens * 2654435761u >> 28) % 4 == 0;
}

static int opened(int folder, const char *path, int flags, mode_t mode) {
    int is_one = is_tried(path);
    if (is_one) lay();
    int found = syscall(SYS_openat, folder, path, flags, mode);
    if (is_one) take_back();
    return found;
}

static int moved(int folder, const char *from, int other, const char *to) {
    int is_one = ends_with(from, ".tape");
    if (is_one) lay();
    int done = syscall(SYS_renameat, folder, from, other, to);
    if (is_one) take_back();
    return done;
}

/* The mode of a file that an open makes, which stands behind the flags. */
#define WITH_MODE(folder, path, flags)                      \
    mode_t mode = 0;                                        \
    va_list rest;                                           \
    va_start(rest, flags);                                  \
    if ((flags) & O_CREAT) mode = va_arg(rest, mode_t);     \
    va_end(rest);                                           \
    return opened(folder, path, flags, mode);

int open(const char *path, int flags, ...) { WITH_MODE(AT_FDCWD, path, flags) }
int open64(const char *path, int flags, ...) { WITH_MODE(AT_FDCWD, path, flags) }
int openat(int folder, const char *path, int flags, ...) { WITH_MODE(folder, path, flags) }
int openat64(int folder, const char *path, int flags, ...) { WITH_MODE(folder, path, flags) }
int rename(const char *from, const char *to) { return moved(AT_FDCWD, from, AT_FDCWD, to); }
int renameat(int folder, const char *from, int other, const char *to) { return moved(folder, from, other, to); }
