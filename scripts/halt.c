/* Stops a program at one of the calls by which it changes a folder, or lets that call fail. Loaded by LD_PRELOAD.
 *
 * Counted over all threads are the calls below that are given the folder HALT_FOLDER, a path as the program gives it, a file in it, or a
 * descriptor of either; of the calls that open a file those that may make or change it. At the call whose number is in HALT
 * the process gets the signal HALT_SIGNAL, without which it is killed: before the call, or where HALT_WHEN is `after` when it is done. Where
 * HALT_ERROR has the number of an error, the call is not made and answers it instead, and where HALT_WHEN is `on` each later one does so too;
 * where HALT_WHEN is `late` it is made and answers it all the same. Each lock that is asked for answers the error whose number is in
 * HALT_LOCKS, if it is there.
 * Each call is told to the descriptor in HALT_TO before it is made, by a line with its name and the names of its files in the
 * folder, `.` for the folder itself. */
#undef _FORTIFY_SOURCE
#define _GNU_SOURCE
#include <dlfcn.h>
#include <errno.h>
#include <fcntl.h>
#include <limits.h>
#include <signal.h>
#include <stdarg.h>
#include <stdatomic.h>
#include <stdio.h>
#include <stdlib.h>
#include <string.h>
#include <sys/stat.h>
#include <sys/syscall.h>
#include <sys/uio.h>
#include <unistd.h>

/* Room for a folder's path and a name in it. */
typedef char room[2 * PATH_MAX];

static const char *folder = "", *when = "before";
static long halted, error, locks, sent = SIGKILL, told_to = -1;
static atomic_long calls;
static __thread int stops_after, fails_after;

static long number(const char *variable, long otherwise) {
    const char *text = getenv(variable);
    return text ? atol(text) : otherwise;
}

__attribute__((constructor)) static void start(void) {
    if (getenv("HALT_FOLDER")) folder = getenv("HALT_FOLDER");
    if (getenv("HALT_WHEN")) when = getenv("HALT_WHEN");
    halted = number("HALT", halted);
    error = number("HALT_ERROR", error);
    locks = number("HALT_LOCKS", locks);
    sent = number("HALT_SIGNAL", sent);
    told_to = number("HALT_TO", told_to);
}

/* The name in the folder of what has this path, NULL for what is elsewhere. */
static const char *name_of(const char *path) {
    size_t length = strlen(folder);
    if (length == 0 || strncmp(path, folder, length) != 0) return NULL;
    if (path[length] == '\0') return ".";
    return path[length] == '/' ? path + length + 1 : NULL;
}

static const char *path_of(int descriptor, char *path) {
    char link[40];
    snprintf(link, sizeof link, "/proc/self/fd/%d", descriptor);
    ssize_t length = readlink(link, path, PATH_MAX - 1);
    path[length < 0 ? 0 : length] = '\0';
    return path;
}

static const char *path_at(int descriptor, const char *name, char *path) {
    if (descriptor == AT_FDCWD || name[0] == '/') return name;
    path_of(descriptor, path);
    snprintf(path + strlen(path), PATH_MAX, "/%s", name);
    return path;
}

static void tell(const char *call, const char *first, const char *second) {
    room line;
    int length = snprintf(line, sizeof line, "%s %s%s%s\n", call, first, second ? " " : "", second ? second : "");
    if (syscall(SYS_write, (int)told_to, line, (size_t)length) != length) abort();
}

/* Takes note of a call that has these paths, the second of which may be empty, and is about to be made: whether it fails instead. */
static int is_refused(const char *call, const char *first, const char *second) {
    const char *name = name_of(first), *other = name_of(second);
    if (name == NULL && other == NULL) return 0;
    long count = atomic_fetch_add(&calls, 1) + 1;
    if (told_to >= 0) tell(call, name ? name : first, other);
    if (halted == 0 || count < halted || (count > halted && (error == 0 || strcmp(when, "on") != 0))) return 0;
    errno = error;
    fails_after = error != 0 && strcmp(when, "late") == 0;
    if (error != 0) return !fails_after;
    stops_after = strcmp(when, "after") == 0;
    if (!stops_after) kill(getpid(), sent);
    return 0;
}

/* Takes note that the call is done: whether it answers an error all the same. */
static int fails_late(void) {
    int fails = fails_after;
    if (stops_after) kill(getpid(), sent);
    stops_after = fails_after = 0;
    if (fails) errno = error;
    return fails;
}

#define CALL(type, name, parameters, arguments, first, second)      \
    type name parameters {                                          \
        static type(*made) parameters;                              \
        room places[2];                                             \
        (void)places;                                               \
        if (made == NULL) *(void **)&made = dlsym(RTLD_NEXT, #name); \
        if (is_refused(#name, first, second)) return -1;            \
        type answer = made arguments;                               \
        return fails_late() ? -1 : answer;                          \
    }

#define OF_PATH(name, parameters, arguments) CALL(int, name, parameters, arguments, path, "")
#define OF_FILE(type, name, parameters, arguments) CALL(type, name, parameters, arguments, path_of(file, places[0]), "")
#define OF_PLACE(name, parameters, arguments) CALL(int, name, parameters, arguments, path_at(at, path, places[0]), "")
#define OF_TWO(name, parameters, arguments) CALL(int, name, parameters, arguments, path_at(at, path, places[0]), path_at(to_at, to, places[1]))

OF_FILE(ssize_t, write, (int file, const void *bytes, size_t count), (file, bytes, count))
OF_FILE(ssize_t, pwrite, (int file, const void *bytes, size_t count, off_t from), (file, bytes, count, from))
OF_FILE(ssize_t, pwrite64, (int file, const void *bytes, size_t count, off64_t from), (file, bytes, count, from))
OF_FILE(ssize_t, writev, (int file, const struct iovec *parts, int count), (file, parts, count))
OF_FILE(int, fsync, (int file), (file))
OF_FILE(int, fdatasync, (int file), (file))
OF_FILE(int, syncfs, (int file), (file))
OF_FILE(int, fchmod, (int file, mode_t mode), (file, mode))
OF_FILE(int, fchown, (int file, uid_t user, gid_t group), (file, user, group))
OF_FILE(int, futimens, (int file, const struct timespec times[2]), (file, times))
OF_FILE(int, ftruncate, (int file, off_t size), (file, size))
OF_FILE(int, ftruncate64, (int file, off64_t size), (file, size))
OF_PATH(unlink, (const char *path), (path))
OF_PATH(remove, (const char *path), (path))
OF_PATH(rmdir, (const char *path), (path))
OF_PATH(mkdir, (const char *path, mode_t mode), (path, mode))
OF_PATH(chmod, (const char *path, mode_t mode), (path, mode))
OF_PATH(chown, (const char *path, uid_t user, gid_t group), (path, user, group))
OF_PATH(lchown, (const char *path, uid_t user, gid_t group), (path, user, group))
OF_PATH(truncate, (const char *path, off_t size), (path, size))
OF_PATH(truncate64, (const char *path, off64_t size), (path, size))
OF_PLACE(unlinkat, (int at, const char *path, int flags), (at, path, flags))
OF_PLACE(fchmodat, (int at, const char *path, mode_t mode, int flags), (at, path, mode, flags))
OF_PLACE(fchownat, (int at, const char *path, uid_t user, gid_t group, int flags), (at, path, user, group, flags))
CALL(int, rename, (const char *path, const char *to), (path, to), path, to)
CALL(int, link, (const char *path, const char *to), (path, to), path, to)
CALL(int, symlink, (const char *path, const char *to), (path, to), path, to)
OF_TWO(renameat, (int at, const char *path, int to_at, const char *to), (at, path, to_at, to))
OF_TWO(renameat2, (int at, const char *path, int to_at, const char *to, unsigned flags), (at, path, to_at, to, flags))
OF_TWO(linkat, (int at, const char *path, int to_at, const char *to, int flags), (at, path, to_at, to, flags))

/* Opens a file. One that is only read changes nothing. */
static int opened(int at, const char *path, int flags, mode_t mode) {
    int (*made)(int, const char *, int, ...) = dlsym(RTLD_NEXT, "openat");
    int changes = flags & (O_CREAT | O_TRUNC | O_WRONLY | O_RDWR);
    room place;
    if (changes && is_refused("open", path_at(at, path, place), "")) return -1;
    int answer = made(at, path, flags, mode);
    return fails_late() ? -1 : answer;
}

int flock(int file, int how) {
    int (*made)(int, int) = dlsym(RTLD_NEXT, "flock");
    if (locks == 0) return made(file, how);
    errno = (int)locks;
    return -1;
}

#define OPEN(name, parameters, at)                                                 \
    int name parameters {                                                          \
        va_list more;                                                              \
        va_start(more, flags);                                                     \
        mode_t mode = flags & (O_CREAT | O_TMPFILE) ? va_arg(more, mode_t) : 0;    \
        va_end(more);                                                              \
        return opened(at, path, flags, mode);                                      \
    }

OPEN(open, (const char *path, int flags, ...), AT_FDCWD)
OPEN(open64, (const char *path, int flags, ...), AT_FDCWD)
OPEN(openat, (int at, const char *path, int flags, ...), at)
OPEN(openat64, (int at, const char *path, int flags, ...), at)
