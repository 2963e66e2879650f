/* A library that is loaded before a program (LD_PRELOAD) and makes one of its calls of the system fail, as tests/faults asks:

    FAULTS_PROGRAM  the program, by the path that /proc/self/exe has; in every other, such as a child, all calls go through
    FAULTS_TRACE    the file to which each call is written as a line: its kind, its number among those of its kind, its target
    FAULTS_SPEED    how many times faster the program's time runs, its waits too
    FAULTS_START    the moment from which on it does, in whole seconds
    FAULT           KIND:NUMBER:WHAT: what becomes of the call of this number of this kind. A number fails with this number of an
                    error; "h" and a number has half of a write done before it fails so; "s" takes less than is there. Behind a
                    "+" it holds of every later call of this kind as well. "f" and "l" go on with an open, before which another
                    program has put a file or a link in the name's place. "v" goes on with a look-up, and puts an address of version 6
                    of the Internet Protocol before the others. The kind "full" stands for a file system that takes
                    only so many bytes of writes at a place (pwrite): a write takes what fits, and then each fails with this
                    error; the trace has a line "room" behind each, with what is left.
*/
#define _GNU_SOURCE
#include <dlfcn.h>
#include <errno.h>
#include <fcntl.h>
#include <netdb.h>
#include <netinet/in.h>
#include <poll.h>
#include <spawn.h>
#include <stdarg.h>
#include <stdlib.h>
#include <string.h>
#include <sys/file.h>
#include <sys/resource.h>
#include <sys/socket.h>
#include <sys/stat.h>
#include <sys/syscall.h>
#include <sys/time.h>
#include <sys/wait.h>
#include <time.h>
#include <unistd.h>

static const char *KINDS[] = {"open", "read", "pread", "write", "pwrite", "fsync", "fdatasync", "ftruncate", "fchmod", "statx", "flock",
    "fcntl", "socket", "bind", "setsockopt", "recvfrom", "sendto", "poll", "nanosleep", "spawn", "waitpid", "getrlimit", "clock",
    "close", "lookup", "malloc", "full", 0};
enum { OPEN, READ, PREAD, WRITE, PWRITE, FSYNC, FDATASYNC, FTRUNCATE, FCHMOD, STATX, FLOCK,
    FCNTL, SOCKET, BIND, SETSOCKOPT, RECVFROM, SENDTO, POLL, NANOSLEEP, SPAWN, WAITPID, GETRLIMIT, CLOCK,
    CLOSE, LOOKUP, MALLOC, FULL, COUNT };

static int active, trace = -1, fault_kind = -1, fault_error, fault_half, fault_short, fault_on;
static char fault_put;
/* what a full file system still takes; it is not full where this is less than 0 */
static long room = -1;
static long fault_number, counts[COUNT], speed = 1;
static long long start;
/* the C library itself breaks where memory is wanting in the midst of a look-up */
static int looks_up;

/* Calls go to the system themselves: some come before symbols can be looked up. */
#define REAL(name) ({ static __typeof__(&name) it; if (!it) it = (__typeof__(&name))dlsym(RTLD_NEXT, #name); it; })
#define SYSTEM(name, ...) syscall(SYS_##name, __VA_ARGS__)

static char *put(char *to, const char *text) {
    while (*text) *to++ = *text++;
    return to;
}

static char *put_number(char *to, long number) {
    char digits[24];
    int n = 0;
    do digits[n++] = '0' + number % 10; while ((number /= 10) > 0);
    while (n) *to++ = digits[--n];
    return to;
}

static const char *last_part(const char *path) {
    const char *found = path;
    for (; *path; path++) if (*path == '/' && path[1]) found = path + 1;
    return found;
}

/* What a descriptor is: the name of its file, or its stream. */
static const char *target_of(int fd, char *room, size_t size) {
    if (fd == 0) return "input";
    if (fd == 1) return "output";
    if (fd == 2) return "errors";
    char link[40];
    *put_number(put(link, "/proc/self/fd/"), fd) = 0;
    long n = syscall(SYS_readlink, link, room, size - 1);
    if (n < 0) return "none";
    room[n] = 0;
    return strncmp(room, "socket:", 7) == 0 ? "socket" : last_part(room);
}

static void write_down(const char *kind, long number, const char *target) {
    if (trace < 0) return;
    char line[400], *to = line;
    to = put(to, kind);
    *to++ = ' ';
    to = put_number(to, number);
    *to++ = ' ';
    if (strlen(target) < 300) to = put(to, target);
    *to++ = '\n';
    syscall(SYS_write, trace, line, to - line);
}

/* Counts and writes down a call; answers whether it is the one that is meant. */
static int meant(int kind, const char *target) {
    if (!active) return 0;
    long number = ++counts[kind];
    write_down(KINDS[kind], number, target);
    return kind == fault_kind && (number == fault_number || (fault_on && number > fault_number));
}

static int meant_of(int kind, int fd) {
    char room[4096];
    return active && meant(kind, target_of(fd, room, sizeof room));
}

/* How much of so many bytes a call takes that is meant, or -1 where it fails. */
static long taken(size_t count) {
    if (fault_short) return count > 1 ? count / 2 : count;
    errno = fault_error;
    return -1;
}

/* How much of so many bytes a full file system takes, or -1 where nothing fits. */
static long fitting(size_t count) {
    if (count > 0 && room == 0) { errno = fault_error; return -1; }
    if (count > room) count = room;
    room -= count;
    write_down("room", room, "left");
    return count;
}

/* Puts a file or a link in this name's place, as another program may do at any moment. */
static void put_there(const char *path) {
    if (fault_put == 'l') { SYSTEM(symlink, "elsewhere", path); return; }
    int fd = SYSTEM(open, path, O_WRONLY | O_CREAT | O_EXCL, 0600);
    SYSTEM(write, fd, "of another", 10);
    SYSTEM(close, fd);
}

__attribute__((constructor)) static void begin(void) {
    char path[4096], *program = getenv("FAULTS_PROGRAM"), *text;
    long n = syscall(SYS_readlink, "/proc/self/exe", path, sizeof path - 1);
    if (!program || n < 0) return;
    path[n] = 0;
    if (strcmp(path, program)) return;
    if ((text = getenv("FAULTS_TRACE"))) {
        int fd = syscall(SYS_open, text, O_WRONLY | O_CREAT | O_APPEND | O_CLOEXEC, 0600);
        trace = syscall(SYS_fcntl, fd, F_DUPFD_CLOEXEC, 200);
        syscall(SYS_close, fd);
    }
    if ((text = getenv("FAULTS_SPEED"))) speed = atol(text);
    if ((text = getenv("FAULTS_START"))) start = atoll(text);
    if ((text = getenv("FAULT"))) {
        size_t length = strcspn(text, ":");
        for (int it = 0; KINDS[it]; it++)
            if (strlen(KINDS[it]) == length && !strncmp(KINDS[it], text, length)) fault_kind = it;
        text += length + 1;
        fault_number = atol(text);
        text += strcspn(text, ":") + 1;
        if (*text == '+') fault_on = 1, text++;
        if (*text == 's') fault_short = 1;
        else if (*text == 'f' || *text == 'l' || *text == 'v') fault_put = *text;
        else if (*text == 'h') fault_half = 1, fault_error = atoi(text + 1);
        else fault_error = atoi(text);
        if (fault_kind == FULL) room = fault_number;
    }
    active = 1;
}

#define FAILS(kind, fd) if (meant_of(kind, fd)) { errno = fault_error; return -1; }

static int opened(const char *path, int flags, mode_t mode) {
    if (meant(OPEN, last_part(path))) {
        if (!fault_put) { errno = fault_error; return -1; }
        put_there(path);
    }
    return SYSTEM(open, path, flags, mode);
}
int open(const char *path, int flags, ...) {
    va_list rest; va_start(rest, flags); mode_t mode = flags & (O_CREAT | O_TMPFILE) ? va_arg(rest, mode_t) : 0; va_end(rest);
    return opened(path, flags, mode);
}
int open64(const char *path, int flags, ...) {
    va_list rest; va_start(rest, flags); mode_t mode = flags & (O_CREAT | O_TMPFILE) ? va_arg(rest, mode_t) : 0; va_end(rest);
    return opened(path, flags, mode);
}
ssize_t read(int fd, void *to, size_t count) {
    if (meant_of(READ, fd)) { long n = taken(count); if (n < 0) return n; count = n; }
    return SYSTEM(read, fd, to, count);
}
ssize_t pread(int fd, void *to, size_t count, off_t at) {
    if (meant_of(PREAD, fd)) { long n = taken(count); if (n < 0) return n; count = n; }
    return SYSTEM(pread64, fd, to, count, at);
}
ssize_t pread64(int fd, void *to, size_t count, off64_t at) { return pread(fd, to, count, at); }
ssize_t write(int fd, const void *from, size_t count) {
    if (meant_of(WRITE, fd)) {
        if (fault_half && count > 1) SYSTEM(write, fd, from, count / 2);
        long n = taken(count); if (n < 0) return n; count = n;
    }
    return SYSTEM(write, fd, from, count);
}
ssize_t pwrite(int fd, const void *from, size_t count, off_t at) {
    if (meant_of(PWRITE, fd)) {
        if (fault_half && count > 1) SYSTEM(pwrite64, fd, from, count / 2, at);
        long n = taken(count); if (n < 0) return n; count = n;
    }
    if (room >= 0) { long n = fitting(count); if (n < 0) return n; count = n; }
    return SYSTEM(pwrite64, fd, from, count, at);
}
ssize_t pwrite64(int fd, const void *from, size_t count, off64_t at) { return pwrite(fd, from, count, at); }
int fsync(int fd) { FAILS(FSYNC, fd) return SYSTEM(fsync, fd); }
int fdatasync(int fd) { FAILS(FDATASYNC, fd) return SYSTEM(fdatasync, fd); }
int ftruncate(int fd, off_t size) { FAILS(FTRUNCATE, fd) return SYSTEM(ftruncate, fd, size); }
int ftruncate64(int fd, off64_t size) { FAILS(FTRUNCATE, fd) return SYSTEM(ftruncate, fd, size); }
int fchmod(int fd, mode_t mode) { FAILS(FCHMOD, fd) return SYSTEM(fchmod, fd, mode); }
int statx(int fd, const char *restrict path, int flags, unsigned int mask, struct statx *restrict found) {
    char room[4096];
    if (active && meant(STATX, *path ? last_part(path) : target_of(fd, room, sizeof room))) { errno = fault_error; return -1; }
    return SYSTEM(statx, fd, path, flags, mask, found);
}
int flock(int fd, int operation) { FAILS(FLOCK, fd) return SYSTEM(flock, fd, operation); }
int fcntl(int fd, int command, ...) {
    va_list rest; va_start(rest, command); void *value = va_arg(rest, void *); va_end(rest);
    FAILS(FCNTL, fd)
    return SYSTEM(fcntl, fd, command, value);
}
int fcntl64(int fd, int command, ...) {
    va_list rest; va_start(rest, command); void *value = va_arg(rest, void *); va_end(rest);
    FAILS(FCNTL, fd)
    return SYSTEM(fcntl, fd, command, value);
}
int socket(int domain, int type, int protocol) {
    if (meant(SOCKET, "socket")) { errno = fault_error; return -1; }
    return SYSTEM(socket, domain, type, protocol);
}
int bind(int fd, const struct sockaddr *address, socklen_t size) { FAILS(BIND, fd) return SYSTEM(bind, fd, address, size); }
int setsockopt(int fd, int level, int name, const void *value, socklen_t size) {
    const char *target = name == SO_RCVTIMEO ? "timeout" : name == SO_RCVBUF && size >= 4 && *(const int *)value >= 1 << 30 ? "room" : "other";
    if (active && meant(SETSOCKOPT, target)) { errno = fault_error; return -1; }
    if (active && level == SOL_SOCKET && name == SO_RCVTIMEO && size >= sizeof(struct timeval)) {
        struct timeval wait = *(const struct timeval *)value;
        long micros = (wait.tv_sec * 1000000 + wait.tv_usec) / speed;
        wait.tv_sec = micros / 1000000, wait.tv_usec = micros % 1000000;
        return SYSTEM(setsockopt, fd, level, name, &wait, sizeof wait);
    }
    return SYSTEM(setsockopt, fd, level, name, value, size);
}
ssize_t recvfrom(int fd, void *restrict to, size_t count, int flags, struct sockaddr *restrict address, socklen_t *restrict size) {
    FAILS(RECVFROM, fd)
    return SYSTEM(recvfrom, fd, to, count, flags, address, size);
}
ssize_t sendto(int fd, const void *from, size_t count, int flags, const struct sockaddr *address, socklen_t size) {
    if (meant_of(SENDTO, fd)) { long n = taken(count); if (n < 0) return n; count = n; }
    return SYSTEM(sendto, fd, from, count, flags, address, size);
}
int poll(struct pollfd *asked, nfds_t count, int wait) {
    /* an error of 0 stands for a wait that is over */
    if (active && meant_of(POLL, count == 1 ? asked[0].fd : -1)) { if (!fault_error) return 0; errno = fault_error; return -1; }
    return SYSTEM(poll, asked, count, active && wait > 0 ? wait / speed : wait);
}
int nanosleep(const struct timespec *asked, struct timespec *left) {
    if (meant(NANOSLEEP, "time")) { errno = fault_error; if (left) *left = *asked; return -1; }
    if (!active) return SYSTEM(nanosleep, asked, left);
    long long nanos = (asked->tv_sec * 1000000000ll + asked->tv_nsec) / speed;
    struct timespec wait = {nanos / 1000000000, nanos % 1000000000};
    return SYSTEM(nanosleep, &wait, left);
}
int posix_spawn(pid_t *child, const char *path, const posix_spawn_file_actions_t *actions, const posix_spawnattr_t *settings,
                char *const words[], char *const environment[]) {
    if (meant(SPAWN, last_part(path))) return fault_error;
    return REAL(posix_spawn)(child, path, actions, settings, words, environment);
}
int posix_spawnp(pid_t *child, const char *path, const posix_spawn_file_actions_t *actions, const posix_spawnattr_t *settings,
                 char *const words[], char *const environment[]) {
    if (meant(SPAWN, last_part(path))) return fault_error;
    return REAL(posix_spawnp)(child, path, actions, settings, words, environment);
}
pid_t waitpid(pid_t child, int *status, int options) {
    if (meant(WAITPID, "child")) { errno = fault_error; return -1; }
    return SYSTEM(wait4, child, status, options, 0);
}
int getrlimit(__rlimit_resource_t kind, struct rlimit *limit) {
    if (meant(GETRLIMIT, kind == RLIMIT_FSIZE ? "size" : "other")) { errno = fault_error; return -1; }
    return SYSTEM(getrlimit, kind, limit);
}
int clock_gettime(clockid_t clock, struct timespec *time) {
    if (!active || clock != CLOCK_REALTIME) return SYSTEM(clock_gettime, clock, time);
    if (meant(CLOCK, "time")) { errno = fault_error; return -1; }
    int status = SYSTEM(clock_gettime, clock, time);
    long long nanos = ((time->tv_sec - start) * 1000000000ll + time->tv_nsec) * speed;
    time->tv_sec = start + nanos / 1000000000, time->tv_nsec = nanos % 1000000000;
    return status;
}
int close(int fd) {
    if (meant_of(CLOSE, fd)) { SYSTEM(close, fd); errno = fault_error; return -1; }
    return SYSTEM(close, fd);
}
int getaddrinfo(const char *restrict name, const char *restrict service, const struct addrinfo *restrict hints, struct addrinfo **restrict found) {
    int is_meant = meant(LOOKUP, name ? last_part(name) : "none");
    if (is_meant && !fault_put) { errno = EIO; return -fault_error; }
    looks_up = 1;
    int status = REAL(getaddrinfo)(name, service, hints, found);
    if (is_meant && status == 0) {
        /* as the C library makes them: the address lies behind, in one piece of memory */
        struct addrinfo *first = calloc(1, sizeof *first + sizeof(struct sockaddr_in6));
        *first = **found;
        first->ai_family = AF_INET6, first->ai_addrlen = sizeof(struct sockaddr_in6), first->ai_canonname = 0, first->ai_next = *found;
        struct sockaddr_in6 *address = (struct sockaddr_in6 *)(first + 1);
        address->sin6_family = AF_INET6, address->sin6_addr = in6addr_loopback;
        address->sin6_port = ((struct sockaddr_in *)(*found)->ai_addr)->sin_port;
        first->ai_addr = (struct sockaddr *)address;
        *found = first;
    }
    looks_up = 0;
    return status;
}
void *__libc_malloc(size_t size);
void *__libc_realloc(void *old, size_t size);
void *malloc(size_t size) {
    if (!looks_up && meant(MALLOC, "memory")) { errno = ENOMEM; return 0; }
    return __libc_malloc(size);
}
void *realloc(void *old, size_t size) {
    if (!looks_up && meant(MALLOC, "memory")) { errno = ENOMEM; return 0; }
    return __libc_realloc(old, size);
}
