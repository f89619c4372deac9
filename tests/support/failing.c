/* Stands before the C library of a program whose calls of the system are to fail, one at a time.

   FAILING names the calls that fail, with commas between them: CALL NUMBER, or CALL@PORT NUMBER for a call on a socket whose other end
   has this port. `recv 2` is the second recv of all, `send@24051 3` the third send to port 24051. The calls are recv, send, accept,
   connect, draw (a read of /dev/urandom), input (a read of standard input), output (a write of standard output), pread, pwrite, fsync,
   disk (one of these three), dup (of a file descriptor) and thread (the start of one).

   Where recv calls are counted, a recv gives a record's mark, or what is left of the record behind it, but no byte of the next one: so
   their number doesn't hang on how the bytes come together on their way.

   A program gives a standard stream up behind a call that failed: one that reads or writes it once more ends with status 99.

   Each call that failed so is told in a line of the file that FAILED names. */

#define _GNU_SOURCE
#include <dlfcn.h>
#include <errno.h>
#include <fcntl.h>
#include <netinet/in.h>
#include <poll.h>
#include <pthread.h>
#include <stdarg.h>
#include <stdatomic.h>
#include <stdint.h>
#include <stdio.h>
#include <stdlib.h>
#include <string.h>
#include <sys/socket.h>
#include <sys/stat.h>
#include <sys/sysmacros.h>
#include <sys/uio.h>
#include <unistd.h>

#define GONE_ON 99
#define MOST_RULES 16
#define MOST_FILES 1024

struct rule {
    char call[16];
    unsigned port;
    unsigned long number;
    atomic_ulong met;
};

/* Where a socket is in the stream of records that it brings: how many bytes of a mark have come, and how many of a record have not. */
struct place {
    unsigned char mark[4];
    unsigned come;
    size_t left;
};

static struct rule rules[MOST_RULES];
static struct place places[MOST_FILES];
static int count, told = -1, cuts;

#define REAL(name) ((__typeof__(&name))real(#name))

static void *real(const char *name)
{
    void *found = dlsym(RTLD_NEXT, name);
    if (!found)
        abort();
    return found;
}

__attribute__((constructor)) static void begin(void)
{
    const char *text = getenv("FAILING"), *file = getenv("FAILED");
    char *copy = strdup(text ? text : ""), *rest = NULL;
    for (char *one = strtok_r(copy, ",", &rest); one && count < MOST_RULES; one = strtok_r(NULL, ",", &rest)) {
        struct rule *rule = &rules[count];
        if (sscanf(one, " %15[a-z]@%u %lu", rule->call, &rule->port, &rule->number) == 3 ||
            sscanf(one, " %15[a-z] %lu", rule->call, &rule->number) == 2) {
            cuts |= !strcmp(rule->call, "recv");
            count++;
        } else {
            fprintf(stderr, "FAILING has no call: %s\n", one);
            abort();
        }
    }
    free(copy);
    told = file ? open(file, O_WRONLY | O_CREAT | O_APPEND | O_CLOEXEC, 0600) : -1;
}

/* The port of a socket's other end, or 0. */
static unsigned port_of(int fd)
{
    struct sockaddr_in address;
    socklen_t length = sizeof address;
    if (getpeername(fd, (struct sockaddr *)&address, &length) || address.sin_family != AF_INET)
        return 0;
    return ntohs(address.sin_port);
}

/* Counts a call, on a socket with this port at its other end, and says whether it fails. */
static int fails(const char *call, unsigned port, int why)
{
    int failed = 0;
    for (int at = 0; at < count; at++) {
        struct rule *rule = &rules[at];
        if (strcmp(rule->call, call) || (rule->port && rule->port != port))
            continue;
        if (atomic_fetch_add(&rule->met, 1) + 1 == rule->number) {
            failed = 1;
            if (told >= 0)
                dprintf(told, "%s %lu\n", call, rule->number);
        }
    }
    if (failed)
        errno = why;
    return failed;
}

static void forget(int fd)
{
    if (fd >= 0 && fd < MOST_FILES)
        memset(&places[fd], 0, sizeof places[fd]);
}

/* A recv that doesn't pass the end of a mark or of a record. */
static ssize_t recv_part(int fd, void *buffer, size_t length, int flags)
{
    struct place *place = &places[fd];
    size_t most = place->left ? place->left : sizeof place->mark - place->come;
    ssize_t got = REAL(recv)(fd, buffer, length < most ? length : most, flags);
    if (got <= 0 || (flags & MSG_PEEK))
        return got;
    if (place->left) {
        place->left -= (size_t)got;
        return got;
    }
    memcpy(place->mark + place->come, buffer, (size_t)got);
    place->come += (unsigned)got;
    if (place->come == sizeof place->mark) {
        uint32_t mark;
        memcpy(&mark, place->mark, sizeof mark);
        place->left = ntohl(mark) & 0x7FFFFFFF;
        place->come = 0;
    }
    return got;
}

ssize_t recv(int fd, void *buffer, size_t length, int flags)
{
    if (fails("recv", port_of(fd), ECONNRESET))
        return -1;
    if (cuts && fd < MOST_FILES)
        return recv_part(fd, buffer, length, flags);
    return REAL(recv)(fd, buffer, length, flags);
}

ssize_t send(int fd, const void *buffer, size_t length, int flags)
{
    return fails("send", port_of(fd), EPIPE) ? -1 : REAL(send)(fd, buffer, length, flags);
}

int accept4(int fd, struct sockaddr *address, socklen_t *length, int flags)
{
    if (fails("accept", 0, ECONNABORTED)) {
        /* A connection that is there can't be had, and waits. */
        struct pollfd comes = {.fd = fd, .events = POLLIN};
        while (poll(&comes, 1, -1) < 0 && errno == EINTR)
            ;
        errno = ECONNABORTED;
        return -1;
    }
    int made = REAL(accept4)(fd, address, length, flags);
    forget(made);
    return made;
}

int connect(int fd, const struct sockaddr *address, socklen_t length)
{
    unsigned port = address->sa_family == AF_INET ? ntohs(((const struct sockaddr_in *)address)->sin_port) : 0;
    if (fails("connect", port, ECONNREFUSED))
        return -1;
    forget(fd);
    return REAL(connect)(fd, address, length);
}

/* Whether a call on a standard stream fails. None follows one that failed. */
static int stream_fails(const char *call)
{
    static atomic_int has_failed[2];
    atomic_int *failed = &has_failed[!strcmp(call, "output")];
    if (atomic_load(failed))
        _exit(GONE_ON);
    if (!fails(call, 0, EIO))
        return 0;
    atomic_store(failed, 1);
    return 1;
}

static int read_fails(int fd)
{
    struct stat file;
    if (fd == STDIN_FILENO)
        return stream_fails("input");
    return !fstat(fd, &file) && S_ISCHR(file.st_mode) && file.st_rdev == makedev(1, 9) && fails("draw", 0, EIO);
}

static int disk_fails(const char *call)
{
    /* Both are counted. */
    return fails(call, 0, EIO) | fails("disk", 0, EIO);
}

ssize_t read(int fd, void *buffer, size_t length)
{
    return read_fails(fd) ? -1 : REAL(read)(fd, buffer, length);
}

ssize_t readv(int fd, const struct iovec *parts, int number)
{
    return read_fails(fd) ? -1 : REAL(readv)(fd, parts, number);
}

ssize_t write(int fd, const void *buffer, size_t length)
{
    return fd == STDOUT_FILENO && stream_fails("output") ? -1 : REAL(write)(fd, buffer, length);
}

ssize_t writev(int fd, const struct iovec *parts, int number)
{
    return fd == STDOUT_FILENO && stream_fails("output") ? -1 : REAL(writev)(fd, parts, number);
}

ssize_t pread(int fd, void *buffer, size_t length, off_t offset)
{
    return disk_fails("pread") ? -1 : REAL(pread)(fd, buffer, length, offset);
}

ssize_t pread64(int fd, void *buffer, size_t length, off_t offset)
{
    return disk_fails("pread") ? -1 : REAL(pread64)(fd, buffer, length, offset);
}

ssize_t pwrite(int fd, const void *buffer, size_t length, off_t offset)
{
    return disk_fails("pwrite") ? -1 : REAL(pwrite)(fd, buffer, length, offset);
}

ssize_t pwrite64(int fd, const void *buffer, size_t length, off_t offset)
{
    return disk_fails("pwrite") ? -1 : REAL(pwrite64)(fd, buffer, length, offset);
}

int fsync(int fd)
{
    return disk_fails("fsync") ? -1 : REAL(fsync)(fd);
}

int fdatasync(int fd)
{
    return disk_fails("fsync") ? -1 : REAL(fdatasync)(fd);
}

int fcntl(int fd, int command, ...)
{
    va_list given;
    va_start(given, command);
    void *argument = va_arg(given, void *);
    va_end(given);
    if ((command == F_DUPFD || command == F_DUPFD_CLOEXEC) && fails("dup", 0, EMFILE))
        return -1;
    return REAL(fcntl)(fd, command, argument);
}

int pthread_create(pthread_t *thread, const pthread_attr_t *attributes, void *(*work)(void *), void *argument)
{
    return fails("thread", 0, EAGAIN) ? EAGAIN : REAL(pthread_create)(thread, attributes, work, argument);
}
