// Lets one call of a server fail: of the connection that it accepts first the receive (`r`), the send (`w`) or the closing (`c`) with the
// number LINK_AT, from 1, or the accept (`a`) with that number. LINK_CALL is the letter. A receive counts if bytes came. That it has failed
// is noted by the file LINK_TOLD.
#define _GNU_SOURCE
#include <errno.h>
#include <fcntl.h>
#include <stdatomic.h>
#include <stdlib.h>
#include <sys/socket.h>
#include <sys/syscall.h>
#include <sys/uio.h>
#include <unistd.h>

static char letter;
static long at;
static atomic_long count, accepted;
static atomic_int first = -1;

__attribute__((constructor)) static void begin(void) {
    const char *name = getenv("LINK_CALL"), *number = getenv("LINK_AT");
    letter = name ? *name : 0;
    at = number ? atol(number) : 0;
}

static int failed(int reason) {
    const char *path = getenv("LINK_TOLD");
    int told = path ? (int)syscall(SYS_openat, AT_FDCWD, path, O_WRONLY | O_CREAT, 0600) : -1;
    if (told >= 0) syscall(SYS_close, told);
    errno = reason;
    return -1;
}

static int fails(int fd, char it) { return fd == first && letter == it && atomic_fetch_add(&count, 1) + 1 == at; }

static int given(int made) {
    if (made < 0) return made;
    long number = atomic_fetch_add(&accepted, 1) + 1;
    if (letter == 'a' && number == at) {
        syscall(SYS_close, made);
        return failed(EMFILE);
    }
    if (number == 1) first = made;
    return made;
}

int accept4(int fd, struct sockaddr *address, socklen_t *size, int flags) { return given((int)syscall(SYS_accept4, fd, address, size, flags)); }

int accept(int fd, struct sockaddr *address, socklen_t *size) { return accept4(fd, address, size, 0); }

static ssize_t come(int fd, ssize_t size) { return size > 0 && fails(fd, 'r') ? failed(ECONNRESET) : size; }

ssize_t recvfrom(int fd, void *into, size_t size, int flags, struct sockaddr *address, socklen_t *length) {
    ssize_t got = syscall(SYS_recvfrom, fd, into, size, flags, address, length);
    return flags & MSG_PEEK ? got : come(fd, got);
}

ssize_t recv(int fd, void *into, size_t size, int flags) { return recvfrom(fd, into, size, flags, NULL, NULL); }

ssize_t read(int fd, void *into, size_t size) { return come(fd, syscall(SYS_read, fd, into, size)); }

ssize_t readv(int fd, const struct iovec *rooms, int many) { return come(fd, syscall(SYS_readv, fd, rooms, many)); }

ssize_t sendto(int fd, const void *from, size_t size, int flags, const struct sockaddr *address, socklen_t length) {
    return fails(fd, 'w') ? failed(EPIPE) : syscall(SYS_sendto, fd, from, size, flags, address, length);
}

ssize_t send(int fd, const void *from, size_t size, int flags) { return sendto(fd, from, size, flags, NULL, 0); }

ssize_t write(int fd, const void *from, size_t size) { return fails(fd, 'w') ? failed(EPIPE) : syscall(SYS_write, fd, from, size); }

ssize_t writev(int fd, const struct iovec *rooms, int many) { return fails(fd, 'w') ? failed(EPIPE) : syscall(SYS_writev, fd, rooms, many); }

int close(int fd) {
    int is_first = fd == first && fd >= 0, is_failed = fails(fd, 'c');
    if (is_first) first = -1;
    int answer = (int)syscall(SYS_close, fd);
    return is_failed ? failed(EIO) : answer;
}
