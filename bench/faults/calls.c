// Lets calls of the system fail in a program into which this library is loaded. Before `main` it waits for a request on
// the descriptor 198, plays the program in a child, and answers on 199 with the wait status and all calls that counted. A
// request of no bytes ends it. So a program is loaded once and played as often as one likes.
//
// What counts, each with a letter: `o` the opening of the file FAULTS_FILE, `r` a read of it or of standard input, `w` a write
// to standard output, `e` one to standard error, `c` the closing of the file. With bench/refused/refused.c beside it allocations
// count too, and can be refused.
#define _GNU_SOURCE
#include <dlfcn.h>
#include <errno.h>
#include <fcntl.h>
#include <signal.h>
#include <stdarg.h>
#include <stdatomic.h>
#include <stdint.h>
#include <stdio.h>
#include <stdlib.h>
#include <string.h>
#include <sys/mman.h>
#include <sys/prctl.h>
#include <sys/syscall.h>
#include <sys/time.h>
#include <sys/uio.h>
#include <sys/wait.h>
#include <unistd.h>

enum { REQUESTS = 198, ANSWERS = 199, MOST_CALLS = 1 << 20 };

struct request {
    uint32_t at;          // the number of the call that fails, from 1; 0 for none
    uint32_t on;          // whether all after it fail too
    uint32_t reason;      // the errno of a failure; 0 for an answer of 0 bytes
    uint32_t read_most;   // the most bytes of a read, and of a write; 0 for any number
    uint32_t write_most;
    uint32_t seconds;     // of a processor after which the child is ended; ten times as long by the clock
    uint32_t refused;     // the number of the allocation that is refused, from 1; 0 for none
    uint32_t refused_on;  // whether all after it are refused too
    char in[200], out[200], err[200];
};

struct call {
    int32_t letter, asked, answer;
};

struct calls {
    atomic_ulong allocations;
    uint32_t count;
    struct call all[MOST_CALLS];
};

// Of refused.c, if it is loaded: refuses an allocation from now on, with all after it if `on`, and counts all at `place`.
__attribute__((weak)) void refuse(unsigned long number, int on, atomic_ulong *place);

static struct request now;
static struct calls *seen;
static const char *name;
static int file = -1, counts = 0;

// Whether this call, of that letter, has to fail; the place where it is noted is left in `noted`.
static struct call *note(int letter, size_t asked) {
    if (seen->count == MOST_CALLS) abort();
    struct call *noted = &seen->all[seen->count++];
    noted->letter = letter;
    noted->asked = (int32_t)asked;
    return noted;
}

static int fails(void) { return now.at && (seen->count == now.at || (now.on && seen->count > now.at)); }

static long failed(struct call *noted) {
    noted->answer = now.reason ? -(int32_t)now.reason : 0;
    errno = (int)now.reason;
    return now.reason ? -1 : 0;
}

static long answered(struct call *noted, long answer) {
    noted->answer = answer < 0 ? -errno : (int32_t)answer;
    return answer;
}

static int is_input(int fd) { return counts && (fd == 0 || fd == file); }

static int is_output(int fd) { return counts && (fd == 1 || fd == 2); }

static size_t at_most(size_t size, uint32_t most) { return most && size > most ? most : size; }

ssize_t read(int fd, void *into, size_t size) {
    if (!is_input(fd)) return syscall(SYS_read, fd, into, size);
    struct call *noted = note('r', size);
    if (fails()) return failed(noted);
    return answered(noted, syscall(SYS_read, fd, into, at_most(size, now.read_most)));
}

ssize_t write(int fd, const void *from, size_t size) {
    if (!is_output(fd)) return syscall(SYS_write, fd, from, size);
    struct call *noted = note(fd == 1 ? 'w' : 'e', size);
    if (fails()) return failed(noted);
    return answered(noted, syscall(SYS_write, fd, from, at_most(size, fd == 1 ? now.write_most : 0)));
}

// Pieces in several rooms count as one call, of which the first room alone is used.
ssize_t readv(int fd, const struct iovec *rooms, int count) {
    if (!is_input(fd)) return syscall(SYS_readv, fd, rooms, count);
    for (int it = 0; it < count; it++)
        if (rooms[it].iov_len) return read(fd, rooms[it].iov_base, rooms[it].iov_len);
    return 0;
}

ssize_t writev(int fd, const struct iovec *rooms, int count) {
    if (!is_output(fd)) return syscall(SYS_writev, fd, rooms, count);
    for (int it = 0; it < count; it++)
        if (rooms[it].iov_len) return write(fd, rooms[it].iov_base, rooms[it].iov_len);
    return 0;
}

static int opened(int folder, const char *path, int flags, int mode) {
    if (!counts || strcmp(path, name)) return (int)syscall(SYS_openat, folder, path, flags, mode);
    struct call *noted = note('o', 0);
    if (fails()) {
        // To open has no answer of 0 bytes.
        noted->answer = now.reason ? -(int32_t)now.reason : -EIO;
        errno = now.reason ? (int)now.reason : EIO;
        return -1;
    }
    file = (int)answered(noted, syscall(SYS_openat, folder, path, flags, mode));
    return file;
}

#define MODE(flags) ({ va_list rest; va_start(rest, flags); int it = (flags) & (O_CREAT | O_TMPFILE) ? va_arg(rest, int) : 0; va_end(rest); it; })
int open(const char *path, int flags, ...) { return opened(AT_FDCWD, path, flags, MODE(flags)); }
int open64(const char *path, int flags, ...) { return opened(AT_FDCWD, path, flags, MODE(flags)); }
int openat(int folder, const char *path, int flags, ...) { return opened(folder, path, flags, MODE(flags)); }
int openat64(int folder, const char *path, int flags, ...) { return opened(folder, path, flags, MODE(flags)); }

int close(int fd) {
    if (!counts || fd != file) return (int)syscall(SYS_close, fd);
    struct call *noted = note('c', 0);
    file = -1;
    if (fails()) {
        syscall(SYS_close, fd);
        return (int)failed(noted);
    }
    return (int)answered(noted, syscall(SYS_close, fd));
}

static int moved(const char *path, int flags, int to) {
    if (!*path) return 1;
    int fd = (int)syscall(SYS_openat, AT_FDCWD, path, flags, 0600);
    if (fd < 0 || dup2(fd, to) < 0) return 0;
    if (fd != to) syscall(SYS_close, fd);
    return 1;
}

static int whole(int is_read, int fd, void *at, size_t size) {
    char *bytes = at;
    while (size) {
        long count = syscall(is_read ? SYS_read : SYS_write, fd, bytes, size);
        if (count < 0 && errno == EINTR) continue;
        if (count <= 0) return 0;
        bytes += count;
        size -= (size_t)count;
    }
    return 1;
}

__attribute__((constructor)) static void begin(void) {
    name = getenv("FAULTS_FILE");
    if (!name) return;
    unsetenv("LD_PRELOAD");
    prctl(PR_SET_PDEATHSIG, SIGKILL);
    seen = mmap(NULL, sizeof *seen, PROT_READ | PROT_WRITE, MAP_SHARED | MAP_ANONYMOUS, -1, 0);
    if (seen == MAP_FAILED) _exit(125);
    while (whole(1, REQUESTS, &now, sizeof now)) {
        seen->count = 0;
        atomic_store(&seen->allocations, 0);
        pid_t child = fork();
        if (child == 0) {
            prctl(PR_SET_PDEATHSIG, SIGKILL);
            syscall(SYS_close, REQUESTS);
            syscall(SYS_close, ANSWERS);
            if (!moved(now.in, O_RDONLY, 0) || !moved(now.out, O_WRONLY | O_CREAT | O_TRUNC, 1) ||
                !moved(now.err, O_WRONLY | O_CREAT | O_TRUNC, 2))
                syscall(SYS_exit_group, 125);
            struct itimerval most = {{0, 0}, {now.seconds, 0}};
            setitimer(ITIMER_PROF, &most, NULL);
            alarm(10 * now.seconds);
            counts = 1;
            if (refuse) refuse(now.refused, (int)now.refused_on, &seen->allocations);
            return;
        }
        int32_t status = -1;
        if (child > 0)
            while (waitpid(child, &status, 0) < 0 && errno == EINTR) {}
        uint32_t counted[2] = {(uint32_t)atomic_load(&seen->allocations), seen->count};
        if (!whole(0, ANSWERS, &status, sizeof status) || !whole(0, ANSWERS, counted, sizeof counted) ||
            !whole(0, ANSWERS, seen->all, seen->count * sizeof seen->all[0]))
            break;
    }
    syscall(SYS_exit_group, 0);
}
