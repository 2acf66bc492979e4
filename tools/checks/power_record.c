/* Loaded before the C library, it records what a program does to the files of one folder, and what it receives and
   sends, in the order in which this happens. tools/checks/power_failure.py compiles it and reads the record.

   POWER_FOLDER   the folder, by its true path
   POWER_RECORD   the file that the records are appended to, by all programs of a run
   POWER_CALL     a number that the record of the program's start carries
   POWER_FAIL     this sync of a file of the folder, counted from 1 from the first connection that is accepted,
                  fails with EIO and brings nothing to the disk; with a minus before it, it ends the program too

   SIGUSR1 ends the program on the spot, as SIGKILL does, but never between a change and its record.

   A change of a file is made and recorded under one lock, so that the record has the order of the disk. A sync has a
   record where it begins and one where it ends: what was written meanwhile need not be covered by it. What is sent is
   recorded before it is sent. */
#define _GNU_SOURCE
#include <dlfcn.h>
#include <errno.h>
#include <fcntl.h>
#include <limits.h>
#include <pthread.h>
#include <signal.h>
#include <stdarg.h>
#include <stdint.h>
#include <stdio.h>
#include <stdlib.h>
#include <string.h>
#include <sys/socket.h>
#include <sys/stat.h>
#include <sys/syscall.h>
#include <sys/uio.h>
#include <unistd.h>

enum { MOST = 4096 };
enum kind { OTHER, FILE_OF_FOLDER, FOLDER, SOCKET };

struct head {
    uint32_t what, process;
    int32_t file, result;
    int64_t place, length;
};

static pthread_mutex_t lock = PTHREAD_MUTEX_INITIALIZER;
static enum kind kinds[MOST];
static char folder[PATH_MAX];
static size_t folder_length;
static int record = -1, counts, fails, is_end;
static volatile sig_atomic_t is_killed;

#define REAL(name) ((__typeof__(name) *)dlsym(RTLD_NEXT, #name))

static void note(char what, int file, int result, int64_t place, const void *data, int64_t length) {
    struct head head = {(uint32_t)what, (uint32_t)getpid(), file, result, place, length};
    struct iovec parts[2] = {{&head, sizeof head}, {(void *)data, (size_t)length}};
    if (record < 0)
        return;
    if (syscall(SYS_writev, record, parts, 2L) != (ssize_t)(sizeof head + (size_t)length)) {
        static const char text[] = "power_record: the record could not be written\n";
        syscall(SYS_write, 2L, text, sizeof text - 1);
        syscall(SYS_exit_group, 99L);
    }
}

static void let_go(void) {
    if (is_killed)
        syscall(SYS_exit_group, 137L);
    pthread_mutex_unlock(&lock);
}

/* Whoever holds the lock ends the program as it lets go. */
static void on_kill(int number) {
    (void)number;
    is_killed = 1;
    if (pthread_mutex_trylock(&lock) == 0)
        syscall(SYS_exit_group, 137L);
}

static void note_end(int status, void *none) {
    (void)none;
    note('E', 0, status, 0, "", 0);
}

void _exit(int status) {
    note_end(status, NULL);
    for (;;)
        syscall(SYS_exit_group, (long)status);
}

__attribute__((constructor)) static void begin(void) {
    const char *path = getenv("POWER_RECORD"), *call = getenv("POWER_CALL"), *fail = getenv("POWER_FAIL");
    if (!path || !getenv("POWER_FOLDER") || !realpath(getenv("POWER_FOLDER"), folder))
        return;
    folder_length = strlen(folder);
    fails = fail ? abs(atoi(fail)) : 0;
    is_end = fail && fail[0] == '-';
    record = (int)syscall(SYS_openat, AT_FDCWD, path, O_WRONLY | O_APPEND | O_CREAT | O_CLOEXEC, 0600);
    kinds[1] = SOCKET;
    on_exit(note_end, NULL);
    sigaction(SIGUSR1, &(struct sigaction){.sa_handler = on_kill, .sa_flags = SA_RESTART}, NULL);
    note('P', 0, 0, call ? atoll(call) : 0, "", 0);
}

static enum kind kind_of(int file) { return file >= 0 && file < MOST ? kinds[file] : OTHER; }

static void set_kind(int file, enum kind kind) {
    if (file >= MOST) {
        static const char text[] = "power_record: too many open files\n";
        syscall(SYS_write, 2L, text, sizeof text - 1);
        syscall(SYS_exit_group, 99L);
    }
    if (file >= 0)
        kinds[file] = kind;
}

/* The name in the folder, "" for the folder itself, and NULL for what is elsewhere. The whole path is kept in `room`. */
static const char *name_of(int at, const char *path, char *room) {
    char up[PATH_MAX], base[NAME_MAX + 1];
    const char *slash = strrchr(path, '/');
    if (record < 0 || (path[0] != '/' && at != AT_FDCWD))
        return NULL;
    snprintf(base, sizeof base, "%s", slash ? slash + 1 : path);
    snprintf(up, sizeof up, "%.*s", slash ? (int)(slash - path) + (slash == path) : 1, slash ? path : ".");
    if (realpath(path, room) && strcmp(room, folder) == 0)
        return "";
    if (!realpath(up, room) || strcmp(room, folder) != 0)
        return NULL;
    return strcpy(room, base);
}

static int opened(int at, const char *path, int flags, mode_t mode) {
    char room[PATH_MAX];
    const char *name = name_of(at, path, room);
    if (!name)
        return (int)syscall(SYS_openat, at, path, flags, mode);
    pthread_mutex_lock(&lock);
    int is_there = faccessat(at, path, F_OK, AT_SYMLINK_NOFOLLOW) == 0;
    int file = (int)syscall(SYS_openat, at, path, flags, mode), failed = errno;
    if (file >= 0) {
        set_kind(file, *name ? FILE_OF_FOLDER : FOLDER);
        note('O', file, !is_there, flags & O_TRUNC, name, (int64_t)strlen(name));
    }
    let_go();
    errno = failed;
    return file;
}

#define OPENED_AT(at)                                                                                                  \
    mode_t mode = 0;                                                                                                   \
    if (flags & (O_CREAT | __O_TMPFILE)) {                                                                             \
        va_list more;                                                                                                  \
        va_start(more, flags);                                                                                         \
        mode = va_arg(more, mode_t);                                                                                   \
        va_end(more);                                                                                                  \
    }                                                                                                                  \
    return opened(at, path, flags, mode);

int open(const char *path, int flags, ...) { OPENED_AT(AT_FDCWD) }
int open64(const char *path, int flags, ...) { OPENED_AT(AT_FDCWD) }
int openat(int at, const char *path, int flags, ...) { OPENED_AT(at) }
int openat64(int at, const char *path, int flags, ...) { OPENED_AT(at) }
int creat(const char *path, mode_t mode) { return opened(AT_FDCWD, path, O_CREAT | O_WRONLY | O_TRUNC, mode); }

int close(int file) {
    if (kind_of(file) != OTHER) {
        pthread_mutex_lock(&lock);
        note('C', file, 0, 0, "", 0);
        set_kind(file, OTHER);
        let_go();
    }
    return (int)syscall(SYS_close, file);
}

ssize_t pwrite(int file, const void *data, size_t size, off_t place) {
    if (kind_of(file) != FILE_OF_FOLDER)
        return syscall(SYS_pwrite64, file, data, size, place);
    pthread_mutex_lock(&lock);
    ssize_t done = syscall(SYS_pwrite64, file, data, size, place);
    int failed = errno;
    if (done > 0)
        note('W', file, 0, place, data, done);
    let_go();
    errno = failed;
    return done;
}

ssize_t pwrite64(int file, const void *data, size_t size, off64_t place) { return pwrite(file, data, size, place); }

/* What is sent by more than one piece is recorded as one. */
static ssize_t sent(int file, const void *data, size_t size, long call, long flags) {
    pthread_mutex_lock(&lock);
    note('w', file, 0, 0, data, (int64_t)size);
    let_go();
    ssize_t done = call == SYS_write ? syscall(SYS_write, file, data, size)
                                     : syscall(SYS_sendto, file, data, size, flags, NULL, 0L);
    int failed = errno;
    if (done != (ssize_t)size)
        note('t', file, 0, done < 0 ? (int64_t)size : (int64_t)size - done, "", 0);
    errno = failed;
    return done;
}

ssize_t write(int file, const void *data, size_t size) {
    if (kind_of(file) == FILE_OF_FOLDER) {
        pthread_mutex_lock(&lock);
        off_t place = lseek(file, 0, fcntl(file, F_GETFL) & O_APPEND ? SEEK_END : SEEK_CUR);
        ssize_t done = syscall(SYS_write, file, data, size);
        int failed = errno;
        if (done > 0)
            note('W', file, 0, place, data, done);
        let_go();
        errno = failed;
        return done;
    }
    return kind_of(file) == SOCKET ? sent(file, data, size, SYS_write, 0) : syscall(SYS_write, file, data, size);
}

ssize_t __write(int file, const void *data, size_t size) { return write(file, data, size); }

ssize_t send(int file, const void *data, size_t size, int flags) {
    return kind_of(file) == SOCKET ? sent(file, data, size, SYS_sendto, flags)
                                   : syscall(SYS_sendto, file, data, size, (long)flags, NULL, 0L);
}

/* A program that begins to use these makes the rebuilt files differ, or its replies missing; so they end it. */
static ssize_t unknown(const char *name) {
    dprintf(2, "power_record: %s of what is recorded\n", name);
    syscall(SYS_exit_group, 99L);
    return -1;
}

#define REFUSED(answer, name, words, given)                                                                            \
    answer name words { return kind_of(file) != OTHER ? (answer)unknown(#name) : REAL(name) given; }
REFUSED(ssize_t, pwritev, (int file, const struct iovec *parts, int count, off_t place), (file, parts, count, place))
REFUSED(ssize_t, pwritev64, (int file, const struct iovec *parts, int count, off64_t place), (file, parts, count, place))
REFUSED(ssize_t, writev, (int file, const struct iovec *parts, int count), (file, parts, count))
REFUSED(ssize_t, sendmsg, (int file, const struct msghdr *text, int flags), (file, text, flags))
REFUSED(int, fallocate, (int file, int mode, off_t place, off_t size), (file, mode, place, size))
REFUSED(int, posix_fallocate, (int file, off_t place, off_t size), (file, place, size))
REFUSED(int, sync_file_range, (int file, off64_t place, off64_t size, unsigned flags), (file, place, size, flags))
REFUSED(int, dup, (int file), (file))

ssize_t recv(int file, void *data, size_t size, int flags) {
    ssize_t done = syscall(SYS_recvfrom, file, data, size, (long)flags, NULL, NULL);
    int failed = errno;
    if (done > 0 && kind_of(file) == SOCKET && !(flags & MSG_PEEK))
        note('r', file, 0, 0, data, done);
    errno = failed;
    return done;
}

ssize_t read(int file, void *data, size_t size) {
    ssize_t done = syscall(SYS_read, file, data, size);
    int failed = errno;
    if (done > 0 && kind_of(file) == SOCKET)
        note('r', file, 0, 0, data, done);
    errno = failed;
    return done;
}

int accept4(int listener, struct sockaddr *address, socklen_t *length, int flags) {
    int file = (int)syscall(SYS_accept4, listener, address, length, (long)flags), failed = errno;
    if (file >= 0) {
        pthread_mutex_lock(&lock);
        set_kind(file, SOCKET);
        note('A', file, 0, 0, "", 0);
        counts = 1;
        let_go();
    }
    errno = failed;
    return file;
}

int accept(int listener, struct sockaddr *address, socklen_t *length) { return accept4(listener, address, length, 0); }

int ftruncate(int file, off_t length) {
    pthread_mutex_lock(&lock);
    int answer = (int)syscall(SYS_ftruncate, file, length), failed = errno;
    if (answer == 0 && kind_of(file) == FILE_OF_FOLDER)
        note('T', file, 0, length, "", 0);
    let_go();
    errno = failed;
    return answer;
}

int ftruncate64(int file, off64_t length) { return ftruncate(file, length); }

/* Whether this sync is the one that fails. */
static int is_to_fail(void) { return counts && fails > 0 && --fails == 0; }

static int synced(int file, long call) {
    if (kind_of(file) != FILE_OF_FOLDER && kind_of(file) != FOLDER)
        return (int)syscall(call, file);
    pthread_mutex_lock(&lock);
    int is_failing = kind_of(file) == FILE_OF_FOLDER && is_to_fail();
    note('s', file, 0, 0, "", 0);
    let_go();
    int answer = is_failing ? -1 : (int)syscall(call, file), failed = is_failing ? EIO : errno;
    pthread_mutex_lock(&lock);
    note('S', file, answer, 0, "", 0);
    if (is_failing && is_end)
        syscall(SYS_exit_group, 5L);
    let_go();
    errno = failed;
    return answer;
}

int fsync(int file) { return synced(file, SYS_fsync); }
int fdatasync(int file) { return synced(file, SYS_fdatasync); }

static int renamed(int from, const char *old, int to, const char *new) {
    char one[PATH_MAX], two[PATH_MAX], both[2 * PATH_MAX];
    const char *first = name_of(from, old, one), *second = name_of(to, new, two);
    pthread_mutex_lock(&lock);
    int answer = (int)syscall(SYS_renameat, from, old, to, new), failed = errno;
    if (answer == 0 && (first || second)) {
        int length = snprintf(both, sizeof both, "%s/%s", first ? first : "", second ? second : "");
        note('R', -1, 0, 0, both, length);
    }
    let_go();
    errno = failed;
    return answer;
}

int rename(const char *old, const char *new) { return renamed(AT_FDCWD, old, AT_FDCWD, new); }
int renameat(int from, const char *old, int to, const char *new) { return renamed(from, old, to, new); }

static int removed(int at, const char *path, int flags) {
    char room[PATH_MAX];
    const char *name = name_of(at, path, room);
    pthread_mutex_lock(&lock);
    int answer = (int)syscall(SYS_unlinkat, at, path, (long)flags), failed = errno;
    if (answer == 0 && name)
        note('U', -1, 0, 0, name, (int64_t)strlen(name));
    let_go();
    errno = failed;
    return answer;
}

int unlink(const char *path) { return removed(AT_FDCWD, path, 0); }
int unlinkat(int at, const char *path, int flags) { return removed(at, path, flags); }
