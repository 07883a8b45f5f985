/* For trials/crash-trial and trials/hostile: makes one call of a program fail or differ, and logs the calls of the program.

   URNA_FAIL is `CALL ENDING N HOW`: the N-th call of this kind, counted from 1, on files whose names end with ENDING goes HOW. CALL is write,
   read, sync, open, rename, link, unlink, stat, seek, lock, dup or memory. ENDING may be `*`, for any file. Standard output is the file
   `display`. HOW is one of:
   - the number of an error: the call does nothing and fails; with a `+` before the number each later one does too;
   - `half`: a write writes half of its bytes and fails;
   - `short`: a write or a read moves half of its bytes and returns that;
   - `end`: it moves none and returns that;
   - `kill`: the process is killed in the middle of a write, or right after any other call.

   If N is `A-B`, each of these calls goes HOW in a copy of the process, a few of which run at once, and none does in the process itself. A
   copy touches no file: right before a call that isn't for memory it ends with the status 99. URNA_TELL gets a line `copy - N STATUS` for
   each copy, with a signal as a negative number, before the next call that isn't for memory, and none of a copy's calls.

   URNA_TELL names a file that gets a line `CALL NAME AT ANSWER` for each call, and for a write the written bytes after it. AT is the position
   of a write. ANSWER is the number of moved bytes, or the result of another call. A line `fault` precedes the line of a call that went
   another way. */
#define _GNU_SOURCE
#include <errno.h>
#include <fcntl.h>
#include <signal.h>
#include <stdarg.h>
#include <stdio.h>
#include <stdlib.h>
#include <string.h>
#include <sys/file.h>
#include <sys/prctl.h>
#include <sys/stat.h>
#include <sys/syscall.h>
#include <sys/wait.h>
#include <unistd.h>

#define NAME 4096
#define AT_ONCE 8

void *__libc_malloc(size_t);
void *__libc_calloc(size_t, size_t);
void *__libc_realloc(void *, size_t);
void *__libc_memalign(size_t, size_t);

static struct {
    char call[16], ending[64], how[16];
    long number, last;
} asked;
static long calls;
static int told = -1, begun;

/* The copies that run, each with the number of the call that goes another way in it. */
static struct {
    pid_t process;
    long number;
} copies[AT_ONCE];
static int running, is_copy;

/* Reads the variables before the program begins. The log goes to a descriptor above those that a program has. */
__attribute__((constructor)) static void begin(void) {
    const char *fail = getenv("URNA_FAIL"), *tell = getenv("URNA_TELL");
    char number[64];
    if (fail && sscanf(fail, "%15s %63s %63s %15s", asked.call, asked.ending, number, asked.how) != 4) {
        abort();
    }
    if (fail && sscanf(number, "%ld-%ld", &asked.number, &asked.last) < 1) {
        abort();
    }
    int file = tell ? open(tell, O_WRONLY | O_APPEND | O_CREAT | O_CLOEXEC, 0600) : -1;
    if (file >= 0) {
        told = fcntl(file, F_DUPFD_CLOEXEC, 200);
        close(file);
    }
    begun = 1;
}

/* The last part of a path. */
static const char *last_part(const char *path) {
    const char *slash = strrchr(path, '/');
    return slash && slash[1] ? slash + 1 : path;
}

static int ends_in(const char *name, const char *ending) {
    size_t length = strlen(name), size = strlen(ending);
    return strcmp(ending, "*") == 0 || (length >= size && strcmp(name + length - size, ending) == 0);
}

/* The name under which an open file was opened. */
static const char *name_of(int file, char *path) {
    static const char removed[] = " (deleted)";
    char link[64];
    if (file == STDOUT_FILENO) {
        return "display";
    }
    snprintf(link, sizeof link, "/proc/self/fd/%d", file);
    ssize_t length = readlink(link, path, NAME - 1);
    path[length < 0 ? 0 : length] = 0;
    if (ends_in(path, removed)) {
        path[length - (sizeof removed - 1)] = 0;
    }
    return last_part(path);
}

/* Logs a call that was made, and the bytes that it wrote. */
static void tell(const char *call, const char *name, long at, long count, const void *bytes) {
    char line[NAME + 64];
    int error = errno;
    if (told >= 0) {
        int length = snprintf(line, sizeof line, "%s %s %ld %ld\n", call, name, at, count);
        syscall(SYS_write, told, line, length);
        if (bytes && count > 0) {
            syscall(SYS_write, told, bytes, count);
        }
    }
    errno = error;
}

/* Waits until at most this many copies run, and logs each that ended. */
static void wait_for_copies(int most) {
    int status, error = errno;
    while (running > most) {
        pid_t ended = waitpid(-1, &status, 0);
        if (ended < 0) {
            abort();
        }
        int at = 0;
        while (copies[at].process != ended) {
            at += 1;
        }
        tell("copy", "-", copies[at].number, WIFSIGNALED(status) ? -WTERMSIG(status) : WEXITSTATUS(status), NULL);
        running -= 1;
        copies[at] = copies[running];
    }
    errno = error;
}

/* Copies the process. Returns whether this is the copy. */
static int is_in_copy(void) {
    wait_for_copies(AT_ONCE - 1);
    pid_t copy = fork();
    if (copy < 0) {
        abort();
    }
    if (copy == 0) {
        prctl(PR_SET_PDEATHSIG, SIGKILL);
        is_copy = 1;
        running = 0;
        told = -1;
        asked.number = calls;
        asked.last = 0;
        return 1;
    }
    copies[running].process = copy;
    copies[running].number = calls;
    running += 1;
    return 0;
}

/* At the end of the process, which may have made no further call. */
__attribute__((destructor)) static void end(void) {
    wait_for_copies(0);
}

/* How this call goes, if it goes another way. */
static const char *other_way(const char *call, const char *name) {
    if (strcmp(call, "memory") != 0) {
        if (is_copy) {
            _exit(99);
        }
        wait_for_copies(0);
    }
    if (!begun || strcmp(call, asked.call) != 0 || !ends_in(name, asked.ending)) {
        return NULL;
    }
    calls += 1;
    if (asked.last) {
        return asked.number <= calls && calls <= asked.last && is_in_copy() ? asked.how : NULL;
    }
    if (calls < asked.number || (calls > asked.number && *asked.how != '+')) {
        return NULL;
    }
    tell("fault", "-", 0, 0, NULL);
    return asked.how;
}

static int is(const char *how, const char *word) {
    return how && strcmp(how, word) == 0;
}

/* Whether the call does nothing and fails. */
static int is_error(const char *how) {
    return how && (*how == '+' || ('0' <= *how && *how <= '9'));
}

/* How many of the requested bytes are moved. */
static size_t moved(const char *how, size_t count) {
    if (is_error(how) || is(how, "end")) {
        return 0;
    }
    return is(how, "short") ? (count + 1) / 2 : how ? count / 2 : count;
}

/* The result of a call that failed, or was made. */
static long answer(const char *how, long made) {
    if (is(how, "kill")) {
        raise(SIGKILL);
    }
    if (is_error(how) || is(how, "half")) {
        errno = is(how, "half") ? EIO : atoi(how);
        return -1;
    }
    return made;
}

ssize_t write(int file, const void *bytes, size_t count) {
    char path[NAME];
    const char *name = name_of(file, path), *how = other_way("write", name);
    long at = syscall(SYS_lseek, file, 0L, SEEK_CUR);
    long made = is_error(how) ? -1 : syscall(SYS_write, file, bytes, moved(how, count));
    if (begun) {
        tell("write", name, at, made, bytes);
    }
    return answer(how, made);
}

ssize_t read(int file, void *bytes, size_t count) {
    char path[NAME];
    const char *name = name_of(file, path), *how = other_way("read", name);
    long made = is_error(how) ? -1 : syscall(SYS_read, file, bytes, moved(how, count));
    tell("read", name, 0, made, NULL);
    return answer(how, made);
}

/* A call on a file that moves no bytes. */
static long made_over(const char *call, const char *name, const long *words) {
    const char *how = other_way(call, name);
    long made = is_error(how) ? -1 : syscall(words[0], words[1], words[2], words[3], words[4], words[5]);
    tell(call, name, 0, made, NULL);
    return answer(how, made);
}

static long made_over_open(const char *call, int file, const long *words) {
    char path[NAME];
    return made_over(call, name_of(file, path), words);
}

int fsync(int file) {
    return made_over_open("sync", file, (long[6]){SYS_fsync, file});
}

int fdatasync(int file) {
    return made_over_open("sync", file, (long[6]){SYS_fdatasync, file});
}

off_t lseek(int file, off_t at, int whence) {
    return made_over_open("seek", file, (long[6]){SYS_lseek, file, at, whence});
}

int flock(int file, int how) {
    return made_over_open("lock", file, (long[6]){SYS_flock, file, how});
}

int fcntl(int file, int command, ...) {
    va_list rest;
    va_start(rest, command);
    long value = va_arg(rest, long);
    va_end(rest);
    if (!begun || (command != F_DUPFD && command != F_DUPFD_CLOEXEC)) {
        return syscall(SYS_fcntl, file, command, value);
    }
    return made_over_open("dup", file, (long[6]){SYS_fcntl, file, command, value});
}

int open(const char *path, int flags, ...) {
    va_list rest;
    va_start(rest, flags);
    long mode = flags & O_CREAT ? va_arg(rest, int) : 0;
    va_end(rest);
    return made_over("open", last_part(path), (long[6]){SYS_openat, AT_FDCWD, (long)path, flags, mode});
}

int statx(int folder, const char *path, int flags, unsigned mask, struct statx *into) {
    long words[6] = {SYS_statx, folder, (long)path, flags, mask, (long)into};
    return *path ? made_over("stat", last_part(path), words) : made_over_open("stat", folder, words);
}

int rename(const char *from, const char *to) {
    return made_over("rename", last_part(from), (long[6]){SYS_renameat, AT_FDCWD, (long)from, AT_FDCWD, (long)to});
}

int link(const char *from, const char *to) {
    return made_over("link", last_part(from), (long[6]){SYS_linkat, AT_FDCWD, (long)from, AT_FDCWD, (long)to, 0});
}

int unlink(const char *path) {
    return made_over("unlink", last_part(path), (long[6]){SYS_unlinkat, AT_FDCWD, (long)path, 0});
}

/* Whether memory is denied. */
static int is_refused(void) {
    const char *how = other_way("memory", "-");
    if (begun) {
        tell("memory", "-", 0, 0, NULL);
    }
    if (how) {
        errno = ENOMEM;
    }
    return how != NULL;
}

void *malloc(size_t count) {
    return is_refused() ? NULL : __libc_malloc(count);
}

void *calloc(size_t items, size_t count) {
    return is_refused() ? NULL : __libc_calloc(items, count);
}

void *realloc(void *old, size_t count) {
    return is_refused() ? NULL : __libc_realloc(old, count);
}

void *aligned_alloc(size_t alignment, size_t count) {
    return is_refused() ? NULL : __libc_memalign(alignment, count);
}

int posix_memalign(void **into, size_t alignment, size_t count) {
    void *made = is_refused() ? NULL : __libc_memalign(alignment, count);
    if (made) {
        *into = made;
    }
    return made ? 0 : ENOMEM;
}
