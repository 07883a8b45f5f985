/* For bench/run: each sync takes a tenth of a millisecond or more, as on a flash that is slower than the disk. */
#define _GNU_SOURCE
#include <sys/syscall.h>
#include <time.h>
#include <unistd.h>

#define LEAST 100000

static long nanoseconds(void) {
    struct timespec now;
    clock_gettime(CLOCK_MONOTONIC, &now);
    return now.tv_sec * 1000000000L + now.tv_nsec;
}

static int slow(long call, int file) {
    long begun = nanoseconds();
    int answer = syscall(call, file);
    while (nanoseconds() - begun < LEAST) {
    }
    return answer;
}

int fsync(int file) {
    return slow(SYS_fsync, file);
}

int fdatasync(int file) {
    return slow(SYS_fdatasync, file);
}
