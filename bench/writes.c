/* Does the writes and syncs that a file lists, and nothing else: the reference for a command on real files. Each is three numbers of eight
   bytes: which of the named files, from 0, or -1 for standard output; the position of the write; and the number of bytes, 0 for a sync. */
#include <fcntl.h>
#include <stdio.h>
#include <unistd.h>

#define MOST 8

static char bytes[512];

static int is_done(const long *step, const int *files) {
    if (step[2] < 0 || step[2] > (long)sizeof bytes) {
        return 0;
    }
    if (step[0] < 0) {
        return write(STDOUT_FILENO, bytes, step[2]) == step[2];
    }
    if (step[2] == 0) {
        return fdatasync(files[step[0]]) == 0;
    }
    return pwrite(files[step[0]], bytes, step[2], step[1]) == step[2];
}

int main(int count, char **words) {
    int files[MOST];
    long step[3];
    FILE *list = 2 <= count && count - 2 <= MOST ? fopen(words[1], "rb") : NULL;
    if (!list) {
        return 1;
    }
    for (int k = 2; k < count; k++) {
        files[k - 2] = open(words[k], O_RDWR);
    }
    while (fread(step, sizeof step, 1, list) == 1) {
        if (step[0] >= count - 2 || !is_done(step, files)) {
            return 1;
        }
    }
    return 0;
}
