/* Writes the given number of lines, each by a call of its own, and does nothing else: the reference for a session that shows as many. */
#include <stdlib.h>
#include <unistd.h>

int main(int count, char **words) {
    long lines = count == 2 ? atol(words[1]) : 0;
    for (long line = 0; line < lines; line++) {
        if (write(STDOUT_FILENO, "RECUSA 7\n", 9) != 9) {
            return 1;
        }
    }
    return 0;
}
