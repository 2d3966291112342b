// Runs a program with its arguments and this one's streams. At its end its seconds of processor time and its peak of memory in
// KiB are written to standard error, as a line. The peak is the program's own, since this one is small: a program that was started
// by a large one is counted with the memory that it had before it began.
//
// Built by: cc -O2 -o measure measure.c
#include <stdio.h>
#include <sys/resource.h>
#include <sys/wait.h>
#include <unistd.h>

static double seconds(struct timeval time) { return time.tv_sec + time.tv_usec / 1e6; }

int main(int count, char **words) {
    if (count < 2)
        return 127;
    pid_t child = fork();
    if (child == 0) {
        execv(words[1], words + 1);
        _exit(127);
    }
    int status = 0;
    struct rusage used;
    if (child < 0 || wait4(child, &status, 0, &used) != child)
        return 127;
    fprintf(stderr, "%f %ld\n", seconds(used.ru_utime) + seconds(used.ru_stime), used.ru_maxrss);
    return WIFEXITED(status) ? WEXITSTATUS(status) : 128 + WTERMSIG(status);
}
