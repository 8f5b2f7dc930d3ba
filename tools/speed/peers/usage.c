/* Runs a command and writes its processor time in seconds (user and system, with that of the processes that it
   waited for), its peak memory in kB and how it ended (the status of wait) to a file. It is small, so that the
   memory is the command's own: a process begins with the peak of the one that started it.
   Usage: usage FIGURES COMMAND [WORD..] */
#include <stdio.h>
#include <sys/resource.h>
#include <sys/wait.h>
#include <unistd.h>

static double seconds(struct timeval time)
{
    return time.tv_sec + time.tv_usec / 1e6;
}

int main(int count, char **words)
{
    struct rusage usage;
    int status;
    FILE *figures;
    pid_t child;

    if (count < 3)
        return 2;
    child = fork();
    if (child == 0) {
        execvp(words[2], words + 2);
        _exit(127);
    }
    if (child < 0 || wait4(child, &status, 0, &usage) != child)
        return 1;
    figures = fopen(words[1], "w");
    if (!figures)
        return 1;
    fprintf(figures, "%.6f %ld %d\n", seconds(usage.ru_utime) + seconds(usage.ru_stime), usage.ru_maxrss, status);
    return fclose(figures) != 0;
}
