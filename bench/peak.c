/* peak REPORT PROGRAM WORD..: runs a program, and writes into REPORT its wait status, its seconds of processor time, and the kilobytes of
   memory that it took at most.

   The system counts a process from when it is forked, so that it never takes less than its parent did at that moment. This parent takes
   less than a megabyte. */
#include <stdio.h>
#include <sys/resource.h>
#include <sys/types.h>
#include <sys/wait.h>
#include <unistd.h>

int main(int count, char **words)
{
    if (count < 3)
        return 2;
    pid_t child = fork();
    if (child == 0) {
        execvp(words[2], words + 2);
        _exit(127);
    }
    int status;
    struct rusage used;
    if (child < 0 || wait4(child, &status, 0, &used) < 0)
        return 1;
    double seconds = used.ru_utime.tv_sec + used.ru_stime.tv_sec + (used.ru_utime.tv_usec + used.ru_stime.tv_usec) / 1e6;
    FILE *report = fopen(words[1], "w");
    if (!report || fprintf(report, "%d %.6f %ld\n", status, seconds, used.ru_maxrss) < 0 || fclose(report) != 0)
        return 1;
    return 0;
}
