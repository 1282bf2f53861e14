/* spent FILE COMMAND [ARG..]: runs a command with FILE as its standard input and its output thrown away,
   and prints the seconds that it took and the most memory that it held, in KiB. */
#define _POSIX_C_SOURCE 200809L
#define _DEFAULT_SOURCE
#include <fcntl.h>
#include <stdio.h>
#include <sys/resource.h>
#include <sys/wait.h>
#include <time.h>
#include <unistd.h>

static double now(void)
{
    struct timespec t;
    clock_gettime(CLOCK_MONOTONIC, &t);
    return (double)t.tv_sec + (double)t.tv_nsec / 1e9;
}

static void become(char **argv)
{
    int in = open(argv[1], O_RDONLY);
    int out = open("/dev/null", O_WRONLY);
    if (in < 0 || out < 0 || dup2(in, 0) < 0 || dup2(out, 1) < 0) {
        perror(argv[1]);
        _exit(127);
    }
    execvp(argv[2], argv + 2);
    perror(argv[2]);
    _exit(127);
}

int main(int argc, char **argv)
{
    double began = now();
    struct rusage used;
    int status;
    pid_t child;

    if (argc < 3) {
        fprintf(stderr, "usage: spent FILE COMMAND [ARG..]\n");
        return 2;
    }
    child = fork();
    if (child == 0)
        become(argv);
    if (child < 0 || wait4(child, &status, 0, &used) < 0 || !WIFEXITED(status) || WEXITSTATUS(status) != 0) {
        fprintf(stderr, "spent: %s failed\n", argv[2]);
        return 1;
    }
    printf("%.4f %ld\n", now() - began, used.ru_maxrss);
    return 0;
}
