/*
 * ends torn COMMAND..: runs a command whose standard input is this one's first bytes and then a read that fails.
 * ends full COMMAND..: runs a command whose standard output is a pipe that does not wait, and which nobody reads
 *   until the command had time to fill it; then all that came through it goes to standard output.
 * The status is the command's.
 */
#define _XOPEN_SOURCE 700
#include <fcntl.h>
#include <stdio.h>
#include <stdlib.h>
#include <string.h>
#include <sys/wait.h>
#include <termios.h>
#include <time.h>
#include <unistd.h>

/* A terminal takes no more than this at once. */
enum { TERMINAL = 2048 };

static void fail(const char *what)
{
    perror(what);
    exit(127);
}

/* Starts the command with one of its descriptors on another. */
static pid_t start(char **command, int end, int on, int other)
{
    pid_t pid = fork();
    if (pid < 0)
        fail("fork");
    if (pid == 0) {
        if (dup2(end, on) < 0)
            fail("dup2");
        close(end);
        close(other);
        execvp(command[0], command);
        fail(command[0]);
    }
    return pid;
}

/* Once the last user of a terminal is gone, reads of its other end bring what is left, and then fail. */
static pid_t torn(char **command)
{
    char text[TERMINAL];
    struct termios plain;
    ssize_t size = read(STDIN_FILENO, text, sizeof text);
    int master = posix_openpt(O_RDWR | O_NOCTTY);
    if (size < 0 || master < 0 || grantpt(master) < 0 || unlockpt(master) < 0)
        fail("posix_openpt");
    int user = open(ptsname(master), O_RDWR | O_NOCTTY);
    if (user < 0 || tcgetattr(user, &plain) < 0)
        fail("open");
    plain.c_oflag &= ~(tcflag_t)OPOST;
    if (tcsetattr(user, TCSANOW, &plain) < 0 || write(user, text, (size_t)size) != size || close(user) < 0)
        fail("write");
    return start(command, master, STDIN_FILENO, -1);
}

static pid_t full(char **command)
{
    int ends[2];
    char bytes[4096];
    struct timespec time = {1, 0};
    if (pipe(ends) < 0 || fcntl(ends[1], F_SETFL, O_NONBLOCK) < 0)
        fail("pipe");
    pid_t pid = start(command, ends[1], STDOUT_FILENO, ends[0]);
    close(ends[1]);
    nanosleep(&time, NULL);
    for (ssize_t size; (size = read(ends[0], bytes, sizeof bytes)) > 0;)
        if (write(STDOUT_FILENO, bytes, (size_t)size) != size)
            fail("write");
    return pid;
}

int main(int count, char **words)
{
    int status;
    if (count < 3)
        return 127;
    pid_t pid = strcmp(words[1], "torn") == 0 ? torn(words + 2) : full(words + 2);
    if (waitpid(pid, &status, 0) < 0)
        fail("waitpid");
    return WIFEXITED(status) ? WEXITSTATUS(status) : 128 + WTERMSIG(status);
}
