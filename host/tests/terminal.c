/*
 * terminal COMMAND..: runs a command whose standard error is a terminal and whose standard output is dropped, and
 * prints what the terminal got. The exit status is 77 if there is no terminal to be had.
 */
#define _GNU_SOURCE

#include <fcntl.h>
#include <stdio.h>
#include <stdlib.h>
#include <sys/wait.h>
#include <termios.h>
#include <unistd.h>

static void run(char **command, const char *name)
{
    int terminal = open(name, O_RDWR | O_NOCTTY), null = open("/dev/null", O_WRONLY);
    struct termios settings;
    if (terminal < 0 || null < 0 || tcgetattr(terminal, &settings) != 0)
        _exit(127);
    cfmakeraw(&settings);
    tcsetattr(terminal, TCSANOW, &settings);
    dup2(null, STDOUT_FILENO);
    dup2(terminal, STDERR_FILENO);
    close(terminal);
    execv(command[0], command);
    _exit(127);
}

int main(int count, char **arguments)
{
    char bytes[4096];
    ssize_t length;
    int status, terminal = posix_openpt(O_RDWR | O_NOCTTY | O_CLOEXEC);
    if (count < 2 || terminal < 0 || grantpt(terminal) != 0 || unlockpt(terminal) != 0)
        return 77;
    pid_t process = fork();
    if (process == 0)
        run(arguments + 1, ptsname(terminal));
    /* Reading fails when nobody has the terminal open any more. */
    while ((length = read(terminal, bytes, sizeof bytes)) > 0)
        fwrite(bytes, 1, (size_t)length, stdout);
    return waitpid(process, &status, 0) == process && WIFEXITED(status) ? WEXITSTATUS(status) : 1;
}
