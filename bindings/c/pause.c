/* pause WORDS..: runs a command whose standard input is a non-blocking pipe. It holds what this program finds on its own
 * standard input, some lines, and does not end while the command runs: the read after them fails. */
#define _POSIX_C_SOURCE 200809L

#include <fcntl.h>
#include <stdio.h>
#include <sys/wait.h>
#include <unistd.h>

static void run(char **words, const int *ends)
{
    dup2(ends[0], STDIN_FILENO);
    close(ends[0]);
    close(ends[1]);
    execvp(words[0], words);
    _exit(127);
}

int main(int count, char **words)
{
    char part[4096]; /* what a pipe takes at once */
    size_t bytes = fread(part, 1, sizeof part, stdin);
    int ends[2];
    int status;

    if (count < 2 || pipe(ends) != 0 || fcntl(ends[0], F_SETFL, O_NONBLOCK) != 0) return 2;
    if (write(ends[1], part, bytes) != (ssize_t)bytes) return 2;
    pid_t child = fork();
    if (child == 0) run(words + 1, ends);
    if (child < 0 || waitpid(child, &status, 0) != child) return 2;
    return WIFEXITED(status) ? WEXITSTATUS(status) : 1;
}
