/* peak COMMAND..: runs a command and prints the most memory that it holds, in kB. A process is counted with what its parent held before
 * it began, so the parent has to be small. */
#define _DEFAULT_SOURCE
#include <fcntl.h>
#include <stdio.h>
#include <sys/resource.h>
#include <sys/wait.h>
#include <unistd.h>

int main(int count, char **arguments) {
    struct rusage used;
    int status;
    pid_t child = count > 1 ? fork() : -1;
    if (child == 0) {
        int none = open("/dev/null", O_WRONLY);
        if (none >= 0) dup2(none, 1);
        execvp(arguments[1], arguments + 1);
        _exit(127);
    }
    if (child < 0 || wait4(child, &status, 0, &used) != child || !WIFEXITED(status) || WEXITSTATUS(status) != 0) return 1;
    printf("%ld\n", used.ru_maxrss);
    return 0;
}
