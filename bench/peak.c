// peak COMMAND..: runs the command and writes its resident peak in KiB to descriptor 3. The kernel keeps the peak until the
// command is waited for, so that one which ends at once is measured like any other.
#define _GNU_SOURCE
#include <fcntl.h>
#include <stdio.h>
#include <sys/resource.h>
#include <sys/types.h>
#include <sys/wait.h>
#include <unistd.h>

int main(int argc, char **argv) {
    struct rusage used;
    int status;
    if (argc < 2 || fcntl(3, F_SETFD, FD_CLOEXEC) == -1) return 2;
    pid_t child = fork();
    if (child == 0) {
        execvp(argv[1], argv + 1);
        _exit(127);
    }
    if (child == -1 || wait4(child, &status, 0, &used) != child) return 2;
    if (!WIFEXITED(status) || WEXITSTATUS(status) != 0) return 1;
    dprintf(3, "%ld\n", used.ru_maxrss);
    return 0;
}
