/* Runs a program by single steps of the processor, and prints RIP and RSP before each instruction.
   Usage: stepper PROGRAM > OUTPUT */
#include <stdio.h>
#include <sys/ptrace.h>
#include <sys/types.h>
#include <sys/user.h>
#include <sys/wait.h>
#include <unistd.h>

/* The process stops at its first instruction, and behind each but the last one. */
static int follow(pid_t child)
{
    struct user_regs_struct registers;
    int status;

    while (waitpid(child, &status, 0) == child && WIFSTOPPED(status)) {
        if (WSTOPSIG(status) != SIGTRAP)
            return 1;
        if (ptrace(PTRACE_GETREGS, child, NULL, &registers) < 0)
            return 1;
        printf("%016llx %016llx\n", registers.rip, registers.rsp);
        if (ptrace(PTRACE_SINGLESTEP, child, NULL, NULL) < 0)
            return 1;
    }
    return !WIFEXITED(status) || WEXITSTATUS(status) != 0;
}

int main(int count, char **words)
{
    pid_t child;

    if (count != 2)
        return 2;
    child = fork();
    if (child == 0) {
        if (ptrace(PTRACE_TRACEME, 0, NULL, NULL) == 0)
            execl(words[1], words[1], (char *)NULL);
        _exit(127);
    }
    if (child < 0 || follow(child))
        return 1;
    return fflush(stdout) != 0;
}
