/* Steps through one call in a child process: how many instructions it takes from its entry to its return, and how far the stack goes down. */
#include "steps.h"
#include <signal.h>
#include <stdio.h>
#include <stdlib.h>
#include <sys/ptrace.h>
#include <sys/user.h>
#include <sys/wait.h>
#include <unistd.h>

static struct user_regs_struct step(pid_t child) {
    struct user_regs_struct r = {0};
    int status;
    if (ptrace(PTRACE_SINGLESTEP, child, 0, 0) || waitpid(child, &status, 0) != child || !WIFSTOPPED(status)
        || ptrace(PTRACE_GETREGS, child, 0, &r)) {
        puts("a call cannot be stepped through (ptrace)");
        exit(1);
    }
    return r;
}

/* `run` calls the function at `entry` once. */
struct steps step_through(void (*entry)(void), void (*run)(void)) {
    pid_t child = fork();
    if (child == 0) {
        ptrace(PTRACE_TRACEME, 0, 0, 0);
        raise(SIGSTOP);
        run();
        _exit(0);
    }
    waitpid(child, 0, 0);
    struct user_regs_struct r;
    do r = step(child); while (r.rip != (unsigned long long)entry);
    unsigned long long top = r.rsp, low = top;
    long count = 0;
    for (; r.rsp <= top; r = step(child), count++) if (r.rsp < low) low = r.rsp;
    kill(child, SIGKILL);
    waitpid(child, 0, 0);
    return (struct steps){count, (long)(top - low)};
}
