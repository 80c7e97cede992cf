#define _GNU_SOURCE
#include "one_call.h"

#include <stddef.h>
#include <sys/mman.h>
#include <sys/ptrace.h>
#include <sys/user.h>
#include <sys/wait.h>

void let_parent_follow(void)
{
    ptrace(PTRACE_TRACEME, 0, NULL, NULL);
}

int child_stops(pid_t pid)
{
    int status;
    waitpid(pid, &status, 0);
    return WIFSTOPPED(status);
}

static unsigned long long instruction(pid_t pid, struct user_regs_struct *registers)
{
    ptrace(PTRACE_GETREGS, pid, NULL, registers);
    return registers->rip;
}

static void one_instruction(pid_t pid)
{
    int status;
    ptrace(PTRACE_SINGLESTEP, pid, NULL, NULL);
    waitpid(pid, &status, 0);
}

unsigned count_call(pid_t pid, unsigned long long entry)
{
    struct user_regs_struct registers;
    unsigned long long stack;
    unsigned long long back;
    unsigned count = 0;
    while (instruction(pid, &registers) != entry)
        one_instruction(pid);
    stack = registers.rsp;
    back = (unsigned long long)ptrace(PTRACE_PEEKDATA, pid, (void *)stack, NULL);
    while (instruction(pid, &registers) != back || registers.rsp <= stack) {
        one_instruction(pid);
        count += 1;
    }
    return count;
}

void child_runs_on(pid_t pid)
{
    ptrace(PTRACE_CONT, pid, NULL, NULL);
}

void *seen_by_both(unsigned long bytes)
{
    return mmap(NULL, bytes, PROT_READ | PROT_WRITE, MAP_SHARED | MAP_ANONYMOUS, -1, 0);
}
