/* Runs a program and prints which of the given instructions it never executed: executed ADDRESSES PROGRAM ARGUMENT..
 *
 * ADDRESSES is a file with one hexadecimal address to a line, ascending, as the program's symbols have them. A breakpoint is set at
 * each before the program starts and taken out when it is met, so each costs one stop. Linux on x86-64. */
#include <fcntl.h>
#include <stdio.h>
#include <stdlib.h>
#include <string.h>
#include <sys/ptrace.h>
#include <sys/user.h>
#include <sys/wait.h>
#include <unistd.h>

enum { MOST = 100000 };

static unsigned long address[MOST];
static unsigned char original[MOST];
static char met[MOST];
static int count;

static void fail(const char *what)
{
    perror(what);
    exit(2);
}

static void read_addresses(const char *path)
{
    FILE *file = fopen(path, "r");
    if (file == NULL)
        fail(path);
    while (count < MOST && fscanf(file, "%lx", &address[count]) == 1)
        count++;
    fclose(file);
}

/* Where the program was loaded: the start of its first mapping. */
static unsigned long load_address(pid_t child, const char *program)
{
    char path[64], line[4096];
    unsigned long start = 0;
    snprintf(path, sizeof path, "/proc/%d/maps", (int)child);
    FILE *file = fopen(path, "r");
    if (file == NULL)
        fail(path);
    while (fgets(line, sizeof line, file) != NULL)
        if (strstr(line, program) != NULL && sscanf(line, "%lx", &start) == 1)
            break;
    fclose(file);
    return start;
}

static int by_address(const void *one, const void *other)
{
    unsigned long a = *(const unsigned long *)one, b = *(const unsigned long *)other;
    return (a > b) - (a < b);
}

/* Goes on to the child's next stop; 0 when it has ended. */
static int next_stop(pid_t child, int signal_number, int *status)
{
    if (ptrace(PTRACE_CONT, child, NULL, (void *)(long)signal_number) != 0 || waitpid(child, status, 0) < 0)
        fail("the program");
    return WIFSTOPPED(*status);
}

static int run(pid_t child, int memory, unsigned long start)
{
    int status, signal_number = 0;
    while (next_stop(child, signal_number, &status)) {
        struct user_regs_struct registers;
        signal_number = WSTOPSIG(status);
        if (signal_number != SIGTRAP || ptrace(PTRACE_GETREGS, child, NULL, &registers) != 0)
            continue;
        unsigned long at = registers.rip - 1 - start;
        unsigned long *found = bsearch(&at, address, count, sizeof *address, by_address);
        if (found == NULL)
            continue;
        met[found - address] = 1;
        if (pwrite(memory, &original[found - address], 1, start + at) != 1)
            fail("a breakpoint");
        registers.rip--;
        ptrace(PTRACE_SETREGS, child, NULL, &registers);
        signal_number = 0;
    }
    return WIFEXITED(status) ? WEXITSTATUS(status) : 2;
}

int main(int arguments, char **argument)
{
    char path[64];
    int status;
    const unsigned char breakpoint = 0xcc;
    if (arguments < 3)
        return 2;
    read_addresses(argument[1]);
    pid_t child = fork();
    if (child == 0) {
        dup2(2, 1);
        ptrace(PTRACE_TRACEME, 0, NULL, NULL);
        execv(argument[2], argument + 2);
        _exit(2);
    }
    if (child < 0 || waitpid(child, &status, 0) < 0 || !WIFSTOPPED(status))
        fail("the program");
    unsigned long start = load_address(child, argument[2]);
    snprintf(path, sizeof path, "/proc/%d/mem", (int)child);
    int memory = open(path, O_RDWR);
    for (int i = 0; i < count; i++)
        if (pread(memory, &original[i], 1, start + address[i]) != 1 || pwrite(memory, &breakpoint, 1, start + address[i]) != 1)
            fail("a breakpoint");
    int result = run(child, memory, start);
    for (int i = 0; i < count; i++)
        if (!met[i])
            printf("%lx\n", address[i]);
    return result;
}
