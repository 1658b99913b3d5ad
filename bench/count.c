/* count PROGRAM BEGIN END ARGUMENT..: runs the program with these arguments and prints how many instructions it executes after it
   returns from the function at BEGIN and before it enters the function at END. Both are addresses in the program's file, in
   hexadecimal, as nm prints them. The processor stops after each instruction, so the count is exact, whatever else the machine
   does; an instruction that repeats counts once for each turn. Native x86-64 Linux only. Run by bench/run. */
#include <fcntl.h>
#include <signal.h>
#include <stdio.h>
#include <stdlib.h>
#include <sys/personality.h>
#include <sys/ptrace.h>
#include <sys/user.h>
#include <sys/wait.h>
#include <unistd.h>

enum { PROGRAM_AT = 1, BEGIN_AT = 2, END_AT = 3, ARGUMENTS_LEAST = 4, HEXADECIMAL = 16 };

/* The instruction that stops (int3), of one byte. */
enum { STOP = 0xcc, ONE_BYTE = 0xff };

static pid_t child;

static void die(const char *what) {
  perror(what);
  exit(1);
}

/* Lets the program run on, by one instruction or to the next stop. */
static void go(int request) {
  int status;
  if (ptrace(request, child, 0, 0) != 0 || waitpid(child, &status, 0) != child)
    die("count: ptrace");
  if (!WIFSTOPPED(status) || WSTOPSIG(status) != SIGTRAP) {
    fprintf(stderr, "count: the program ended before it was counted\n");
    exit(1);
  }
}

static struct user_regs_struct registers(void) {
  struct user_regs_struct now;
  if (ptrace(PTRACE_GETREGS, child, 0, &now) != 0)
    die("count: registers");
  return now;
}

/* Where the program's file was put in memory: the first line of its map. */
static unsigned long long base(void) {
  enum { NAME_MOST = 64 };
  char name[NAME_MOST];
  unsigned long long from;
  FILE *map;
  snprintf(name, sizeof name, "/proc/%d/maps", (int)child);
  map = fopen(name, "r");
  if (map == NULL || fscanf(map, "%llx", &from) != 1)
    die("count: map");
  fclose(map);
  return from;
}

/* Runs to this address, by an instruction there that stops, which is taken away again. */
static void run_to(unsigned long long address) {
  long word = ptrace(PTRACE_PEEKTEXT, child, address, 0);
  struct user_regs_struct now;
  if (ptrace(PTRACE_POKETEXT, child, address, (word & ~(long)ONE_BYTE) | STOP) != 0)
    die("count: stop");
  go(PTRACE_CONT);
  now = registers();
  now.rip = address;
  if (ptrace(PTRACE_POKETEXT, child, address, word) != 0 || ptrace(PTRACE_SETREGS, child, 0, &now) != 0)
    die("count: stop");
}

int main(int count, char **arguments) {
  unsigned long long begin, end, after, steps = 0;
  if (count < ARGUMENTS_LEAST) {
    fprintf(stderr, "usage: count PROGRAM BEGIN END ARGUMENT..\n");
    return 2;
  }
  child = fork();
  if (child == 0) {
    dup2(open("/dev/null", O_WRONLY), STDOUT_FILENO);
    personality(ADDR_NO_RANDOMIZE); /* some copies take an instruction more or less by where the memory is */
    arguments[END_AT] = arguments[PROGRAM_AT];
    ptrace(PTRACE_TRACEME, 0, 0, 0);
    execv(arguments[PROGRAM_AT], arguments + END_AT);
    die(arguments[PROGRAM_AT]);
  }
  if (child < 0 || waitpid(child, NULL, 0) != child)
    die("count: fork");
  begin = base() + strtoull(arguments[BEGIN_AT], NULL, HEXADECIMAL);
  end = base() + strtoull(arguments[END_AT], NULL, HEXADECIMAL);
  run_to(begin);
  after = ptrace(PTRACE_PEEKDATA, child, registers().rsp, 0); /* where it returns to */
  while (registers().rip != after)
    go(PTRACE_SINGLESTEP);
  for (; registers().rip != end; steps++)
    go(PTRACE_SINGLESTEP);
  kill(child, SIGKILL);
  waitpid(child, NULL, 0);
  printf("%llu\n", steps);
  return 0;
}
