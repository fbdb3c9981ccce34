// once SECONDS IN OUT PROGRAM WORD.. runs a program once, with files as its standard input and output, and prints its
// processor seconds, its peak memory in KB and how it ended: "status N", "signal N", or "timeout" after so many SECONDS of
// processor time. It is so small because the peak of a new process begins at that of the process that starts it.
#include <cstdio>
#include <cstdlib>
#include <fcntl.h>
#include <signal.h>
#include <sys/resource.h>
#include <sys/wait.h>
#include <unistd.h>

static double seconds(const timeval& time) { return time.tv_sec + time.tv_usec / 1e6; }

[[noreturn]] static void become(char** words) {
  const int in = open(words[2], O_RDONLY);
  const int out = open(words[3], O_WRONLY | O_CREAT | O_TRUNC, 0644);
  const int error = open("/dev/null", O_WRONLY);
  if (in < 0 || out < 0 || error < 0) _exit(126);
  const rlim_t most = atoi(words[1]);
  const struct rlimit limit = {most, most + 1};
  setrlimit(RLIMIT_CPU, &limit);
  dup2(in, 0);
  dup2(out, 1);
  dup2(error, 2);
  execvp(words[4], words + 4);
  _exit(127);
}

int main(int count, char** words) {
  if (count < 5) return 2;
  const pid_t child = fork();
  if (child < 0) return 2;
  if (child == 0) become(words);
  int status;
  struct rusage use;
  while (wait4(child, &status, 0, &use) < 0) {}
  printf("%.6f %ld ", seconds(use.ru_utime) + seconds(use.ru_stime), use.ru_maxrss);
  const bool late = WIFSIGNALED(status) && (WTERMSIG(status) == SIGXCPU || WTERMSIG(status) == SIGKILL);
  if (late && seconds(use.ru_utime) + seconds(use.ru_stime) >= atoi(words[1])) puts("timeout");
  else if (WIFSIGNALED(status)) printf("signal %d\n", WTERMSIG(status));
  else printf("status %d\n", WEXITSTATUS(status));
}
