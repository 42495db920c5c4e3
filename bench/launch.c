// launch OUTPUT COMMAND ..: runs the command with its standard output in the file, and prints its status as wait returns it,
// its processor time and its elapsed time in microseconds, and its peak memory in KiB.
// The system counts the memory of the process that starts a command too, so this program is small.
#include <fcntl.h>
#include <stdio.h>
#include <sys/resource.h>
#include <sys/wait.h>
#include <time.h>
#include <unistd.h>

static long microseconds(struct timeval time) { return time.tv_sec * 1000000L + time.tv_usec; }

static long clock_now(void) {
  struct timespec now;
  clock_gettime(CLOCK_MONOTONIC, &now);
  return now.tv_sec * 1000000L + now.tv_nsec / 1000;
}

int main(int count, char **words) {
  if (count < 3) return 2;
  long begin = clock_now();
  pid_t child = fork();
  if (child == 0) {
    int output = open(words[1], O_WRONLY | O_CREAT | O_TRUNC, 0644);
    if (output < 0 || dup2(output, 1) < 0) _exit(126);
    alarm(600);
    execv(words[2], words + 2);
    _exit(127);
  }
  int status;
  struct rusage used;
  if (child < 0 || wait4(child, &status, 0, &used) < 0) return 1;
  long processors = microseconds(used.ru_utime) + microseconds(used.ru_stime);
  printf("%d %ld %ld %ld\n", status, processors, clock_now() - begin, used.ru_maxrss);
  return 0;
}
