// Runs a program with limits, for `limited_runs.py`: PROGRAM SECONDS OUT ERR, of which OUT and ERR are handles of files in memory, the standard
// output and standard error of the program.
//
// A request on standard input: the number of words, the outlet that is broken (0, 1 or 2) and how (0 full, 1 closed), the megabytes of memory (0:
// no limit) and the size of the words, each in 4 bytes, and the words, each with a zero behind it. The answer on standard output: the status of
// the process as `waitpid` gives it, or -1 for one that was ended as it did not end, and the sizes of the two outputs, each in 8 bytes. A program
// that cannot be started is no answer but the end of this one, with a line.
#define _GNU_SOURCE
#include <errno.h>
#include <fcntl.h>
#include <poll.h>
#include <signal.h>
#include <stdint.h>
#include <stdio.h>
#include <stdlib.h>
#include <string.h>
#include <sys/prctl.h>
#include <sys/resource.h>
#include <sys/stat.h>
#include <sys/syscall.h>
#include <sys/wait.h>
#include <time.h>
#include <unistd.h>

extern char **environ;

struct request {
  uint32_t count, broken, is_closed, megabytes, size;
};

static rlim_t seconds;
static int outlets[3];
static int nothing, full;

static void stop(const char *what) {
  perror(what);
  exit(1);
}

static void take(void *to, size_t size) {
  for (char *at = to; size;) {
    ssize_t got = read(0, at, size);
    if (got == 0) exit(0);
    if (got < 0) stop("read");
    at += got, size -= (size_t)got;
  }
}

// The words of a request behind the program, with a null at the end.
static char **words_of(const struct request *request, char *program) {
  static char *text, **words;
  text = realloc(text, request->size + 1);
  words = realloc(words, (request->count + 2) * sizeof *words);
  if (!text || !words) stop("realloc");
  take(text, request->size);
  words[0] = program;
  char *at = text;
  for (uint32_t number = 1; number <= request->count; number++) {
    words[number] = at;
    at += strlen(at) + 1;
  }
  words[request->count + 1] = 0;
  return words;
}

static void limit(int kind, rlim_t soft, rlim_t hard) {
  struct rlimit now;
  if (getrlimit(kind, &now)) _exit(126);
  struct rlimit wanted = {soft < now.rlim_max ? soft : now.rlim_max, hard < now.rlim_max ? hard : now.rlim_max};
  if (setrlimit(kind, &wanted)) _exit(126);
}

// What the new process does until it is the program; it shares the memory of this one.
static void become(char **words, const struct request *request, volatile int *error) {
  prctl(PR_SET_PDEATHSIG, SIGKILL);
  dup2(nothing, 0);
  for (int number = 1; number < 3; number++) {
    int is_broken = (uint32_t)number == request->broken;
    if (is_broken && request->is_closed) close(number);
    else dup2(is_broken ? full : outlets[number], number);
  }
  limit(RLIMIT_CPU, seconds, seconds + 5);
  if (request->megabytes) limit(RLIMIT_AS, (rlim_t)request->megabytes << 20, RLIM_INFINITY);
  execve(words[0], words, environ);
  *error = errno;
  _exit(127);
}

static pid_t started(char **words, const struct request *request) {
  volatile int error = 0;
  pid_t process = vfork();
  if (process == 0) become(words, request, &error);
  if (process < 0) stop("vfork");
  if (error) {
    errno = error;
    stop(words[0]);
  }
  return process;
}

// How long a process ran, in nanoseconds.
static int64_t time_of(pid_t process) {
  clockid_t clock;
  struct timespec ran = {0, 0};
  if (clock_getcpuclockid(process, &clock) || clock_gettime(clock, &ran)) return -1;
  return ran.tv_sec * INT64_C(1000000000) + ran.tv_nsec;
}

// Ends a process that waits itself: in a stretch of the seconds that it may run it did not run.
static void end_waiting(pid_t process) {
  struct pollfd ends = {(int)syscall(SYS_pidfd_open, process, 0), POLLIN, 0};
  if (ends.fd < 0) stop("pidfd_open");
  int64_t before = -1;
  while (!poll(&ends, 1, (int)(seconds < 10 ? seconds : 10) * 1000)) {
    int64_t now = time_of(process);
    if (now == before) kill(process, SIGKILL);
    before = now;
  }
  close(ends.fd);
}

// The status of a process, or -1 where it was ended.
static int64_t end(pid_t process) {
  int status;
  end_waiting(process);
  if (waitpid(process, &status, 0) != process) stop("waitpid");
  int was_ended = WIFSIGNALED(status) && (WTERMSIG(status) == SIGXCPU || WTERMSIG(status) == SIGKILL);
  return was_ended ? -1 : status;
}

static int64_t size_of(int outlet) {
  struct stat told;
  if (fstat(outlet, &told)) stop("fstat");
  return told.st_size;
}

static void empty(int outlet) {
  if (ftruncate(outlet, 0) || lseek(outlet, 0, SEEK_SET)) stop("ftruncate");
}

static int opened(const char *file, int how) {
  int handle = open(file, how | O_CLOEXEC);
  if (handle < 0) stop(file);
  return handle;
}

int main(int count, char **given) {
  if (count != 5) return 2;
  seconds = strtoul(given[2], 0, 10);
  prctl(PR_SET_PDEATHSIG, SIGKILL);
  nothing = opened("/dev/null", O_RDONLY), full = opened("/dev/full", O_WRONLY);
  for (int number = 1; number < 3; number++) {
    outlets[number] = atoi(given[2 + number]);
    if (fcntl(outlets[number], F_SETFD, FD_CLOEXEC)) stop("an outlet");
  }
  for (struct request request;;) {
    take(&request, sizeof request);
    char **words = words_of(&request, given[1]);
    empty(outlets[1]), empty(outlets[2]);
    int64_t status = end(started(words, &request));
    int64_t answer[3] = {status, size_of(outlets[1]), size_of(outlets[2])};
    if (write(1, answer, sizeof answer) != sizeof answer) stop("write");
  }
}
