/* Runs the program that this is loaded before again and again, in one process.
 *
 * Its main is called TIMES times, with the same words. Behind each run a line is added to the file
 * SEEN: the status, how many threads there are, how many files are open, how many allocations stand
 * and how many kibibytes of memory the process has. A thread that was joined may be seen for a
 * moment more, so that is waited for. The process ends with the last status.
 * tools/check_hostile.py makes a library of it.
 */
#define _GNU_SOURCE
#include <dirent.h>
#include <dlfcn.h>
#include <fcntl.h>
#include <setjmp.h>
#include <stdio.h>
#include <stdlib.h>
#include <sys/syscall.h>
#include <unistd.h>

#define WAITS 2000

extern void *__libc_malloc(size_t);
extern void *__libc_calloc(size_t, size_t);
extern void *__libc_realloc(void *, size_t);
extern void __libc_free(void *);

typedef int (*entry)(int, char **, char **);

static entry program;
static jmp_buf ended;
static int is_running, seen = -1;
static long standing;

static void *counted(void *given) {
  if (given) __atomic_add_fetch(&standing, 1, __ATOMIC_SEQ_CST);
  return given;
}

void *malloc(size_t size) { return counted(__libc_malloc(size)); }

void *calloc(size_t number, size_t size) { return counted(__libc_calloc(number, size)); }

void *realloc(void *old, size_t size) {
  void *given = __libc_realloc(old, size);
  return old ? given : counted(given);
}

void free(void *old) {
  if (old) __atomic_sub_fetch(&standing, 1, __ATOMIC_SEQ_CST);
  __libc_free(old);
}

/* How many names a directory of /proc has. */
static int names_in(const char *path) {
  int number = 0;
  DIR *names = opendir(path);
  for (struct dirent *it; names && (it = readdir(names));) number += it->d_name[0] != '.';
  if (names) closedir(names);
  return number;
}

/* How many kibibytes of memory the process has that are no file. */
static long memory(void) {
  char text[256] = "";
  long all = 0, of_files = 0;
  int file = open("/proc/self/statm", O_RDONLY | O_CLOEXEC);
  if (read(file, text, sizeof text - 1) > 0) sscanf(text, "%*d %ld %ld", &all, &of_files);
  close(file);
  return (all - of_files) * (sysconf(_SC_PAGESIZE) / 1024);
}

/* Notes what a run left behind. */
static void note(int status) {
  char line[128];
  int threads = names_in("/proc/self/task");
  for (int i = 0; threads > 1 && i < WAITS; i++) {
    usleep(500);
    threads = names_in("/proc/self/task");
  }
  long left = __atomic_load_n(&standing, __ATOMIC_SEQ_CST);
  int files = names_in("/proc/self/fd");
  const char *form = "%d %d %d %ld %ld\n";
  int length = snprintf(line, sizeof line, form, status, threads, files, left, memory());
  if (seen >= 0) syscall(SYS_write, seen, line, length);
}

/* The end of the program, which calls no destructors. */
void _exit(int status) {
  if (is_running && syscall(SYS_gettid) == getpid()) longjmp(ended, status + 1);
  syscall(SYS_exit_group, status);
  __builtin_unreachable();
}

static int again(int count, char **words, char **environment) {
  const char *times = getenv("TIMES"), *path = getenv("SEEN");
  long most = times ? strtol(times, NULL, 10) : 1;
  static volatile long run;
  static volatile int status;
  seen = path ? open(path, O_WRONLY | O_CREAT | O_APPEND | O_CLOEXEC, 0666) : -1;
  for (run = 0; run < most; run++) {
    int jumped = setjmp(ended);
    if (!jumped) {
      is_running = 1;
      status = program(count, words, environment);
    } else {
      status = jumped - 1;
    }
    is_running = 0;
    note(status);
  }
  return status;
}

int __libc_start_main(entry main, int count, char **words, void (*begin)(void), void (*end)(void),
                      void (*unload)(void), void *stack) {
  int (*start)(entry, int, char **, void (*)(void), void (*)(void), void (*)(void), void *);
  *(void **)&start = dlsym(RTLD_NEXT, "__libc_start_main");
  program = main;
  return start(again, count, words, begin, end, unload, stack);
}
