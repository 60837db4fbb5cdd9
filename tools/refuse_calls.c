/* Lets one call on a file, or on the files of a directory, fail, or all from one on.
 *
 * Calls of the program that this is loaded before are counted from 1, as far as they name the file
 * or directory FOLDER, something in it, or a file that was opened so. Each is written to the file
 * CALLS: its name and its path, which of a rename is the new one. That of the number FAILING
 * answers EIO and does nothing. Where WAY is `behind` it does what it should before, and where WAY
 * is `onward` all behind it fail too. tools/check_hostile.py makes a library of it.
 */
#define _GNU_SOURCE
#include <dirent.h>
#include <dlfcn.h>
#include <errno.h>
#include <fcntl.h>
#include <stdarg.h>
#include <stdio.h>
#include <stdlib.h>
#include <string.h>
#include <sys/stat.h>
#include <sys/syscall.h>
#include <unistd.h>

#define FILES 1024
#define LENGTH 512

static char paths[FILES][LENGTH];
static const char *folder;
static int calls = -1;
static unsigned long failing, count;
static int is_behind, is_onward;

__attribute__((constructor)) static void start(void) {
  const char *number = getenv("FAILING"), *way = getenv("WAY"), *told = getenv("CALLS");
  folder = getenv("FOLDER");
  failing = number ? strtoul(number, NULL, 10) : 0;
  is_behind = way && !strcmp(way, "behind");
  is_onward = way && !strcmp(way, "onward");
  if (told) {
    int opened = syscall(SYS_open, told, O_WRONLY | O_CREAT | O_APPEND | O_CLOEXEC, 0666);
    calls = syscall(SYS_dup3, opened, FILES - 1, O_CLOEXEC);
    syscall(SYS_close, opened);
  }
}

/* Whether a path is the directory or in it. */
static int is_in(const char *path) {
  size_t length = folder ? strlen(folder) : 0;
  return length && !strncmp(path, folder, length) && (path[length] == 0 || path[length] == '/');
}

/* The path of a file that was opened, which is empty where it isn't of the directory. */
static const char *path_of(int file) { return file >= 0 && file < FILES ? paths[file] : ""; }

/* Counts a call, and tells whether it fails. */
static int fails(const char *name, const char *path) {
  char line[2 * LENGTH];
  if (!is_in(path)) return 0;
  unsigned long number = __atomic_add_fetch(&count, 1, __ATOMIC_SEQ_CST);
  int length = snprintf(line, sizeof line, "%s %s\n", name, path);
  if (calls >= 0) syscall(SYS_write, calls, line, length);
  return failing && (is_onward ? number >= failing : number == failing);
}

static long refused(void) {
  errno = EIO;
  return -1;
}

/* A call, with the refusal before it or behind it. */
#define AROUND(name, path, call)          \
  do {                                    \
    int is_failing = fails(name, path);   \
    if (is_failing && !is_behind) return refused(); \
    long result = call;                   \
    return is_failing ? refused() : result; \
  } while (0)

static int opened(const char *name, int at, const char *path, int flags, mode_t mode) {
  char whole[LENGTH];
  const char *above = path_of(at);
  snprintf(whole, sizeof whole, *above ? "%s/%s" : "%s%s", above, path);
  int is_failing = fails(name, whole);
  if (is_failing && !is_behind) return refused();
  int file = syscall(SYS_openat, at, path, flags, mode);
  if (is_failing) {
    if (file >= 0) syscall(SYS_close, file);
    return refused();
  }
  if (file >= 0 && file < FILES) strcpy(paths[file], is_in(whole) ? whole : "");
  return file;
}

static mode_t mode_of(int flags, va_list rest) {
  return flags & (O_CREAT | O_TMPFILE) ? va_arg(rest, mode_t) : 0;
}

int open(const char *path, int flags, ...) {
  va_list rest;
  va_start(rest, flags);
  mode_t mode = mode_of(flags, rest);
  va_end(rest);
  return opened("open", AT_FDCWD, path, flags, mode);
}

int openat(int at, const char *path, int flags, ...) {
  va_list rest;
  va_start(rest, flags);
  mode_t mode = mode_of(flags, rest);
  va_end(rest);
  return opened("open", at, path, flags, mode);
}

int close(int file) {
  char path[LENGTH];
  strcpy(path, path_of(file));
  if (*path) paths[file][0] = 0;
  int is_failing = fails("close", path);
  long result = syscall(SYS_close, file);
  return is_failing ? refused() : result;
}

int mkdir(const char *path, mode_t mode) {
  AROUND("mkdir", path, syscall(SYS_mkdir, path, mode));
}

ssize_t write(int file, const void *bytes, size_t length) {
  AROUND("write", path_of(file), syscall(SYS_write, file, bytes, length));
}

ssize_t read(int file, void *bytes, size_t length) {
  AROUND("read", path_of(file), syscall(SYS_read, file, bytes, length));
}

int fdatasync(int file) { AROUND("fdatasync", path_of(file), syscall(SYS_fdatasync, file)); }

int rename(const char *old, const char *new) {
  AROUND("rename", new, syscall(SYS_rename, old, new));
}

int rmdir(const char *path) { AROUND("rmdir", path, syscall(SYS_rmdir, path)); }

int unlink(const char *path) { AROUND("unlink", path, syscall(SYS_unlink, path)); }

int unlinkat(int at, const char *path, int flags) {
  char whole[LENGTH];
  const char *above = path_of(at);
  snprintf(whole, sizeof whole, *above ? "%s/%s" : "%s%s", above, path);
  AROUND("unlinkat", whole, syscall(SYS_unlinkat, at, path, flags));
}

int statx(int at, const char *path, int flags, unsigned mask, struct statx *found) {
  const char *named = *path ? path : path_of(at);
  AROUND("statx", named, syscall(SYS_statx, at, path, flags, mask, found));
}

ssize_t getdents64(int file, void *names, size_t length) {
  AROUND("getdents64", path_of(file), syscall(SYS_getdents64, file, names, length));
}
