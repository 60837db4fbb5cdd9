/* Refuses one allocation of the program that this is loaded before.
 *
 * Allocations of the program itself are counted from 1; that of the number REFUSED is refused, and
 * at the program's end their number is written to the file COUNTED, where it is set.
 * tools/fail_allocations.py makes a library of it.
 */
#define _GNU_SOURCE
#include <errno.h>
#include <link.h>
#include <stdint.h>
#include <stdio.h>
#include <stdlib.h>
#include <sys/syscall.h>
#include <unistd.h>

extern void *__libc_malloc(size_t);
extern void *__libc_realloc(void *, size_t);

static uintptr_t begin, end;
static unsigned long refused, count;

/* Where the program lies, which is the first object that is loaded. */
static int find_program(struct dl_phdr_info *info, size_t size, void *data) {
  (void)size, (void)data;
  for (int i = 0; i < info->dlpi_phnum; i++) {
    if (info->dlpi_phdr[i].p_type == PT_LOAD && (info->dlpi_phdr[i].p_flags & PF_X)) {
      begin = info->dlpi_addr + info->dlpi_phdr[i].p_vaddr;
      end = begin + info->dlpi_phdr[i].p_memsz;
    }
  }
  return 1;
}

__attribute__((constructor)) static void start(void) {
  const char *number = getenv("REFUSED");
  refused = number ? strtoul(number, NULL, 10) : 0;
  dl_iterate_phdr(find_program, NULL);
}

__attribute__((destructor)) static void stop(void) {
  const char *path = getenv("COUNTED");
  FILE *file = path ? fopen(path, "w") : NULL;
  if (file) {
    fprintf(file, "%lu\n", count);
    fclose(file);
  }
}

/* The end of a program that calls no destructors. */
void _exit(int status) {
  stop();
  syscall(SYS_exit_group, status);
  __builtin_unreachable();
}

/* Whether a call from here is the one to refuse. */
static int is_refused(void *from) {
  uintptr_t at = (uintptr_t)from;
  if (at < begin || at >= end) return 0;
  return __atomic_add_fetch(&count, 1, __ATOMIC_RELAXED) == refused;
}

void *malloc(size_t size) {
  if (is_refused(__builtin_return_address(0))) {
    errno = ENOMEM;
    return NULL;
  }
  return __libc_malloc(size);
}

void *realloc(void *old, size_t size) {
  if (is_refused(__builtin_return_address(0))) {
    errno = ENOMEM;
    return NULL;
  }
  return __libc_realloc(old, size);
}
