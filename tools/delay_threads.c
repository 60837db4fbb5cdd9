/* Delays the threads of the program that this is loaded before, each in its own way.
 *
 * A thread may sleep where it begins, and where it takes or gives back memory, which it does with a
 * lock and without one: so now and then one is far ahead of another. How often and how long follows
 * from the number SEED and from which thread it is, in the order in which they begin; with 0 nobody
 * is delayed. In all a thread sleeps for a quarter of a second at most. tools/check_orders.py makes
 * a library of it.
 */
#define _GNU_SOURCE
#include <dlfcn.h>
#include <pthread.h>
#include <stdarg.h>
#include <stdint.h>
#include <stdlib.h>
#include <sys/syscall.h>
#include <time.h>
#include <unistd.h>

#define MOST 250000

extern void *__libc_malloc(size_t);
extern void *__libc_realloc(void *, size_t);
extern void __libc_free(void *);

static uint64_t seed, threads;
static __thread uint64_t state, left, every, longest, slept;

__attribute__((constructor)) static void start(void) {
  const char *number = getenv("SEED");
  seed = number ? strtoull(number, NULL, 10) : 0;
}

static uint64_t drawn(uint64_t below) {
  state ^= state << 13;
  state ^= state >> 7;
  state ^= state << 17;
  return (state >> 16) % below;
}

/* How a thread goes for its next calls: undelayed, or delayed now and then for long, or often. */
static void draw_pace(void) {
  static const uint64_t paces[][2] = {{0, 1}, {0, 1}, {64, 3000}, {24, 800}, {6, 150}, {200, 9000}};
  uint64_t way = drawn(sizeof paces / sizeof *paces);
  every = paces[way][0];
  longest = paces[way][1];
  left = 8 + drawn(400);
}

static void delay(void) {
  if (!seed) return;
  if (!state) {
    uint64_t nth = __atomic_add_fetch(&threads, 1, __ATOMIC_SEQ_CST);
    state = seed * 0x9E3779B97F4A7C15 + nth * 0xBF58476D1CE4E5B9;
    state = state ? state : 1;
    for (int i = 0; i < 8; i++) drawn(2);
  }
  if (!left) draw_pace();
  left--;
  if (!every || drawn(every) || slept > MOST) return;
  uint64_t microseconds = drawn(longest);
  struct timespec time = {0, 1000 * (long)microseconds};
  slept += microseconds;
  syscall(SYS_nanosleep, &time, NULL);
}

void *malloc(size_t size) {
  delay();
  return __libc_malloc(size);
}

void *realloc(void *old, size_t size) {
  delay();
  return __libc_realloc(old, size);
}

void free(void *old) {
  delay();
  __libc_free(old);
}

/* What a thread is to do, behind a delay. */
struct begun {
  void *(*routine)(void *);
  void *word;
};

static void *begin(void *given) {
  struct begun begun = *(struct begun *)given;
  __libc_free(given);
  for (int i = 0; i < 16; i++) delay();
  return begun.routine(begun.word);
}

int pthread_create(pthread_t *thread, const pthread_attr_t *how, void *(*routine)(void *),
                   void *word) {
  static int (*create)(pthread_t *, const pthread_attr_t *, void *(*)(void *), void *);
  if (!create) *(void **)&create = dlsym(RTLD_NEXT, "pthread_create");
  struct begun *begun = __libc_malloc(sizeof *begun);
  begun->routine = routine;
  begun->word = word;
  return create(thread, how, begin, begun);
}
