// Preloaded into a program, refuses one of the allocations that it asks for: that of the number REFUSE, counted from 1. The file
// COUNT, of eight bytes, has the number of those that were asked for. The kit's programs ask by malloc and realloc alone.
// Where SHAKE is set, threads rest at some of their allocations, and the one that was refused rests at each step from then on: so the
// others see what it leaves before it says why.
#define _GNU_SOURCE
#include <dlfcn.h>
#include <fcntl.h>
#include <link.h>
#include <stdarg.h>
#include <stdatomic.h>
#include <stdlib.h>
#include <sys/mman.h>
#include <time.h>
#include <unistd.h>

static void *(*allocate)(size_t);
static void *(*reallocate)(void *, size_t);
static void (*give_back)(void *);
static long (*call)(long, long, long, long, long, long, long);
static atomic_ulong own_count;
static atomic_ulong *count = &own_count;
static unsigned long refused;
static unsigned long low, high;
static int shakes;
// How often a thread that was refused still rests, and where its dice stand.
static __thread int rests;
static __thread unsigned dice;

// Notes where the program lies in memory: what the C library asks for itself isn't counted.
static int note_program(struct dl_phdr_info *program, size_t size, void *data) {
  for (int i = 0; i < program->dlpi_phnum; i++) {
    if (program->dlpi_phdr[i].p_type != PT_LOAD)
      continue;
    unsigned long from = program->dlpi_addr + program->dlpi_phdr[i].p_vaddr;
    unsigned long to = from + program->dlpi_phdr[i].p_memsz;
    if (high == 0 || from < low)
      low = from;
    if (to > high)
      high = to;
  }
  return 1; // the program is the first of those that are loaded
}

static void count_in(const char *path) {
  int file = open(path, O_RDWR);
  if (file < 0)
    _exit(126);
  void *at = mmap(0, sizeof *count, PROT_READ | PROT_WRITE, MAP_SHARED, file, 0);
  if (at == MAP_FAILED)
    _exit(126);
  count = at;
}

__attribute__((constructor)) static void begin(void) {
  dl_iterate_phdr(note_program, 0);
  if (getenv("COUNT"))
    count_in(getenv("COUNT"));
  if (getenv("REFUSE"))
    refused = strtoul(getenv("REFUSE"), 0, 10);
  shakes = getenv("SHAKE") != 0;
}

static int is_refused(void *caller) {
  unsigned long at = (unsigned long)caller;
  if (at < low || at >= high || atomic_fetch_add(count, 1) + 1 != refused)
    return 0;
  rests = shakes ? 60 : 0;
  return 1;
}

static void rest_refused(void) {
  if (rests > 0) {
    rests--;
    usleep(1500);
  }
}

static void rest_some(void) {
  struct timespec now;
  if (!shakes)
    return;
  if (!dice && !clock_gettime(CLOCK_MONOTONIC, &now))
    dice = (unsigned)now.tv_nsec | 1;
  if (rand_r(&dice) % 40 == 0)
    usleep(rand_r(&dice) % 300);
}

void free(void *old) {
  if (!give_back)
    give_back = dlsym(RTLD_NEXT, "free");
  give_back(old);
  rest_refused();
}

// By this threads wake each other.
long syscall(long number, ...) {
  va_list words;
  long word[6];
  if (!call)
    call = dlsym(RTLD_NEXT, "syscall");
  va_start(words, number);
  for (int i = 0; i < 6; i++)
    word[i] = va_arg(words, long);
  va_end(words);
  long answer = call(number, word[0], word[1], word[2], word[3], word[4], word[5]);
  rest_refused();
  return answer;
}

void *malloc(size_t size) {
  if (!allocate)
    allocate = dlsym(RTLD_NEXT, "malloc");
  rest_some();
  return is_refused(__builtin_return_address(0)) ? 0 : allocate(size);
}

void *realloc(void *old, size_t size) {
  if (!reallocate)
    reallocate = dlsym(RTLD_NEXT, "realloc");
  return is_refused(__builtin_return_address(0)) ? 0 : reallocate(old, size);
}
