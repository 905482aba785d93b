// Preloaded into a program, counts its calls that make, write, cut, sync, rename or remove files or write to a pipe, in the file KILL_COUNT
// of eight bytes, and disturbs that of the number KILL_AT, from 1, as KILL_HOW says:
//   before    the process is killed before the call
//   half      only writes count: half of the bytes are written, and the process is killed
//   cut       the power fails before the call: what was written and not synced is gone
//   names     the same, and what was made or renamed in a folder that wasn't synced is as it was
//   full      only calls on files count: this one fails with ENOSPC
//   fuller    the same, and each later one that makes or writes a file
//   laterN    only calls on files count: this one fails with EIO, and before the N-th after it the power fails, as in `names`
//   again     the process is killed before the call. What it didn't sync is told in the file KILL_LEFT to the next one, which has KILL_HOW
//             `names`: if the power fails, that is gone too
//   dyingN    as `laterN`, but the calls up to the power's failure fail too
#define _GNU_SOURCE
#include <dlfcn.h>
#include <errno.h>
#include <fcntl.h>
#include <limits.h>
#include <signal.h>
#include <stdarg.h>
#include <stdint.h>
#include <stdio.h>
#include <stdlib.h>
#include <string.h>
#include <sys/mman.h>
#include <sys/stat.h>
#include <unistd.h>

enum { MOST = 256 };
static uint64_t own, *count = &own, at, later;
static char how = '-'; // the first letter of KILL_HOW, but `r` of fuller, and `l` of dyingN
static uint64_t failing = 1; // calls, as `laterN` and `dyingN` have them
static struct { dev_t dev; ino_t ino; int file; off_t len; } written[MOST]; // not synced: the length that lasts
static struct { dev_t dev; ino_t ino; char from[PATH_MAX], to[PATH_MAX], was[PATH_MAX]; int had; } named[MOST]; // folder not synced
static int writings, namings;
static const char *left;

#define REAL(name) ((__typeof__(&name))dlsym(RTLD_NEXT, #name))

static void folder_of(const char *path, struct stat *found) {
  char folder[PATH_MAX];
  const char *end = strrchr(path, '/');
  snprintf(folder, sizeof folder, "%.*s", end ? (int)(end - path + 1) : 1, end ? path : ".");
  if (stat(folder, found))
    abort();
}

static void add_writing(int file, const struct stat *found, off_t len) {
  if (writings == MOST)
    abort();
  written[writings].dev = found->st_dev, written[writings].ino = found->st_ino, written[writings].len = len;
  written[writings++].file = file;
}

static void add_naming(const char *from, const char *to, const char *was, int had) {
  struct stat found;
  if (namings == MOST)
    abort();
  folder_of(to, &found);
  named[namings].dev = found.st_dev, named[namings].ino = found.st_ino, named[namings].had = had;
  snprintf(named[namings].from, PATH_MAX, "%s", from);
  snprintf(named[namings].to, PATH_MAX, "%s", to);
  snprintf(named[namings++].was, PATH_MAX, "%s", was);
}

// Tells the next process what this one didn't sync.
static void tell_left(void) {
  FILE *told = fopen(left, "w");
  if (!told)
    abort();
  for (int i = 0; i < writings; i++) {
    char link[64], path[PATH_MAX] = "";
    snprintf(link, sizeof link, "/proc/self/fd/%d", written[i].file);
    if (readlink(link, path, PATH_MAX - 1) < 0)
      abort();
    fprintf(told, "w\n%s\n%lld\n", path, (long long)written[i].len);
  }
  for (int i = 0; i < namings; i++)
    fprintf(told, "n\n%s\n%s\n%s\n%d\n", named[i].from, named[i].to, named[i].was, named[i].had);
  fclose(told);
}

static int line_of(FILE *told, char *line) {
  if (!fgets(line, PATH_MAX, told))
    return 0;
  line[strcspn(line, "\n")] = 0;
  return 1;
}

static void hear_left(void) {
  char kind[PATH_MAX], from[PATH_MAX], to[PATH_MAX], was[PATH_MAX], number[PATH_MAX];
  struct stat found;
  FILE *told = left ? fopen(left, "r") : 0;
  while (told && line_of(told, kind)) {
    if (kind[0] == 'n' && line_of(told, from) && line_of(told, to) && line_of(told, was) && line_of(told, number))
      add_naming(from, to, was, atoi(number));
    else if (kind[0] == 'w' && line_of(told, to) && line_of(told, number)) {
      int file = REAL(open)(to, O_RDWR | O_CLOEXEC); // it may be gone by now
      if (file >= 0 && !fstat(file, &found))
        add_writing(fcntl(file, F_DUPFD_CLOEXEC, 200), &found, atoll(number));
      if (file >= 0)
        close(file);
    }
  }
  if (told)
    fclose(told);
}

__attribute__((constructor)) static void begin(void) {
  const char *path = getenv("KILL_COUNT"), *kind = getenv("KILL_HOW"), *number = getenv("KILL_AT");
  if (!path || !kind || !number)
    return;
  int file = REAL(open)(path, O_RDWR);
  void *made = file < 0 ? MAP_FAILED : mmap(0, sizeof *count, PROT_READ | PROT_WRITE, MAP_SHARED, file, 0);
  if (made == MAP_FAILED)
    _exit(126);
  close(file);
  count = made;
  at = strtoull(number, 0, 10);
  how = strcmp(kind, "fuller") ? kind[0] : 'r';
  if (how == 'l' || how == 'd')
    later = strtoull(kind + 5, 0, 10);
  if (how == 'd')
    how = 'l', failing = later;
  left = getenv("KILL_LEFT");
  if (how == 'n')
    hear_left();
}

// What a power failure leaves.
static void undo(void) {
  while (writings--)
    if (REAL(ftruncate)(written[writings].file, written[writings].len))
      abort();
  while (namings--) {
    if (!named[namings].from[0])
      REAL(unlink)(named[namings].to);
    else if (REAL(rename)(named[namings].to, named[namings].from) || (named[namings].had && REAL(rename)(named[namings].was, named[namings].to)))
      abort();
  }
}

static int loses_unsynced(void) {
  return how == 'c' || how == 'n' || how == 'l' || how == 'a';
}

static int counts_files_alone(void) {
  return how == 'f' || how == 'r' || how == 'l';
}

static void end(void) {
  if (how == 'a')
    tell_left();
  else if (loses_unsynced())
    undo();
  kill(getpid(), SIGKILL);
}

static int is_file(int file) {
  struct stat found;
  return !fstat(file, &found) && (S_ISREG(found.st_mode) || S_ISDIR(found.st_mode));
}

// Counts a call. Whether it has to fail.
static int fails(int counts) {
  if (how == '-' || !counts)
    return 0;
  uint64_t now = ++*count;
  if (how == 'l' && at && now == at + later)
    end();
  if (counts_files_alone()) {
    errno = how == 'l' ? EIO : ENOSPC;
    return at && now >= at && (how == 'r' || now < at + failing);
  }
  if (now == at)
    end();
  return 0;
}

static int counts_file(int file) {
  return how != 'h' && is_file(file);
}

static int counts_name(void) {
  return how != 'h';
}

static void note_written(int file) {
  struct stat found;
  if (!loses_unsynced() || fstat(file, &found) || !S_ISREG(found.st_mode))
    return;
  for (int i = 0; i < writings; i++)
    if (written[i].dev == found.st_dev && written[i].ino == found.st_ino)
      return;
  add_writing(fcntl(file, F_DUPFD_CLOEXEC, 200), &found, found.st_size);
}

static void note_synced(int file) {
  struct stat found;
  if (!loses_unsynced() || fstat(file, &found))
    return;
  for (int i = writings - 1; i >= 0; i--)
    if (written[i].dev == found.st_dev && written[i].ino == found.st_ino) {
      close(written[i].file);
      written[i] = written[--writings];
    }
  int left = 0;
  for (int i = 0; i < namings; i++)
    if (named[i].dev == found.st_dev && named[i].ino == found.st_ino) {
      if (named[i].had)
        REAL(unlink)(named[i].was);
    } else
      named[left++] = named[i];
  namings = left;
}

static void note_named(const char *from, const char *to) {
  static int number;
  char was[PATH_MAX];
  if (how == 'c' || !loses_unsynced())
    return;
  if (snprintf(was, PATH_MAX, "%s.was%d.%d", to, (int)getpid(), number++) >= PATH_MAX)
    abort();
  add_naming(from, to, was, from[0] && !link(to, was));
}

ssize_t write(int file, const void *bytes, size_t size) {
  int counts = file != 2 && (is_file(file) || !counts_files_alone());
  if (how == 'h' && counts && ++*count == at) {
    REAL(write)(file, bytes, size / 2);
    end();
  }
  if (how != 'h' && fails(counts))
    return -1;
  note_written(file);
  return REAL(write)(file, bytes, size);
}

int fsync(int file) {
  if (fails(counts_file(file)))
    return -1;
  note_synced(file);
  return REAL(fsync)(file);
}

int fdatasync(int file) {
  if (fails(counts_file(file)))
    return -1;
  note_synced(file);
  return REAL(fdatasync)(file);
}

int ftruncate(int file, off_t size) {
  return fails(counts_file(file)) ? -1 : REAL(ftruncate)(file, size);
}

int rename(const char *from, const char *to) {
  if (fails(counts_name()))
    return -1;
  note_named(from, to);
  return REAL(rename)(from, to);
}

int unlink(const char *path) {
  // A full disk has room for what is removed.
  return counts_name() && !counts_files_alone() && fails(1) ? -1 : REAL(unlink)(path);
}

int mkdir(const char *path, mode_t mode) {
  return fails(counts_name()) ? -1 : REAL(mkdir)(path, mode);
}

static int opened(int in, const char *path, int flags, mode_t mode) {
  struct stat found;
  int makes = (flags & O_CREAT) && fstatat(in, path, &found, 0);
  if (fails(counts_name() && (makes || (flags & O_TRUNC))))
    return -1;
  int file = REAL(openat)(in, path, flags, mode);
  if (makes && file >= 0 && in == AT_FDCWD)
    note_named("", path);
  return file;
}

int open(const char *path, int flags, ...) {
  va_list more;
  va_start(more, flags);
  mode_t mode = flags & O_CREAT ? va_arg(more, mode_t) : 0;
  va_end(more);
  return opened(AT_FDCWD, path, flags, mode);
}

int openat(int in, const char *path, int flags, ...) {
  va_list more;
  va_start(more, flags);
  mode_t mode = flags & O_CREAT ? va_arg(more, mode_t) : 0;
  va_end(more);
  return opened(in, path, flags, mode);
}
