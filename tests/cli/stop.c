// A library that stops a program, or fails it, at one of its calls that change files: set before it by LD_PRELOAD. It only notes
// what the program syncs, since no power fails here and a killed program loses nothing that it wrote.
//
//   STOP_AT     the number of the call, from 1; calls on standard streams and readers of files aren't counted
//   STOP_HOW    before  the program is killed before the call
//               amid    it is killed in it: a write has written the half of its bytes, one byte whole; another call is done
//               lost    as before, and of every file what was done since its last sync is lost
//               others  as lost, but the ledger keeps all
//               ledger  as lost, but the ledger alone loses
//               last    as lost, but the last write of each file is kept
//               full    the call fails, as on a full disk
//               filled  this call and all behind it fail so
//               short   no stop: each write takes the half of its bytes
//   STOP_LEDGER the end of the ledger's path
//   STOP_COUNT  a file that gets the number of calls, and that of reads of the ledger, where the program ends by itself
#define _GNU_SOURCE
#include <dlfcn.h>
#include <errno.h>
#include <fcntl.h>
#include <limits.h>
#include <signal.h>
#include <stdarg.h>
#include <stdio.h>
#include <stdlib.h>
#include <string.h>
#include <sys/stat.h>
#include <unistd.h>

#define MOST_FILES 4096

static long calls, reads, stop_at;
static const char *how = "";

// The bytes of a file as its last sync left them, where it was changed since.
struct kept {
  dev_t device;
  ino_t inode;
  char path[PATH_MAX];
  char *bytes;
  size_t size;
  int changed;
  char *last; // its last write since then, and the place of that
  size_t last_size;
  off_t last_at;
};
static struct kept kept[MOST_FILES];
static int files;

static ssize_t (*real_pread)(int, void *, size_t, off_t);
static ssize_t (*real_pwrite)(int, const void *, size_t, off_t);
static ssize_t (*real_write)(int, const void *, size_t);
static int (*real_ftruncate)(int, off_t);
static int (*real_mkdir)(const char *, mode_t);

__attribute__((constructor)) static void begin(void) {
  const char *at = getenv("STOP_AT");
  stop_at = at ? atol(at) : 0;
  how = getenv("STOP_HOW") ? getenv("STOP_HOW") : "";
  real_pread = dlsym(RTLD_NEXT, "pread64");
  real_pwrite = dlsym(RTLD_NEXT, "pwrite64");
  real_write = dlsym(RTLD_NEXT, "write");
  real_ftruncate = dlsym(RTLD_NEXT, "ftruncate64");
  real_mkdir = dlsym(RTLD_NEXT, "mkdir");
}

__attribute__((destructor)) static void end(void) {
  const char *path = getenv("STOP_COUNT");
  if (!path) return;
  FILE *file = fopen(path, "w");
  if (!file) return;
  fprintf(file, "%ld %ld\n", calls, reads);
  fclose(file);
}

static int is(const char *word) { return strcmp(how, word) == 0; }

static int loses(void) { return is("lost") || is("others") || is("ledger") || is("last"); }

static void find_path(int fd, char path[PATH_MAX]) {
  char link[64];
  snprintf(link, sizeof link, "/proc/self/fd/%d", fd);
  ssize_t length = readlink(link, path, PATH_MAX - 1);
  if (length < 0) abort();
  path[length] = 0;
}

// Keeps a file's bytes before its first change since a sync.
static struct kept *keep(int fd) {
  struct stat found;
  if (!loses() || fstat(fd, &found) || !S_ISREG(found.st_mode)) return 0;
  struct kept *file = 0;
  for (int i = 0; i < files; i++)
    if (kept[i].device == found.st_dev && kept[i].inode == found.st_ino) file = &kept[i];
  if (file && file->changed) return file;
  if (!file) {
    if (files == MOST_FILES) abort();
    file = &kept[files++];
    file->device = found.st_dev;
    file->inode = found.st_ino;
    find_path(fd, file->path);
  }
  free(file->bytes);
  file->size = found.st_size;
  file->bytes = malloc(file->size + 1);
  int copy = open(file->path, O_RDONLY);
  if (copy < 0 || read(copy, file->bytes, file->size) != (ssize_t)file->size) abort();
  close(copy);
  file->changed = 1;
  return file;
}

static void keep_write(int fd, const void *bytes, size_t size, off_t at) {
  struct kept *file = keep(fd);
  if (!file) return;
  free(file->last);
  file->last = malloc(size + 1);
  memcpy(file->last, bytes, size);
  file->last_size = size;
  file->last_at = at;
}

static void synced(int fd) {
  struct stat found;
  if (!loses() || fstat(fd, &found)) return;
  for (int i = 0; i < files; i++)
    if (kept[i].device == found.st_dev && kept[i].inode == found.st_ino) kept[i].changed = kept[i].last_size = 0;
}

static int is_ledger(const char *path) {
  const char *name = getenv("STOP_LEDGER");
  size_t size = strlen(path), end = name ? strlen(name) : 0;
  return end && size > end && strcmp(path + size - end, name) == 0;
}

static void stop(void) {
  for (int i = 0; i < files; i++) {
    if (!kept[i].changed || (is("others") && is_ledger(kept[i].path)) || (is("ledger") && !is_ledger(kept[i].path))) continue;
    int fd = open(kept[i].path, O_WRONLY | O_TRUNC);
    if (fd < 0 || real_pwrite(fd, kept[i].bytes, kept[i].size, 0) != (ssize_t)kept[i].size) abort();
    if (is("last") && kept[i].last_size) real_pwrite(fd, kept[i].last, kept[i].last_size, kept[i].last_at);
    close(fd);
  }
  kill(getpid(), SIGKILL);
  for (;;) pause();
}

// Counts a call, and says whether it is to fail. It doesn't return where the program stops before it.
static int fails(void) {
  calls++;
  if (is("filled") ? stop_at && calls >= stop_at : is("full") && calls == stop_at) {
    errno = ENOSPC;
    return 1;
  }
  if (calls == stop_at && (is("before") || loses())) stop();
  return 0;
}

static int is_amid(void) { return calls == stop_at && is("amid"); }

static ssize_t look(int fd, void *bytes, size_t size, off_t at) {
  char path[PATH_MAX];
  find_path(fd, path);
  reads += is_ledger(path);
  return real_pread(fd, bytes, size, at);
}

ssize_t pread(int fd, void *bytes, size_t size, off_t at) { return look(fd, bytes, size, at); }
ssize_t pread64(int fd, void *bytes, size_t size, off_t at) { return look(fd, bytes, size, at); }

static size_t half(size_t size) { return size > 1 ? size / 2 : size; }

static ssize_t put(int fd, const void *bytes, size_t size, off_t at) {
  if (fails()) return -1;
  keep_write(fd, bytes, size, at);
  if (is_amid()) {
    real_pwrite(fd, bytes, half(size), at);
    stop();
  }
  return real_pwrite(fd, bytes, is("short") ? half(size) : size, at);
}

ssize_t pwrite(int fd, const void *bytes, size_t size, off_t at) { return put(fd, bytes, size, at); }
ssize_t pwrite64(int fd, const void *bytes, size_t size, off_t at) { return put(fd, bytes, size, at); }

ssize_t write(int fd, const void *bytes, size_t size) {
  if (fd <= 2) return real_write(fd, bytes, size);
  if (fails()) return -1;
  keep_write(fd, bytes, size, lseek(fd, 0, SEEK_CUR));
  if (is_amid()) {
    real_write(fd, bytes, half(size));
    stop();
  }
  return real_write(fd, bytes, is("short") ? half(size) : size);
}

static int cut(int fd, off_t size) {
  if (fails()) return -1;
  keep(fd);
  int answer = real_ftruncate(fd, size);
  if (is_amid()) stop();
  return answer;
}

int ftruncate(int fd, off_t size) { return cut(fd, size); }
int ftruncate64(int fd, off_t size) { return cut(fd, size); }

static int sync_file(int fd) {
  if (fails()) return -1;
  synced(fd);
  if (is_amid()) stop();
  return 0;
}

int fsync(int fd) { return sync_file(fd); }
int fdatasync(int fd) { return sync_file(fd); }

int mkdir(const char *path, mode_t mode) {
  if (fails()) return -1;
  int answer = real_mkdir(path, mode);
  if (is_amid()) stop();
  return answer;
}

// Only an opening that may make a file counts.
static int open_at(int folder, const char *path, int flags, mode_t mode) {
  static int (*real_openat)(int, const char *, int, ...);
  if (!real_openat) real_openat = dlsym(RTLD_NEXT, "openat64");
  if (!(flags & O_CREAT)) return real_openat(folder, path, flags);
  if (fails()) return -1;
  int fd = real_openat(folder, path, flags, mode);
  if (is_amid()) stop();
  return fd;
}

#define MODE                          \
  mode_t mode = 0;                    \
  if (flags & O_CREAT) {              \
    va_list more;                     \
    va_start(more, flags);            \
    mode = va_arg(more, unsigned);    \
    va_end(more);                     \
  }

int open(const char *path, int flags, ...) { MODE return open_at(AT_FDCWD, path, flags, mode); }
int open64(const char *path, int flags, ...) { MODE return open_at(AT_FDCWD, path, flags, mode); }
int openat(int folder, const char *path, int flags, ...) { MODE return open_at(folder, path, flags, mode); }
int openat64(int folder, const char *path, int flags, ...) { MODE return open_at(folder, path, flags, mode); }
