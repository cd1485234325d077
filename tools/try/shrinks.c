/* Loaded before the C library: the first read of the file SHRINKS gives no more than SHRINKS_AT bytes, and after it the
   file has none. Built by tools/try/files.bash. */
#define _GNU_SOURCE
#include <stdio.h>
#include <stdlib.h>
#include <string.h>
#include <sys/syscall.h>
#include <unistd.h>

static int has_shrunk;

static int is_named(int fd, const char *wanted) {
  char link[64], path[4096];
  snprintf(link, sizeof link, "/proc/self/fd/%d", fd);
  ssize_t length = readlink(link, path, sizeof path - 1);
  if (length < 0) return 0;
  path[length] = 0;
  return strcmp(path, wanted) == 0;
}

ssize_t read(int fd, void *bytes, size_t length) {
  const char *wanted = getenv("SHRINKS"), *at = getenv("SHRINKS_AT");
  if (has_shrunk || !wanted || !at || !is_named(fd, wanted)) return syscall(SYS_read, fd, bytes, length);
  has_shrunk = 1;
  size_t most = strtoul(at, NULL, 10);
  ssize_t count = syscall(SYS_read, fd, bytes, length < most ? length : most);
  if (truncate(wanted, 0) != 0) abort();
  return count;
}
