/* Loaded before the C library (LD_PRELOAD), it makes one read of one file fail
   with EIO. The environment says which:
   FAULT_FILE  the file
   FAULT_AT    how many bytes of it are read before the read that fails; without it
               none fails
   FAULT_ENDS  1: the reads after the failed one find the file's end. Else they go
               on where it failed.
   FAULT_MOST  the most bytes that a read of the file gets
   FAULT_INTERRUPTS  how many times a signal interrupts a read of the file (EINTR)
               before it goes on */
#define _GNU_SOURCE
#include <errno.h>
#include <stdlib.h>
#include <sys/stat.h>
#include <sys/syscall.h>
#include <unistd.h>

static long place;
static int failed;
static long interrupts;

static long number(const char *name, long otherwise) {
  const char *text = getenv(name);
  return text ? atol(text) : otherwise;
}

static int is_the_file(int fd) {
  const char *name = getenv("FAULT_FILE");
  struct stat one, other;
  return name && fstat(fd, &one) == 0 && stat(name, &other) == 0
         && one.st_dev == other.st_dev && one.st_ino == other.st_ino;
}

ssize_t read(int fd, void *buffer, size_t size) {
  if (!is_the_file(fd))
    return syscall(SYS_read, fd, buffer, size);
  if (interrupts < number("FAULT_INTERRUPTS", 0)) {
    interrupts++;
    errno = EINTR;
    return -1;
  }
  interrupts = 0;
  long at = number("FAULT_AT", -1), most = number("FAULT_MOST", (long)size);
  if (!failed && place == at) {
    failed = 1;
    errno = EIO;
    return -1;
  }
  if (failed && number("FAULT_ENDS", 0))
    return 0;
  if (!failed && place < at && at - place < most)
    most = at - place;
  ssize_t got = syscall(SYS_read, fd, buffer, size < (size_t)most ? size : (size_t)most);
  if (got > 0)
    place += got;
  return got;
}
