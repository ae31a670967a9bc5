/* Loaded before the C library (LD_PRELOAD), it makes writes to standard output and to
   standard error short or interrupted. The environment says which:
   FAULT_WRITE_MOST        the most bytes that a write takes
   FAULT_WRITE_INTERRUPTS  how many times a signal interrupts a write (EINTR) before it
                           goes on
   FAULT_WRITE_NOTHING     how many bytes standard output takes; a write after that
                           takes 0 bytes and does not fail */
#define _GNU_SOURCE
#include <errno.h>
#include <stdlib.h>
#include <sys/syscall.h>
#include <unistd.h>

static long interrupts, written;

static long number(const char *name, long otherwise) {
  const char *text = getenv(name);
  return text ? atol(text) : otherwise;
}

ssize_t write(int fd, const void *buffer, size_t size) {
  if (fd != STDOUT_FILENO && fd != STDERR_FILENO)
    return syscall(SYS_write, fd, buffer, size);
  if (interrupts < number("FAULT_WRITE_INTERRUPTS", 0)) {
    interrupts++;
    errno = EINTR;
    return -1;
  }
  interrupts = 0;
  long most = number("FAULT_WRITE_MOST", (long)size), end = number("FAULT_WRITE_NOTHING", -1);
  if (fd == STDOUT_FILENO && end >= 0 && end - written < most)
    most = end - written;
  ssize_t got = syscall(SYS_write, fd, buffer, size < (size_t)most ? size : (size_t)most);
  if (fd == STDOUT_FILENO && got > 0)
    written += got;
  return got;
}
