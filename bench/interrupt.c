/* Loaded in front of the C library (LD_PRELOAD): each read of standard input is first interrupted $INTERRUPTIONS times. */
#include <errno.h>
#include <stdlib.h>
#include <sys/syscall.h>
#include <unistd.h>

ssize_t read(int file, void *bytes, size_t count) {
  static long done;
  const char *times = getenv("INTERRUPTIONS");
  if (file == 0 && done < (times ? atol(times) : 0)) {
    done++;
    errno = EINTR;
    return -1;
  }
  done = 0;
  return syscall(SYS_read, file, bytes, count);
}
