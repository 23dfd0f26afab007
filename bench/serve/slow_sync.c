// Makes each fdatasync last SLOW_SYNC microseconds longer, so that a fast disk serves as a slow one (LD_PRELOAD).
#define _GNU_SOURCE
#include <dlfcn.h>
#include <stdlib.h>
#include <unistd.h>

int fdatasync(int fd) {
    static int (*sync)(int);
    if (!sync) sync = (int (*)(int))dlsym(RTLD_NEXT, "fdatasync");
    const char *micros = getenv("SLOW_SYNC");
    if (micros) usleep(atoi(micros));
    return sync(fd);
}
