/* A disk that takes its time: each sync of a file takes SYNC_MICROSECONDS more.
   cc -shared -fPIC -O2 -o slow_sync.so bench/slow_sync.c -ldl; LD_PRELOAD=./slow_sync.so SYNC_MICROSECONDS=1000 press serve .. */
#define _GNU_SOURCE
#include <dlfcn.h>
#include <stdlib.h>
#include <unistd.h>

int fdatasync(int fd) {
    static int (*real)(int);
    static int wait = -1;
    if (!real) real = (int (*)(int))dlsym(RTLD_NEXT, "fdatasync");
    if (wait < 0) wait = atoi(getenv("SYNC_MICROSECONDS") ? getenv("SYNC_MICROSECONDS") : "0");
    usleep(wait);
    return real(fd);
}
