/* Loaded before the C library, it makes each sync of a file take SYNC_MILLIS milliseconds longer, as on a slower
   disk. */
#include <stdlib.h>
#include <sys/syscall.h>
#include <time.h>
#include <unistd.h>

static void rest(void) {
    const char *text = getenv("SYNC_MILLIS");
    double millis = text ? atof(text) : 0;
    struct timespec time = {(time_t)(millis / 1000), (long)(millis * 1e6) % 1000000000};
    nanosleep(&time, NULL);
}

int fsync(int file) {
    int answer = (int)syscall(SYS_fsync, file);
    rest();
    return answer;
}

int fdatasync(int file) {
    int answer = (int)syscall(SYS_fdatasync, file);
    rest();
    return answer;
}
