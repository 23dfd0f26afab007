// The device calls of a journal's appends, by hand: the frame after its gate, a sync, the gate, a sync.
// Words: FILE APPENDS BYTES.
#define _GNU_SOURCE
#include <fcntl.h>
#include <stdio.h>
#include <stdlib.h>
#include <string.h>
#include <time.h>
#include <unistd.h>

static long micros(void) {
    struct timespec now;
    clock_gettime(CLOCK_MONOTONIC, &now);
    return now.tv_sec * 1000000L + now.tv_nsec / 1000;
}

static void measure(const char *pass, int file, const unsigned char *frame, long appends, long bytes) {
    const unsigned char open_gate = 0xA5;
    long start = micros(), done = 0;
    for (long at = 0; done < appends; done++, at += bytes + 5) {
        if (pwrite(file, frame, bytes + 5, at + 1) != bytes + 5 || fdatasync(file)) break;
        if (pwrite(file, &open_gate, 1, at) != 1 || fdatasync(file)) break;
    }
    printf("%s: %ld appends in %ld us\n", pass, done, micros() - start);
}

int main(int argc, char **argv) {
    if (argc != 4) return 1;
    long appends = atol(argv[2]), bytes = atol(argv[3]);
    int file = open(argv[1], O_RDWR | O_CREAT | O_TRUNC, 0666);
    if (file < 0 || ftruncate(file, appends * (bytes + 5) + 1)) return 3;
    unsigned char *frame = calloc(1, bytes + 5);
    if (!frame) return 5;
    frame[2] = bytes >> 8;
    frame[3] = bytes;
    memset(frame + 4, 7, bytes);
    measure("new file", file, frame, appends, bytes);
    measure("written before", file, frame, appends, bytes);
    return unlink(argv[1]) ? 3 : 0;
}
