// Loaded before turnutils_uclient (LD_PRELOAD), so that the channel numbers that it draws are those of RFC 8656, 0x4000 to 0x4FFF.
// It makes a number from a random `long` of OpenSSL, modulo 0x4000; two of these bits become 0. Without this the client draws
// from the wider range of RFC 5766, 0x4000 to 0x7FFF.
#define _GNU_SOURCE
#include <dlfcn.h>
#include <string.h>

int RAND_bytes(unsigned char *bytes, int size) {
    static int (*other)(unsigned char *, int);
    if (!other) other = (int (*)(unsigned char *, int))dlsym(RTLD_NEXT, "RAND_bytes");
    int is_done = other(bytes, size);
    if (size == (int)sizeof(long)) {
        long drawn;
        memcpy(&drawn, bytes, sizeof drawn);
        drawn &= ~0x3000L;
        memcpy(bytes, &drawn, sizeof drawn);
    }
    return is_done;
}
