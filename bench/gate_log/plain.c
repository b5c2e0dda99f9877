// Appends entries of 100 bytes to a file as the log does: two writes and two syncs for each. Writes how many
// microseconds that took.
#include <fcntl.h>
#include <stdint.h>
#include <stdio.h>
#include <stdlib.h>
#include <string.h>
#include <time.h>
#include <unistd.h>

static void must(int ok, const char *what) {
    if (!ok) {
        perror(what);
        exit(1);
    }
}

int main(int argc, char **argv) {
    must(argc == 3, "plain FILE COUNT");
    int file = open(argv[1], O_RDWR | O_CREAT | O_TRUNC, 0644);
    must(file >= 0, "open");
    must(pwrite(file, "\0", 1, 0) == 1, "pwrite");
    long count = atol(argv[2]);
    unsigned char entry[105];
    memset(entry, 0x5a, sizeof entry);
    entry[0] = entry[1] = entry[2] = 0;
    entry[3] = 100;
    entry[104] = 0;
    const unsigned char open_gate = 0xc5;
    struct timespec start, end;
    clock_gettime(CLOCK_MONOTONIC, &start);
    off_t gate = 0;
    for (long i = 0; i < count; i++) {
        must(pwrite(file, entry, sizeof entry, gate + 1) == sizeof entry, "pwrite");
        must(fdatasync(file) == 0, "fsync");
        must(pwrite(file, &open_gate, 1, gate) == 1, "pwrite");
        must(fdatasync(file) == 0, "fsync");
        gate += sizeof entry;
    }
    clock_gettime(CLOCK_MONOTONIC, &end);
    printf("%lld\n", (end.tv_sec - start.tv_sec) * 1000000LL + (end.tv_nsec - start.tv_nsec) / 1000);
    return 0;
}
