// Reads a file whole into memory, with the system's copies of its pages dropped before. Writes how many microseconds
// the read took.
#include <fcntl.h>
#include <stdio.h>
#include <stdlib.h>
#include <sys/stat.h>
#include <time.h>
#include <unistd.h>

static void must(int ok, const char *what) {
    if (!ok) {
        perror(what);
        exit(1);
    }
}

int main(int argc, char **argv) {
    must(argc == 2, "load FILE");
    int file = open(argv[1], O_RDONLY);
    must(file >= 0, "open");
    must(fdatasync(file) == 0, "fdatasync");
    must(posix_fadvise(file, 0, 0, POSIX_FADV_DONTNEED) == 0, "posix_fadvise");
    struct timespec start, end;
    clock_gettime(CLOCK_MONOTONIC, &start);
    struct stat stat;
    must(fstat(file, &stat) == 0, "fstat");
    char *bytes = calloc(stat.st_size, 1);
    must(bytes != NULL, "calloc");
    off_t at = 0;
    while (at < stat.st_size) {
        ssize_t n = pread(file, bytes + at, stat.st_size - at, at);
        must(n > 0, "pread");
        at += n;
    }
    clock_gettime(CLOCK_MONOTONIC, &end);
    unsigned long sum = 0;
    for (off_t i = 0; i < stat.st_size; i += 4096) sum += (unsigned char)bytes[i];
    printf("%lld %lu\n", (end.tv_sec - start.tv_sec) * 1000000LL + (end.tv_nsec - start.tv_nsec) / 1000, sum);
    return 0;
}
