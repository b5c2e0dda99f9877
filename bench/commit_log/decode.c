// Reads a log whole into memory, with the system's copies of its pages dropped before, and decodes its entries plainly: each
// has one mutation, whose changes go into a list, with each key, row and value in memory of its own. Writes how many
// microseconds that took, and how many changes there are.
#include <fcntl.h>
#include <stdint.h>
#include <stdio.h>
#include <stdlib.h>
#include <string.h>
#include <sys/stat.h>
#include <time.h>
#include <unistd.h>

static void must(int ok, const char *what) {
    if (!ok) {
        perror(what);
        exit(1);
    }
}

struct bytes {
    uint32_t len;
    unsigned char *at;
};

struct change {
    struct bytes row, value;
    uint8_t column, node;
    uint64_t timestamp, submitted, time;
};

struct mutation {
    uint64_t arrival, token;
    uint16_t table;
    struct bytes key;
    uint32_t count;
    struct change *changes;
};

static const unsigned char *next, *end;

static const unsigned char *take(size_t n) {
    must((size_t)(end - next) >= n, "the log's end");
    const unsigned char *at = next;
    next += n;
    return at;
}

static uint64_t number(size_t n) {
    const unsigned char *at = take(n);
    uint64_t x = 0;
    for (size_t i = 0; i < n; i++) x = x << 8 | at[i];
    return x;
}

static struct bytes field(void) {
    struct bytes b;
    b.len = number(4);
    b.at = malloc(b.len ? b.len : 1);
    must(b.at != NULL, "malloc");
    memcpy(b.at, take(b.len), b.len);
    return b;
}

static struct change change(void) {
    struct change c;
    must(number(1) == 1, "a cell");
    c.row = field();
    c.column = number(1);
    must(number(1) == 1, "a value");
    c.value = field();
    c.timestamp = number(8);
    c.submitted = number(8);
    c.node = number(1);
    c.time = number(8);
    return c;
}

static struct mutation entry(void) {
    struct mutation m;
    must(number(4) == 1, "one item");
    must(number(1) == 1, "a mutation");
    m.arrival = number(8);
    m.table = number(2);
    m.token = number(8);
    m.key = field();
    m.count = number(4);
    m.changes = malloc((m.count + 1) * sizeof *m.changes);
    must(m.changes != NULL, "malloc");
    for (uint32_t i = 0; i < m.count; i++) m.changes[i] = change();
    return m;
}

int main(int argc, char **argv) {
    must(argc == 2, "decode FILE");
    int file = open(argv[1], O_RDONLY);
    must(file >= 0, "open");
    must(fdatasync(file) == 0, "fdatasync");
    must(posix_fadvise(file, 0, 0, POSIX_FADV_DONTNEED) == 0, "posix_fadvise");
    struct timespec start, stop;
    clock_gettime(CLOCK_MONOTONIC, &start);
    struct stat stat;
    must(fstat(file, &stat) == 0, "fstat");
    unsigned char *bytes = calloc(stat.st_size, 1);
    must(bytes != NULL, "calloc");
    off_t at = 0;
    while (at < stat.st_size) {
        ssize_t n = pread(file, bytes + at, stat.st_size - at, at);
        must(n > 0, "pread");
        at += n;
    }
    next = bytes;
    end = bytes + stat.st_size;
    size_t count = 0, room = 0, changes = 0;
    struct mutation *all = NULL;
    while (*take(1) == 0xc5) {
        number(4);
        if (count == room) {
            room = room ? 2 * room : 16;
            all = realloc(all, room * sizeof *all);
            must(all != NULL, "realloc");
        }
        all[count] = entry();
        changes += all[count++].count;
    }
    clock_gettime(CLOCK_MONOTONIC, &stop);
    printf("%lld %zu\n", (stop.tv_sec - start.tv_sec) * 1000000LL + (stop.tv_nsec - start.tv_nsec) / 1000, changes);
    return 0;
}
