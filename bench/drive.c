/* Drives the proved link over the events of a file, and prints the digest of their reports.
 * Use: drive FILE [EVENTS], at most so many events of it. */
#include <stdint.h>
#include <stdio.h>
#include <stdlib.h>

/* crates/drive: a slice is handed over as a pointer and a length */
uint32_t wendrika_drive(const uint64_t *events, size_t n);

int main(int argc, char **argv) {
    FILE *f = argc > 1 ? fopen(argv[1], "rb") : NULL;
    if (!f) {
        fprintf(stderr, "usage: drive FILE [EVENTS]\n");
        return 2;
    }
    fseek(f, 0, SEEK_END);
    size_t n = (size_t)ftell(f) / 24;
    rewind(f);
    uint64_t *events = malloc(n * 24 + 1);
    if (!events || fread(events, 24, n, f) != n) {
        fprintf(stderr, "drive: %s can't be read\n", argv[1]);
        return 2;
    }
    if (argc > 2 && strtoul(argv[2], NULL, 10) < n)
        n = strtoul(argv[2], NULL, 10);
    printf("%zu events, digest %u\n", n, wendrika_drive(events, 3 * n));
    return 0;
}
