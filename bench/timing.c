/* Calls timing::windows_of and timing::codes_of, as bench/timing exports them, with each code of P2 max in turn, and holds the bits of every answer to
 * document 01's rule, which is written here once more.
 * Use: timing_calls WHICH ROUNDS; WHICH is windows, codes or nothing (as many calls of a function that does next to nothing). */
#include <stdint.h>
#include <stdio.h>
#include <stdlib.h>
#include <string.h>

/* the bits of all numbers of an answer, the refusal's too */
uint64_t bits_of_windows(uint8_t p2min, uint8_t p2max, uint8_t p3min, uint8_t p3max, uint8_t p4min);
uint8_t bits_of_codes(uint64_t p2min, uint64_t p2max, uint64_t p3min, uint64_t p3max, uint64_t p4min);
uint64_t bits_of_numbers(uint64_t a, uint64_t b, uint64_t c, uint64_t d, uint64_t e);

/* P2 max of a code in microseconds, all ones for no limit */
static uint64_t p2max(unsigned code) {
    if (code == 0xFF)
        return UINT64_MAX;
    return code <= 0xF0 ? code * UINT64_C(25000) : (code & 15) * UINT64_C(6400000);
}

int main(int argc, char **argv) {
    if (argc != 3 || (strcmp(argv[1], "windows") && strcmp(argv[1], "codes") && strcmp(argv[1], "nothing"))) {
        fprintf(stderr, "use: timing_calls windows|codes|nothing ROUNDS\n");
        return 2;
    }
    char which = argv[1][0];
    for (unsigned long round = strtoul(argv[2], NULL, 10); round; round--)
        for (unsigned code = 0; code < 256; code++) {
            uint64_t got, want;
            if (which == 'w') {
                got = bits_of_windows(0x00, (uint8_t)code, 0x0B, 0x14, 0x0A);
                want = code == 0 ? 10 : 5500 | (code == 0xFF ? 0 : p2max(code)) | 5000000 | 5000;
            } else if (which == 'c') {
                got = bits_of_codes(0, p2max(code), 5500, 5000000, 5000);
                want = code == 0 ? 10 : code | 0x0B | 0x14 | 0x0A;
            } else {
                got = bits_of_numbers(0, p2max(code), 5500, 5000000, 5000);
                want = p2max(code) | 5500 | 5000000 | 5000;
            }
            if (got != want) {
                fprintf(stderr, "timing_calls: %s of code %02X: %llu, and not %llu\n", argv[1], code, (unsigned long long)got, (unsigned long long)want);
                return 1;
            }
        }
    return 0;
}
