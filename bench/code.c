/* Compares encode and correct with libfec's general Reed-Solomon code, in one process on the same words. */
#include "dartzulia.h"

#include <fec.h>
#include <stdio.h>
#include <stdlib.h>
#include <string.h>
#include <time.h>

enum { WORDS = 200, ROUNDS = 15, SYMBOLS = 544, MESSAGE = 514 };

static unsigned int clear[WORDS][SYMBOLS];
static unsigned int theirs[WORDS][SYMBOLS];
static uint8_t ours[WORDS][DARTZULIA_WORD];

static double now(void)
{
    struct timespec t;
    clock_gettime(CLOCK_MONOTONIC, &t);
    return (double)t.tv_sec + 1e-9 * (double)t.tv_nsec;
}

static void to_bytes(const unsigned int *word, uint8_t *bytes, size_t n)
{
    for (size_t i = 0; i < n; i++) {
        bytes[2 * i] = (uint8_t)(word[i] & 0xff);
        bytes[2 * i + 1] = (uint8_t)(word[i] >> 8);
    }
}

static void report(const char *what, double mine, double other)
{
    printf("%-28s %8.2f us %8.2f us   %5.2f times as fast\n", what, mine * 1e6, other * 1e6, other / mine);
}

static double best(double a, double b)
{
    return a < b ? a : b;
}

static void encode(void *rs)
{
    double mine = 1e9, other = 1e9;
    size_t place;
    for (int r = 0; r < ROUNDS; r++) {
        double t = now();
        for (int w = 0; w < WORDS; w++) {
            encode_rs_int(rs, clear[w], clear[w] + MESSAGE);
        }
        other = best(other, (now() - t) / WORDS);
        static uint8_t message[WORDS][DARTZULIA_MESSAGE];
        for (int w = 0; w < WORDS; w++) {
            to_bytes(clear[w], message[w], MESSAGE);
        }
        t = now();
        for (int w = 0; w < WORDS; w++) {
            if (dartzulia_encode(message[w], DARTZULIA_MESSAGE, ours[w], DARTZULIA_WORD, &place) != 0) {
                exit(1);
            }
        }
        mine = best(mine, (now() - t) / WORDS);
    }
    for (int w = 0; w < WORDS; w++) {
        static uint8_t expected[DARTZULIA_WORD];
        to_bytes(clear[w], expected, SYMBOLS);
        if (memcmp(ours[w], expected, sizeof expected) != 0) {
            printf("the codewords differ\n");
            exit(1);
        }
    }
    report("encode", mine, other);
}

static void correct(void *rs, int changed)
{
    double mine = 1e9, other = 1e9;
    char what[64];
    for (int r = 0; r < ROUNDS; r++) {
        for (int w = 0; w < WORDS; w++) {
            memcpy(theirs[w], clear[w], sizeof theirs[w]);
            for (int j = 0; j < changed; j++) {
                theirs[w][(j * 34 + w + r) % SYMBOLS] ^= 1 + (unsigned)((j * 77 + w) % 1023);
            }
            to_bytes(theirs[w], ours[w], SYMBOLS);
        }
        double t = now();
        int accepted = 0;
        for (int w = 0; w < WORDS; w++) {
            accepted += decode_rs_int(rs, theirs[w], NULL, 0) >= 0;
        }
        other = best(other, (now() - t) / WORDS);
        size_t count, place;
        int taken = 0;
        t = now();
        for (int w = 0; w < WORDS; w++) {
            taken += dartzulia_correct(ours[w], DARTZULIA_WORD, &count, &place) == 0;
        }
        mine = best(mine, (now() - t) / WORDS);
        if (accepted != taken) {
            printf("%d words accepted against %d\n", taken, accepted);
            exit(1);
        }
    }
    snprintf(what, sizeof what, "correct, %d changed", changed);
    report(what, mine, other);
}

int main(void)
{
    void *rs = init_rs_int(10, 0x409, 0, 1, 30, 479);
    unsigned int x = 1;
    for (int w = 0; w < WORDS; w++) {
        for (int i = 0; i < MESSAGE; i++) {
            x = x * 1664525u + 1013904223u;
            clear[w][i] = x >> 22;
        }
    }
    printf("%-28s %11s %11s\n", "", "dartzulia", "libfec");
    encode(rs);
    correct(rs, 0);
    correct(rs, 1);
    correct(rs, 8);
    correct(rs, 15);
    correct(rs, 16);
    return 0;
}
