/* bench FILE [PROGRAM]

   Measures SHA-1 in one run: our function, libcrypto's and the plain one built
   by gcc and by clang, on one message of 64 MiB, on messages of 1 MiB, which
   stay in the processor's cache, and on many of forty bytes; then the commands
   "sha1sum FILE" and, if given, "PROGRAM measure FILE". FILE is as long as the
   long message. Fails if the functions do not agree. */
#include <openssl/evp.h>
#include <stdio.h>
#include <stdlib.h>
#include <string.h>

#include "command_time.h"
#include "ours.h"
#include "plain_sha1.h"

enum {
    LONG_BYTES = 64 << 20,
    MIDDLE_BYTES = 1 << 20,
    MIDDLE_COUNT = 64,
    SHORT_BYTES = 40,
    SHORT_COUNT = 200000,
    TURNS = 9,
};

typedef void (*digest_function)(const uint8_t *message, size_t length, uint8_t digest[20]);

struct contender {
    const char *name;
    digest_function digest;
    double long_seconds;
    double middle_seconds;
    double short_seconds;
};

static void ours(const uint8_t *message, size_t length, uint8_t digest[20])
{
    welluthan_sha1(message, length, digest);
}

static void libcrypto(const uint8_t *message, size_t length, uint8_t digest[20])
{
    if (EVP_Digest(message, length, digest, NULL, EVP_sha1(), NULL) != 1) {
        fprintf(stderr, "bench: libcrypto failed\n");
        exit(1);
    }
}

static struct contender contenders[] = {
    {"ours", ours, 1e9, 1e9, 1e9},
    {"libcrypto", libcrypto, 1e9, 1e9, 1e9},
    {"plain C, gcc -O2", plain_sha1_gcc, 1e9, 1e9, 1e9},
    {"plain C, clang -O2", plain_sha1_clang, 1e9, 1e9, 1e9},
};

enum { CONTENDERS = sizeof contenders / sizeof contenders[0] };

/* Fills the message with the numbers of a xorshift generator. */
static void fill(uint8_t *message, size_t length)
{
    uint64_t x = 88172645463325252u;
    for (size_t i = 0; i < length; i++) {
        x ^= x << 13;
        x ^= x >> 7;
        x ^= x << 17;
        message[i] = (uint8_t)(x >> 32);
    }
}

static void check_one(const struct contender *c, const uint8_t *message, size_t length)
{
    uint8_t expected[20], got[20];
    libcrypto(message, length, expected);
    c->digest(message, length, got);
    if (memcmp(expected, got, sizeof got) != 0) {
        fprintf(stderr, "bench: %s and libcrypto differ on %zu bytes\n", c->name, length);
        exit(1);
    }
}

/* Every length up to five blocks, some around larger bounds, and the whole. */
static void check_all(const uint8_t *message)
{
    static const size_t lengths[] = {1000, 4095, 4096, 8191, 8192, 8193, 100000, 1 << 20, LONG_BYTES};
    for (size_t i = 0; i < CONTENDERS; i++) {
        for (size_t length = 0; length <= 320; length++)
            check_one(&contenders[i], message + length, length);
        for (size_t k = 0; k < sizeof lengths / sizeof lengths[0]; k++)
            check_one(&contenders[i], message, lengths[k]);
    }
}

static double long_turn(const struct contender *c, uint8_t *message, int turn)
{
    uint8_t digest[20];
    memcpy(message, &turn, sizeof turn);
    double began = seconds_now();
    c->digest(message, LONG_BYTES, digest);
    return seconds_now() - began;
}

static double middle_turn(const struct contender *c, uint8_t *message, int turn)
{
    uint8_t digest[20];
    double began = seconds_now();
    for (int i = 0; i < MIDDLE_COUNT; i++) {
        int number = turn * MIDDLE_COUNT + i;
        memcpy(message, &number, sizeof number);
        c->digest(message, MIDDLE_BYTES, digest);
    }
    return seconds_now() - began;
}

/* Each message holds its own number and the digest of the one before it. */
static double short_turn(const struct contender *c, int turn)
{
    uint8_t message[SHORT_BYTES] = {0}, digest[20];
    memcpy(message + 4, &turn, sizeof turn);
    double began = seconds_now();
    for (int i = 0; i < SHORT_COUNT; i++) {
        memcpy(message, &i, sizeof i);
        c->digest(message, sizeof message, digest);
        memcpy(message + 8, digest, sizeof digest);
    }
    return seconds_now() - began;
}

static void keep_best(double *best, double seconds)
{
    if (seconds < *best)
        *best = seconds;
}

static void measure_all(uint8_t *message)
{
    for (int turn = 0; turn < TURNS; turn++) {
        for (size_t i = 0; i < CONTENDERS; i++) {
            keep_best(&contenders[i].long_seconds, long_turn(&contenders[i], message, turn));
            keep_best(&contenders[i].middle_seconds, middle_turn(&contenders[i], message, turn));
            keep_best(&contenders[i].short_seconds, short_turn(&contenders[i], turn));
        }
    }
}

static void print_functions(void)
{
    const struct contender *first = &contenders[0];
    printf("%-28s %12s %10s %12s %10s %12s %10s\n", "", "64 MiB, MB/s", "ours / it", "1 MiB, MB/s", "ours / it", "40 B, msgs/s",
           "ours / it");
    for (size_t i = 0; i < CONTENDERS; i++) {
        const struct contender *c = &contenders[i];
        printf("%-28s %12.0f %10.2f %12.0f %10.2f %12.0f %10.2f\n", c->name, LONG_BYTES / 1e6 / c->long_seconds,
               c->long_seconds / first->long_seconds, MIDDLE_COUNT * (MIDDLE_BYTES / 1e6) / c->middle_seconds,
               c->middle_seconds / first->middle_seconds, SHORT_COUNT / c->short_seconds,
               c->short_seconds / first->short_seconds);
    }
}

/* The commands are timed in turn, and each line has the best. */
static void print_commands(char *file, char *program)
{
    char *reference[] = {"sha1sum", file, NULL};
    char *measure[] = {program, "measure", file, NULL};
    double reference_best = 1e9, program_best = 1e9;
    for (int turn = 0; turn < TURNS; turn++) {
        keep_best(&reference_best, command_seconds(reference));
        if (program != NULL)
            keep_best(&program_best, command_seconds(measure));
    }
    printf("%-28s %12.0f %10.2f\n", "sha1sum, a file", LONG_BYTES / 1e6 / reference_best,
           reference_best / contenders[0].long_seconds);
    if (program != NULL) {
        printf("%-28s %12.0f\n", "our program, the same file", LONG_BYTES / 1e6 / program_best);
        printf("%-28s %12s %10.2f\n", "our program / sha1sum", "", reference_best / program_best);
    }
}

int main(int count, char **words)
{
    if (count != 2 && count != 3) {
        fprintf(stderr, "usage: bench FILE [PROGRAM]\n");
        return 2;
    }
    uint8_t *message = malloc(LONG_BYTES);
    if (message == NULL) {
        fprintf(stderr, "bench: no memory\n");
        return 1;
    }
    fill(message, LONG_BYTES);
    check_all(message);
    measure_all(message);
    free(message);
    print_functions();
    fflush(stdout);
    print_commands(words[1], count == 3 ? words[2] : NULL);
    return 0;
}
