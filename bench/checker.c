// The checker's loops in plain C, for the benchmark checker.sh: the same tests in the same order, on the same bytes.
//
// usage: checker SHEET CERTIFICATE REPEATS
#include <inttypes.h>
#include <stdbool.h>
#include <stdint.h>
#include <stdio.h>
#include <stdlib.h>
#include <string.h>
#include <time.h>

enum { SIZE = 2, NUMBER = 8, BUFFER = 9, NOT_ALLOWED = 10, SEAT_TAKEN = 11, PRICE_TOO_HIGH = 12, NOT_CONTENT = 13 };

#define ABSENT UINT32_C(0x80000000)
#define PRICE_LIMIT UINT64_C(4000000000000000)

struct sheet {
    const uint8_t *bytes;
    size_t size;
};

// cause 0 is an accepted certificate; a run or a seat of -1 is none
struct answer {
    int cause;
    long run, seat;
    int64_t total;
};

// the files' numbers are little-endian, as this machine's are taken to be, so that a word is one load
static inline uint32_t word_at(const uint8_t *bytes, size_t at) {
    uint32_t word;
    memcpy(&word, bytes + at, sizeof word);
    return word;
}

static inline uint32_t pair(const struct sheet *sheet, size_t run, size_t seat) {
    return word_at(sheet->bytes, 8 + 4 * (sheet->size * run) + 4 * seat);
}

static inline int64_t net(size_t size, int32_t points, uint64_t price) {
    return ((int64_t)size + 1) * points - (int64_t)price;
}

static inline struct answer fault(int cause, long run, long seat) {
    return (struct answer){cause, run, seat, 0};
}

__attribute__((noinline)) static struct answer check(const struct sheet *sheet, const uint16_t *seats, size_t seat_count, const uint64_t *prices, size_t price_count) {
    size_t size = sheet->size;
    if (size < 1 || size > 256) return fault(SIZE, -1, -1);
    if (seat_count != size || price_count != size) return fault(BUFFER, -1, -1);
    bool taken[256] = {false};
    int64_t total = 0;
    for (size_t run = 0; run < size; run++) {
        size_t seat = seats[run];
        if (seat >= size) return fault(NUMBER, run, seat);
        uint32_t word = pair(sheet, run, seat);
        if (word == ABSENT) return fault(NOT_ALLOWED, run, seat);
        if (taken[seat]) return fault(SEAT_TAKEN, run, seat);
        taken[seat] = true;
        total += (int32_t)word;
    }
    for (size_t seat = 0; seat < size; seat++) {
        if (prices[seat] > PRICE_LIMIT) return fault(PRICE_TOO_HIGH, -1, seat);
    }
    for (size_t run = 0; run < size; run++) {
        int64_t held = net(size, (int32_t)pair(sheet, run, seats[run]), prices[seats[run]]);
        for (size_t seat = 0; seat < size; seat++) {
            uint32_t word = pair(sheet, run, seat);
            if (word == ABSENT) continue;
            if (net(size, (int32_t)word, prices[seat]) > held + 1) return fault(NOT_CONTENT, run, seat);
        }
    }
    return (struct answer){0, -1, -1, total};
}

static uint8_t *read_file(const char *path, size_t *length) {
    FILE *file = fopen(path, "rb");
    if (!file || fseek(file, 0, SEEK_END) != 0) {
        perror(path);
        exit(1);
    }
    long end = ftell(file);
    rewind(file);
    uint8_t *bytes = malloc(end > 0 ? (size_t)end : 1);
    if (!bytes || fread(bytes, 1, (size_t)end, file) != (size_t)end) {
        perror(path);
        exit(1);
    }
    fclose(file);
    *length = (size_t)end;
    return bytes;
}

static int64_t now(void) {
    struct timespec time;
    clock_gettime(CLOCK_MONOTONIC, &time);
    return (int64_t)time.tv_sec * 1000000000 + time.tv_nsec;
}

int main(int count, char **words) {
    if (count != 4) {
        fprintf(stderr, "usage: checker SHEET CERTIFICATE REPEATS\n");
        return 1;
    }
    size_t length, written;
    uint8_t *bytes = read_file(words[1], &length);
    uint8_t *certificate = read_file(words[2], &written);
    long repeats = strtol(words[3], NULL, 10);
    size_t size = length >= 8 ? bytes[0] | (size_t)bytes[1] << 8 : 0;
    if (size < 1 || size > 256 || length != 8 + 4 * size * size || written % 10 != 0) {
        fprintf(stderr, "checker: no dense sheet, or no certificate\n");
        return 1;
    }
    size_t held = written / 10;
    uint16_t *seats = malloc(2 * held + 1);
    uint64_t *prices = malloc(8 * held + 1);
    if (!seats || !prices) return 1;
    memcpy(seats, certificate, 2 * held);
    memcpy(prices, certificate + 2 * held, 8 * held);
    struct sheet sheet = {bytes, size};
    struct answer answer = {0, -1, -1, 0};
    int64_t sum = 0;
    int64_t start = now();
    for (long k = 0; k < repeats; k++) {
        answer = check(&sheet, seats, held, prices, held);
        if (answer.cause) break;
        sum += answer.total;
        // nothing read so far is known in the next repeat
        __asm__ volatile("" ::: "memory");
    }
    int64_t nanos = now() - start;
    if (answer.cause) {
        fprintf(stderr, "refused %d checker phase 0", answer.cause);
        if (answer.run >= 0) fprintf(stderr, " run %ld", answer.run);
        if (answer.seat >= 0) fprintf(stderr, " seat %ld", answer.seat);
        fprintf(stderr, "\n");
        return 1;
    }
    printf("total %" PRId64 "\n", answer.total);
    fprintf(stderr, "%" PRId64 " ns per check (%ld checks, totals add up to %" PRId64 ")\n", nanos / (repeats > 0 ? repeats : 1), repeats, sum);
    return 0;
}
