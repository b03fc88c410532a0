/* Makes a log of so many frames, and times the checksum over a log and the scan of it as a plain loop has them:
   checksum make LOG FRAMES, checksum time LOG. Times are in seconds and nanoseconds, a round a line. */
#include <fcntl.h>
#include <stdint.h>
#include <stdio.h>
#include <stdlib.h>
#include <string.h>
#include <sys/stat.h>
#include <time.h>
#include <unistd.h>

enum { PAGE_SIZE = 4096, HEAD_SIZE = 24, FRAME_SIZE = HEAD_SIZE + PAGE_SIZE, ROUNDS = 5 };

struct sum { uint32_t s0, s1; };

static uint32_t big_word(const unsigned char *at) {
    return (uint32_t)at[0] << 24 | (uint32_t)at[1] << 16 | (uint32_t)at[2] << 8 | at[3];
}

static uint32_t little_word(const unsigned char *at) {
    return (uint32_t)at[3] << 24 | (uint32_t)at[2] << 16 | (uint32_t)at[1] << 8 | at[0];
}

static void put_word(unsigned char *at, uint32_t word) {
    at[0] = word >> 24, at[1] = word >> 16, at[2] = word >> 8, at[3] = word;
}

static struct sum sum_big(struct sum sum, const unsigned char *bytes, size_t length) {
    for (size_t i = 0; i < length; i += 8) {
        sum.s0 += big_word(bytes + i) + sum.s1;
        sum.s1 += big_word(bytes + i + 4) + sum.s0;
    }
    return sum;
}

static struct sum sum_little(struct sum sum, const unsigned char *bytes, size_t length) {
    for (size_t i = 0; i < length; i += 8) {
        sum.s0 += little_word(bytes + i) + sum.s1;
        sum.s1 += little_word(bytes + i + 4) + sum.s0;
    }
    return sum;
}

static struct sum sum_frame(struct sum sum, const unsigned char *frame) {
    return sum_big(sum_big(sum, frame, 8), frame + HEAD_SIZE, PAGE_SIZE);
}

static int fails(const char *what) {
    perror(what);
    return 1;
}

static int make(const char *path, uint32_t frames) {
    static unsigned char header[32], frame[FRAME_SIZE];
    const uint32_t fields[] = {0x377f0683, 93021000, PAGE_SIZE, 1, 1, 5};
    FILE *log = fopen(path, "wb");
    if (log == NULL) return fails(path);
    for (int i = 0; i < 6; i++) put_word(header + 4 * i, fields[i]);
    struct sum sum = sum_big((struct sum){0, 0}, header, 24);
    put_word(header + 24, sum.s0);
    put_word(header + 28, sum.s1);
    fwrite(header, 1, sizeof header, log);
    uint64_t state = 1;
    for (uint32_t i = 0; i < frames; i++) {
        put_word(frame, 1 + i % 1000);
        put_word(frame + 4, i % 10 == 9 || i + 1 == frames ? 1000 : 0);
        put_word(frame + 8, 1);
        put_word(frame + 12, 5);
        for (int k = 0; k < PAGE_SIZE; k += 4) {
            state = state * 6364136223846793005u + 1442695040888963407u;
            put_word(frame + HEAD_SIZE + k, state >> 32);
        }
        sum = sum_frame(sum, frame);
        put_word(frame + 16, sum.s0);
        put_word(frame + 20, sum.s1);
        fwrite(frame, 1, sizeof frame, log);
    }
    return fclose(log) == 0 ? 0 : fails(path);
}

static void tell(const char *what, struct timespec from, struct sum sum) {
    struct timespec to;
    clock_gettime(CLOCK_MONOTONIC, &to);
    long long spent = (to.tv_sec - from.tv_sec) * 1000000000LL + to.tv_nsec - from.tv_nsec;
    printf("%s %lld %lld %u %u\n", what, spent / 1000000000, spent % 1000000000, sum.s0, sum.s1);
}

/* Reads a part of the log, from memory where its bytes are there, else from the file. */
static void read_part(int log, const unsigned char *bytes, void *part, size_t length, off_t at) {
    if (bytes != NULL) memcpy(part, bytes + at, length);
    else if (pread(log, part, length, at) != (ssize_t)length) exit(1);
}

/* Reads each frame into one buffer and keeps its page number, up to the last commit. */
static struct sum scan(int log, const unsigned char *bytes, off_t size) {
    static unsigned char frame[FRAME_SIZE];
    unsigned char header[32];
    size_t count = 0, room = 0, kept = 0;
    uint32_t *pages = NULL;
    struct sum sum, last;
    read_part(log, bytes, header, sizeof header, 0);
    sum = last = (struct sum){big_word(header + 24), big_word(header + 28)};
    for (off_t at = sizeof header; size - at >= FRAME_SIZE; at += FRAME_SIZE) {
        read_part(log, bytes, frame, sizeof frame, at);
        sum = sum_frame(sum, frame);
        if (big_word(frame) == 0 || big_word(frame + 8) != big_word(header + 16) || big_word(frame + 12) != big_word(header + 20)
            || big_word(frame + 16) != sum.s0 || big_word(frame + 20) != sum.s1) break;
        if (count == room) {
            room = room ? 2 * room : 4;
            pages = realloc(pages, room * sizeof *pages);
            if (pages == NULL) exit(1);
        }
        pages[count++] = big_word(frame);
        if (big_word(frame + 4) != 0) kept = count, last = sum;
    }
    free(pages);
    return kept == 0 ? (struct sum){0, 0} : last;
}

static int time_all(const char *path) {
    struct stat status;
    struct timespec from;
    int log = open(path, O_RDONLY);
    if (log < 0 || fstat(log, &status) < 0) return fails(path);
    unsigned char *bytes = malloc((size_t)status.st_size);
    if (bytes == NULL || pread(log, bytes, (size_t)status.st_size, 0) != status.st_size) return fails(path);
    for (uint32_t round = 0; round < ROUNDS; round++) {
        clock_gettime(CLOCK_MONOTONIC, &from);
        tell("checksum-big", from, sum_big((struct sum){round, 0}, bytes, (size_t)status.st_size));
        clock_gettime(CLOCK_MONOTONIC, &from);
        tell("checksum-little", from, sum_little((struct sum){round, 0}, bytes, (size_t)status.st_size));
        clock_gettime(CLOCK_MONOTONIC, &from);
        tell("scan-of-a-file", from, scan(log, NULL, status.st_size));
        clock_gettime(CLOCK_MONOTONIC, &from);
        tell("scan-in-memory", from, scan(log, bytes, status.st_size));
    }
    return 0;
}

int main(int count, char **words) {
    if (count == 4 && strcmp(words[1], "make") == 0) return make(words[2], (uint32_t)atol(words[3]));
    if (count == 3 && strcmp(words[1], "time") == 0) return time_all(words[2]);
    return 2;
}
