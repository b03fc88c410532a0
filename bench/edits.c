/* Puts cells into a page of 4,096 bytes and takes them out as SQLite's b-tree does: a put shifts the pointers and copies the cell to
   a freeblock or into the gap, and packs the page where neither has room; a take shifts the pointers and makes a freeblock of the
   cell, joined with its neighbours. edits ROUNDS writes what was done, its nanoseconds, and a checksum of the cells. */
#include <stdint.h>
#include <stdio.h>
#include <stdlib.h>
#include <string.h>
#include <time.h>

enum { PAGE = 4096, HEADER = 8, CELLS = 50, KEPT = 40, LENGTH = 72 };

static unsigned char page[PAGE], spare[PAGE], cells[CELLS][LENGTH];
static uint64_t dice = 13;

static unsigned next(void) {
    dice = dice * 6364136223846793005u + 1442695040888963407u;
    return dice >> 32;
}

static unsigned get(const unsigned char *at) { return at[0] << 8 | at[1]; }
static void put(unsigned char *at, unsigned n) { at[0] = n >> 8, at[1] = n; }

static void start_page(void) {
    memset(page, 0, HEADER);
    page[0] = 13;
    put(page + 5, PAGE);
}

/* Both varints of a cell have one byte here. */
static unsigned size_of(const unsigned char *cell) { return 2 + cell[0] < 4 ? 4 : 2 + cell[0]; }

static void pack(void) {
    unsigned end = PAGE, count = get(page + 3);
    memcpy(spare, page, PAGE);
    for (unsigned k = 0; k < count; k++) {
        const unsigned char *cell = spare + get(page + HEADER + 2 * k);
        unsigned size = size_of(cell);
        end -= size;
        memcpy(page + end, cell, size);
        put(page + HEADER + 2 * k, end);
    }
    put(page + 1, 0), put(page + 5, end), page[7] = 0;
}

/* A freeblock with so much room, of which the end is taken; 0 where there is none. */
static unsigned find_slot(unsigned size) {
    unsigned before = 1, at = get(page + 1);
    for (; at != 0; before = at, at = get(page + at)) {
        unsigned room = get(page + at + 2);
        if (room < size) continue;
        unsigned left = room - size;
        if (left >= 4) {
            put(page + at + 2, left);
        } else {
            if (page[7] > 57) return 0;
            memcpy(page + before, page + at, 2);
            page[7] += left;
        }
        return at + left;
    }
    return 0;
}

static unsigned allocate(unsigned size) {
    unsigned gap = HEADER + 2 * get(page + 3), top = get(page + 5);
    if (get(page + 1) != 0 && gap + 2 <= top) {
        unsigned at = find_slot(size);
        if (at != 0) return at;
    }
    if (gap + 2 + size > top) {
        pack();
        top = get(page + 5);
    }
    put(page + 5, top - size);
    return top - size;
}

static void release(unsigned at, unsigned size) {
    unsigned before = 1, after = get(page + 1), end = at + size, loose = 0;
    while (after != 0 && after < at) before = after, after = get(page + after);
    if (after != 0 && end + 3 >= after) {
        loose = after - end;
        end = after + get(page + after + 2);
        after = get(page + after);
    }
    if (before > 1 && before + get(page + before + 2) + 3 >= at) {
        loose += at - (before + get(page + before + 2));
        at = before;
    }
    page[7] -= loose;
    if (at <= get(page + 5)) {
        put(page + 1, after), put(page + 5, end);
        return;
    }
    if (at != before) put(page + before, at);
    put(page + at, after), put(page + at + 2, end - at);
}

static void put_cell(unsigned k, const unsigned char *cell) {
    unsigned count = get(page + 3), size = size_of(cell), at = allocate(size);
    unsigned char *pointer = page + HEADER + 2 * k;
    memcpy(page + at, cell, size);
    memmove(pointer + 2, pointer, 2 * (count - k));
    put(pointer, at);
    put(page + 3, count + 1);
}

static void take_cell(unsigned k) {
    unsigned count = get(page + 3);
    unsigned char *pointer = page + HEADER + 2 * k;
    unsigned at = get(pointer);
    release(at, size_of(page + at));
    memmove(pointer, pointer + 2, 2 * (count - k - 1));
    put(page + 3, count - 1);
    if (count == 1) start_page();
}

static uint32_t sum_cells(void) {
    uint32_t sum = 0;
    for (unsigned k = 0; k < get(page + 3); k++) {
        const unsigned char *cell = page + get(page + HEADER + 2 * k);
        for (unsigned i = 0; i < size_of(cell); i++) sum = sum * 31 + cell[i];
    }
    return sum;
}

static long long now(void) {
    struct timespec time;
    clock_gettime(CLOCK_MONOTONIC, &time);
    return time.tv_sec * 1000000000LL + time.tv_nsec;
}

static volatile uint32_t seen;

/* Each edit is timed alone, and the page was looked at before. */
static long long time_put(unsigned k, unsigned i) {
    seen = sum_cells();
    long long start = now();
    put_cell(k, cells[i]);
    return now() - start;
}

static long long time_take(unsigned k) {
    seen = sum_cells();
    long long start = now();
    take_cell(k);
    return now() - start;
}

static long long fill(void) {
    long long spent = 0;
    for (unsigned i = 0; i < CELLS; i++) spent += time_put(next() % (i + 1), i);
    return spent;
}

static long long empty(void) {
    long long spent = 0;
    for (unsigned i = CELLS; i > KEPT; i--) spent += time_take(next() % i);
    return spent;
}

static long long swap(void) {
    long long spent = 0;
    for (unsigned i = 0; i < CELLS; i++) {
        spent += time_take(next() % KEPT);
        spent += time_put(next() % KEPT, i);
    }
    return spent;
}

/* What looking at the clock costs. */
static long long nothing(void) {
    long long spent = 0;
    for (unsigned i = 0; i < CELLS; i++) {
        long long start = now();
        spent += now() - start;
    }
    return spent;
}

static void tell(const char *what, long long spent) { printf("%s %lld %u\n", what, spent, sum_cells()); }

int main(int words, char **word) {
    unsigned rounds = words > 1 ? atoi(word[1]) : 1;
    for (unsigned i = 0; i < CELLS; i++) {
        memset(cells[i], i, LENGTH);
        cells[i][0] = LENGTH - 2;
    }
    for (unsigned round = 0; round < rounds; round++) {
        start_page();
        tell("put", fill());
        tell("take", empty());
        tell("swap", swap());
        tell("none", nothing());
    }
}
