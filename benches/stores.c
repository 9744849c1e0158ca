// The steps of a clear of the lock-free bucket, without the clear. `stores` makes a sequentially consistent store for each value,
// which bounds a clear that resets a mark of each. `blocks` makes what a clear makes that has 64 marks in a word: for each block
// a load of the word, a load of each value and one such store. The sizes, the rounds and what is printed are those of
// `bench_shared`'s rows of clears: `name ns_per_op`, the least of nine rounds, and to standard error the median.
#include <stdatomic.h>
#include <stdint.h>
#include <stdio.h>
#include <stdlib.h>
#include <time.h>

enum { ROUNDS = 9, VALUES = 1 << 18, TIMES = 4 };

enum { BLOCK = 64 };

// A block of values, and a mark for each of them.
struct block {
    atomic_uint_fast64_t marks;
    atomic_uint_fast64_t values[BLOCK];
};

static void fill(struct block *blocks, size_t count) {
    for (size_t i = 0; i < count; i++) {
        for (size_t k = 0; k < BLOCK; k++) {
            atomic_store_explicit(&blocks[i].values[k], k, memory_order_relaxed);
        }
        atomic_store_explicit(&blocks[i].marks, UINT64_MAX, memory_order_relaxed);
    }
}

static uint64_t stores(struct block *blocks, size_t count) {
    for (size_t i = 0; i < count; i++) {
        for (size_t k = 0; k < BLOCK; k++) {
            atomic_store(&blocks[i].values[k], 0);
        }
    }
    return count;
}

static uint64_t steps(struct block *blocks, size_t count) {
    uint64_t sum = 0;
    for (size_t i = 0; i < count; i++) {
        if (atomic_load(&blocks[i].marks) == UINT64_MAX) {
            for (size_t k = 0; k < BLOCK; k++) {
                sum += atomic_load(&blocks[i].values[k]);
            }
        }
        atomic_store(&blocks[i].marks, 0);
    }
    return sum;
}

static double nanos(void) {
    struct timespec now;
    clock_gettime(CLOCK_MONOTONIC, &now);
    return 1e9 * (double)now.tv_sec + (double)now.tv_nsec;
}

static int order(const void *one, const void *other) {
    double a = *(const double *)one, b = *(const double *)other;
    return (a > b) - (a < b);
}

// A way to clear so many blocks, and how many values the full buckets of that size have together.
typedef uint64_t clearing(struct block *, size_t);
static const struct {
    size_t count, values;
} SIZES[] = {{64, 1 << 15}, {1024, VALUES}, {65536, VALUES}};

// The nanoseconds for a value: full buckets are cleared one after another, and filling them isn't timed.
static double timed(clearing *clear, struct block *blocks, size_t count, size_t values, uint64_t *seen) {
    double spent = 0;
    for (int time = 0; time < TIMES; time++) {
        fill(blocks, values / BLOCK);
        double start = nanos();
        for (size_t at = 0; at < values / BLOCK; at += count / BLOCK) {
            *seen += clear(blocks + at, count / BLOCK);
        }
        spent += nanos() - start;
    }
    return spent / (double)(TIMES * values);
}

// Nine rounds after a warm-up.
static void report(const char *name, clearing *clear, struct block *blocks, size_t count, size_t values) {
    double times[ROUNDS];
    uint64_t seen = 0;
    timed(clear, blocks, count, values, &seen);
    for (int round = 0; round < ROUNDS; round++) {
        times[round] = timed(clear, blocks, count, values, &seen);
    }
    qsort(times, ROUNDS, sizeof times[0], order);
    printf("c_%s_%zu_per_value %.2f\n", name, count, times[0]);
    fprintf(stderr, "# c_%s_%zu_per_value median %.2f%s\n", name, count, times[ROUNDS / 2], seen == 1 ? "." : "");
}

int main(void) {
    struct block *blocks = calloc(VALUES / BLOCK, sizeof *blocks);
    if (blocks == NULL) {
        return 1;
    }
    for (size_t i = 0; i < sizeof SIZES / sizeof SIZES[0]; i++) {
        report("stores", stores, blocks, SIZES[i].count, SIZES[i].values);
        report("blocks", steps, blocks, SIZES[i].count, SIZES[i].values);
    }
    free(blocks);
    return 0;
}
