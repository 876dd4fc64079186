/* The least work of publications, by loops that the C compiler turns into lanes, for publication.sh:
 *
 *   lanes ORDER SIDE COUNT    prints, for a survey with all leaves of ORDER, SIDE by SIDE numbers of 16 bits, of which COUNT were
 *                             replaced, as far apart as they can lie: the least milliseconds of several rounds, the numbers that
 *                             were merged, and the bytes that were copied
 *
 * It merges, in each tile above a replaced leaf, the quadrant over the child that changed, and copies the other quadrants; and it
 * copies the mosaic and makes in it the squares of the cells of order 3 that changed. With COUNT of all leaves nothing is copied: that
 * is the first generation. Where several replaced leaves lie under a tile, it is made once. All tiles of an order have the same
 * numbers: only those of one are kept, which spares memory and makes nothing quicker that is measured here. */
#include <stdint.h>
#include <stdio.h>
#include <stdlib.h>
#include <string.h>
#include <time.h>

enum { ROUNDS = 7, COLUMNS = 27, ROWS = 29, SQUARE = 64, BLANK = 0 };

static uint64_t merged, copied;

static void *fresh(size_t bytes) {
    void *memory = malloc(bytes);
    if (memory == NULL) {
        perror("malloc");
        exit(2);
    }
    return memory;
}

/* A stored number, raised so that the least is 0. */
static inline uint32_t raised(uint16_t stored) { return (uint16_t)(stored << 8 | stored >> 8) ^ 0x8000; }

/* The means of the numbers of two lines, four by four; a blank number counts for nothing. */
static void mean_line(const uint16_t *restrict top, const uint16_t *restrict bottom, uint16_t *restrict out, size_t count) {
    for (size_t i = 0; i < count; i++) {
        uint32_t a = raised(top[2 * i]), b = raised(top[2 * i + 1]), c = raised(bottom[2 * i]), d = raised(bottom[2 * i + 1]);
        uint32_t n = (a != BLANK) + (b != BLANK) + (c != BLANK) + (d != BLANK), s = a + b + c + d;
        uint32_t mean = n == 4 ? (s + 2) / 4 : n == 3 ? (s + 1) / 3 : n == 2 ? (s + 1) / 2 : s;
        uint16_t lowered = (uint16_t)(mean ^ 0x8000);
        out[i] = (uint16_t)(lowered << 8 | lowered >> 8);
    }
}

/* Merges a square of `side` numbers a line into one of half as many; `line` is how many numbers a line of `out` has. */
static void merge(const uint16_t *square, size_t side, uint16_t *out, size_t line) {
    for (size_t y = 0; y < side / 2; y++) {
        mean_line(square + 2 * y * side, square + (2 * y + 1) * side, out + y * line, side / 2);
    }
    merged += side * side / 4;
}

/* The tile above four of which some changed, beside the tile that there was. */
static uint16_t *above(const uint16_t *child, const uint16_t *before, size_t side, unsigned changed) {
    uint16_t *tile = fresh(2 * side * side);
    for (unsigned quadrant = 0; quadrant < 4; quadrant++) {
        size_t at = (quadrant / 2) * (side / 2) * side + (quadrant % 2) * (side / 2);
        if (changed >> quadrant & 1) {
            merge(child, side, tile + at, side);
            continue;
        }
        for (size_t y = 0; y < side / 2; y++) memcpy(tile + at + y * side, before + at + y * side, side);
        copied += side * side / 2;
    }
    return tile;
}

/* The square of a tile of order 3 in the mosaic: halved until it has at most 64 numbers a line. */
static void show(const uint16_t *tile, size_t side, uint16_t *mosaic, size_t square, uint64_t cell) {
    static uint16_t half[2][256 * 256];
    const uint16_t *from = tile;
    for (int turn = 0; side > square; side /= 2, turn ^= 1) {
        merge(from, side, half[turn], side / 2);
        from = half[turn];
    }
    uint16_t *at = mosaic + (cell / COLUMNS * square * COLUMNS + cell % COLUMNS) * square;
    for (size_t y = 0; y < square; y++) memcpy(at + y * COLUMNS * square, from + y * square, 2 * square);
}

int main(int argc, char **argv) {
    unsigned order = argc == 4 ? (unsigned)atoi(argv[1]) : 0;
    size_t side = argc == 4 ? (size_t)atoi(argv[2]) : 0;
    uint64_t count = argc == 4 ? (uint64_t)atoll(argv[3]) : 0, leaves = 12ull << 2 * order;
    if (order < 3 || order > 12 || side < 2 || side > 512 || count < 1 || count > leaves) {
        fprintf(stderr, "lanes ORDER SIDE COUNT\n");
        return 2;
    }
    size_t square = side < SQUARE ? side : SQUARE, bytes = 2ull * COLUMNS * ROWS * square * square;
    uint16_t *tile = fresh(2 * side * side), *mosaic = fresh(bytes);
    for (size_t i = 0; i < side * side; i++) tile[i] = (uint16_t)(i * 2654435761u >> 7);
    memset(mosaic, 1, bytes);
    uint64_t *cells = fresh(count * sizeof *cells);
    uint16_t **made = fresh(count * order * sizeof *made);
    double least = 1e9;
    for (int round = 0; round < ROUNDS; round++) {
        struct timespec begun, done;
        size_t tiles = 0;
        uint64_t touched = count;
        for (uint64_t i = 0; i < count; i++) cells[i] = i * (leaves / count);
        merged = copied = 0;
        clock_gettime(CLOCK_MONOTONIC, &begun);
        uint16_t *fresh_mosaic = fresh(bytes);
        if (count < leaves) {
            memcpy(fresh_mosaic, mosaic, bytes);
            copied += bytes;
        }
        for (unsigned now = order;; now--) {
            for (uint64_t i = 0; now == 3 && i < touched; i++) show(tile, side, fresh_mosaic, square, cells[i]);
            if (now == 0) break;
            uint64_t parents = 0;
            for (uint64_t i = 0; i < touched;) {
                uint64_t parent = cells[i] / 4;
                unsigned changed = 0;
                for (; i < touched && cells[i] / 4 == parent; i++) changed |= 1u << cells[i] % 4;
                made[tiles++] = above(tile, tile, side, changed);
                cells[parents++] = parent;
            }
            touched = parents;
        }
        clock_gettime(CLOCK_MONOTONIC, &done);
        double took = (done.tv_sec - begun.tv_sec) * 1e3 + (done.tv_nsec - begun.tv_nsec) / 1e6;
        if (took < least) least = took;
        for (size_t i = 0; i < tiles; i++) free(made[i]);
        free(fresh_mosaic);
    }
    printf("%.3f %llu %llu\n", least, (unsigned long long)merged, (unsigned long long)copied);
    return 0;
}
