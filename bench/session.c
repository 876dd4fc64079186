/* What session.sh runs beside hipsd:
 *
 *   session tile                writes a tile file of 512 by 512 numbers of 16 bits, of 529,920 bytes
 *   session puts COUNT EVERY    writes COUNT requests that put this file, over the leaves of order 3 in turn, and one that
 *                               publishes after each EVERY of them; none where EVERY is 0
 *   session copy                prints the least microseconds of 8 rounds of 10,000 copies of these bytes, from one buffer to
 *                               another, for each copy
 *   session write COUNT         writes the bytes COUNT times, by one call each
 *   session read                reads standard input to its end
 *   session run null|pipe COMMAND ..
 *                               runs the command with standard input as it is, and with /dev/null, or a pipe that is read
 *                               here, as standard output; prints its exit status, the bytes that came through the pipe, and
 *                               microseconds of its processor time (user and system) and on the wall */
#define _GNU_SOURCE
#include <fcntl.h>
#include <stdint.h>
#include <stdio.h>
#include <stdlib.h>
#include <string.h>
#include <sys/resource.h>
#include <sys/wait.h>
#include <time.h>
#include <unistd.h>

enum { SIDE = 512, PIXELS = SIDE * SIDE };
enum { BLOCK = 2880, FILE_BYTES = BLOCK + (2 * PIXELS + BLOCK - 1) / BLOCK * BLOCK, ROUNDS = 8, COPIES = 10000, LEAVES = 768 };
enum { PIPE_BYTES = 1 << 20 };

static void stop(const char *what) {
    perror(what);
    exit(2);
}

static void *checked(void *memory) {
    if (memory == NULL) stop("malloc");
    return memory;
}

/* Nanoseconds of a clock. */
static double now(clockid_t clock) {
    struct timespec t;
    clock_gettime(clock, &t);
    return t.tv_sec * 1e9 + t.tv_nsec;
}

/* Numbers that a linear congruence gives, a sixteenth of them blank. */
static void fill(uint8_t *numbers) {
    uint32_t state = 1;
    for (int i = 0; i < PIXELS; i++, numbers += 2) {
        state = state * 1664525u + 1013904223u;
        int is_blank = state >> 28 == 0;
        for (int place = 0; place < 2; place++) {
            state = state * 1664525u + 1013904223u;
            uint8_t byte = (uint8_t)(state >> 24);
            numbers[place] = is_blank ? (place == 0 ? 128 : 0) : byte - (place == 0 && byte == 128);
        }
    }
}

static uint8_t *tile_file(void) {
    uint8_t *file = checked(calloc(FILE_BYTES, 1));
    memset(file, ' ', BLOCK);
    static const char *const cards[][2] = {
        {"SIMPLE", "T"}, {"BITPIX", "16"}, {"NAXIS", "2"}, {"NAXIS1", "512"}, {"NAXIS2", "512"}, {"BLANK", "-32768"}};
    uint8_t *at = file;
    for (size_t i = 0; i < sizeof cards / sizeof *cards; i++, at += 80) {
        char text[31];
        memcpy(at, text, (size_t)snprintf(text, sizeof text, "%-8s= %20s", cards[i][0], cards[i][1]));
    }
    memcpy(at, "END", 3);
    fill(file + BLOCK);
    return file;
}

static void write_all(const void *bytes, size_t count) {
    const uint8_t *at = bytes;
    while (count > 0) {
        ssize_t took = write(1, at, count);
        if (took < 0) stop("write");
        at += took;
        count -= (size_t)took;
    }
}

static int puts_of(int count, int every) {
    fcntl(1, F_SETPIPE_SZ, PIPE_BYTES);
    uint8_t *file = tile_file();
    for (int i = 0; i < count; i++) {
        char head[128];
        int length = snprintf(head, sizeof head, "PUT /Norder3/Dir0/Npix%d.fits HTTP/1.1\r\nHost: bench\r\nContent-Length: %d\r\n\r\n",
            i % LEAVES, FILE_BYTES);
        write_all(head, (size_t)length);
        write_all(file, FILE_BYTES);
        static const char publish[] = "POST /publish HTTP/1.1\r\nHost: bench\r\n\r\n";
        if (every > 0 && (i + 1) % every == 0) write_all(publish, sizeof publish - 1);
    }
    free(file);
    return 0;
}

static int copy(void) {
    uint8_t *from = tile_file(), *to = tile_file();
    double least = 1e18;
    for (int round = 0; round < ROUNDS; round++) {
        double start = now(CLOCK_PROCESS_CPUTIME_ID);
        for (int i = 0; i < COPIES; i++) {
            memcpy(to, from, FILE_BYTES);
            /* The compiler has to make each copy. */
            __asm__ volatile("" : : "r"(to) : "memory");
        }
        double took = now(CLOCK_PROCESS_CPUTIME_ID) - start;
        if (took < least) least = took;
    }
    printf("%.3f\n", least / 1e3 / COPIES);
    return 0;
}

static int write_files(int count) {
    uint8_t *file = tile_file();
    for (int i = 0; i < count; i++) write_all(file, FILE_BYTES);
    return 0;
}

static int read_input(void) {
    uint8_t *buffer = checked(malloc(FILE_BYTES));
    ssize_t got;
    while ((got = read(0, buffer, FILE_BYTES)) > 0) {}
    return got == 0 ? 0 : 5;
}

static double micros(struct timeval time) {
    return (double)time.tv_sec * 1e6 + (double)time.tv_usec;
}

static int run(int piped, char **command) {
    int ends[2];
    if (piped) {
        if (pipe(ends) != 0) stop("pipe");
        fcntl(ends[1], F_SETPIPE_SZ, PIPE_BYTES);
    } else {
        ends[1] = open("/dev/null", O_WRONLY);
        if (ends[1] < 0) stop("/dev/null");
    }
    double start = now(CLOCK_MONOTONIC);
    pid_t child = fork();
    if (child < 0) stop("fork");
    if (child == 0) {
        dup2(ends[1], 1);
        close(ends[1]);
        if (piped) close(ends[0]);
        execv(command[0], command);
        stop(command[0]);
    }
    close(ends[1]);
    uint64_t bytes = 0;
    if (piped) {
        uint8_t *buffer = checked(malloc(PIPE_BYTES));
        ssize_t got;
        while ((got = read(ends[0], buffer, PIPE_BYTES)) > 0) bytes += (uint64_t)got;
    }
    int status;
    struct rusage spent;
    if (wait4(child, &status, 0, &spent) != child) stop("wait4");
    double wall = now(CLOCK_MONOTONIC) - start;
    printf("%d %llu %.0f %.0f\n", WIFEXITED(status) ? WEXITSTATUS(status) : 128, (unsigned long long)bytes,
        micros(spent.ru_utime) + micros(spent.ru_stime), wall / 1e3);
    return 0;
}

int main(int count, char **words) {
    const char *job = count > 1 ? words[1] : "";
    if (strcmp(job, "tile") == 0) {
        write_all(tile_file(), FILE_BYTES);
        return 0;
    }
    if (strcmp(job, "puts") == 0 && count == 4) return puts_of(atoi(words[2]), atoi(words[3]));
    if (strcmp(job, "copy") == 0) return copy();
    if (strcmp(job, "write") == 0 && count == 3) return write_files(atoi(words[2]));
    if (strcmp(job, "read") == 0) return read_input();
    if (strcmp(job, "run") == 0 && count > 3) return run(strcmp(words[2], "pipe") == 0, words + 3);
    return 1;
}
