// Times a HAM line that the library finds beside the same line by a plain double loop.
// The two take turns at the same lines in one process, and have to agree on every code, every preview colour and the cost.
#include "plain_line.h"

#include <stdio.h>
#include <stdlib.h>
#include <string.h>
#include <time.h>

// What the crate bench_line exports. A slice is a pointer and a length.
size_t cell_bytes(void);
bool ham_line(const uint16_t registers[16], const uint8_t *targets, size_t target_count, uint8_t *codes, size_t code_count, uint16_t *preview, size_t preview_count, uint32_t *cost);

enum { WIDEST = 640, MOST_LINES = 99 };

struct line {
    uint8_t codes[WIDEST];
    uint16_t preview[WIDEST];
    uint32_t cost;
};

static uint32_t seed = 2463534242;

static uint32_t next_random(void) {
    seed ^= seed << 13;
    seed ^= seed >> 17;
    seed ^= seed << 5;
    return seed;
}

// Sixteen colours, and ramps of colour with noise and a hard edge every 40 pixels.
static void make_input(uint16_t registers[16], uint8_t *targets, size_t pixels) {
    for (size_t i = 0; i < 16; i++)
        registers[i] = next_random() & 0xfff;
    uint8_t from[3] = {0}, to[3] = {0};
    for (size_t pixel = 0; pixel < pixels; pixel++)
        for (size_t channel = 0; channel < 3; channel++) {
            if (pixel % 40 == 0) {
                from[channel] = next_random() & 255;
                to[channel] = next_random() & 255;
            }
            int level = from[channel] + (to[channel] - from[channel]) * (int)(pixel % 40) / 40 + (int)(next_random() % 33) - 16;
            targets[3 * pixel + channel] = (uint8_t)(level < 0 ? 0 : level > 255 ? 255 : level);
        }
}

// Processor time, so that what else runs on the machine counts little.
static double milliseconds(void) {
    struct timespec now;
    clock_gettime(CLOCK_PROCESS_CPUTIME_ID, &now);
    return now.tv_sec * 1e3 + now.tv_nsec / 1e6;
}

static int compare(const void *a, const void *b) {
    double x = *(const double *)a, y = *(const double *)b;
    return (x > y) - (x < y);
}

static double median(double *times, size_t count) {
    qsort(times, count, sizeof *times, compare);
    return times[count / 2];
}

static void print_memory(const char *name, size_t pixels, size_t bytes) {
    size_t cells = (pixels + 1) * 4096;
    printf("%s  %zu cells of %zu bytes, %.1f MB\n", name, cells, bytes, cells * bytes / 1e6);
}

int main(int argc, char **argv) {
    size_t pixels = argc > 1 ? strtoul(argv[1], NULL, 10) : 320;
    size_t lines = argc > 2 ? strtoul(argv[2], NULL, 10) : 11;
    if (pixels < 1 || pixels > WIDEST || lines < 1 || lines > MOST_LINES) {
        fprintf(stderr, "usage: line [PIXELS, at most %d [LINES, at most %d]]\n", WIDEST, MOST_LINES);
        return 2;
    }
    static uint16_t registers[16];
    static uint8_t targets[3 * WIDEST];
    static struct line library, plain;
    static double library_times[MOST_LINES], plain_times[MOST_LINES];
    for (size_t line = 0; line < lines; line++) {
        make_input(registers, targets, pixels);
        double start = milliseconds();
        bool found = ham_line(registers, targets, 3 * pixels, library.codes, pixels, library.preview, pixels, &library.cost);
        double middle = milliseconds();
        bool plainly = plain_line(registers, targets, pixels, plain.codes, plain.preview, &plain.cost);
        double end = milliseconds();
        library_times[line] = middle - start;
        plain_times[line] = end - middle;
        if (!found || !plainly || memcmp(&library, &plain, sizeof plain) != 0) {
            printf("line %zu: the two differ\n", line);
            return 1;
        }
    }
    double by_library = median(library_times, lines), by_plain = median(plain_times, lines);
    printf("HAM, %zu lines of %zu pixels, the same codes, previews and costs by both\n", lines, pixels);
    printf("library  %.1f ms a line\nplain    %.1f ms a line\nratio    %.2f\n", by_library, by_plain, by_library / by_plain);
    print_memory("library", pixels, cell_bytes());
    print_memory("plain  ", pixels, plain_cell_bytes());
    return 0;
}
