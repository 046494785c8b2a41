#include "plain_line.h"

#include <stdlib.h>
#include <string.h>

enum { STATES = 4096, CODES = 64 };

// The widest field first, so that a cell takes 8 bytes.
struct cell {
    uint32_t cost;
    uint16_t prev;
    uint8_t code;
    bool reached;
};

size_t plain_cell_bytes(void) {
    return sizeof(struct cell);
}

// The colour after a code, of a state below 4096 and a code below 64.
static unsigned step(const uint16_t registers[16], unsigned state, unsigned code) {
    unsigned data = code & 15;
    switch (code >> 4) {
    case 0:
        return registers[data] & 0xfff;
    case 1:
        return (state & 0xff0) | data;
    case 2:
        return (state & 0x0ff) | data << 8;
    default:
        return (state & 0xf0f) | data << 4;
    }
}

// The squares of the differences of levels, summed.
static uint32_t error(const uint8_t wanted[3], unsigned colour) {
    int red = wanted[0] - (int)(colour >> 8);
    int green = wanted[1] - (int)(colour >> 4 & 15);
    int blue = wanted[2] - (int)(colour & 15);
    return (uint32_t)(red * red + green * green + blue * blue);
}

static uint32_t saturating_sum(uint32_t a, uint32_t b) {
    return a > UINT32_MAX - b ? UINT32_MAX : a + b;
}

// Writes the next column: every state that is reached bids by every code. A cell goes to a cheaper bid alone, so at a tie the first keeps it.
static void write_next(const uint16_t registers[16], const struct cell *column, struct cell *next, const uint8_t wanted[3]) {
    memset(next, 0, STATES * sizeof *next);
    for (unsigned s = 0; s < STATES; s++) {
        const struct cell from = column[s];
        if (!from.reached)
            continue;
        for (unsigned code = 0; code < CODES; code++) {
            unsigned t = step(registers, s, code);
            uint32_t bid = saturating_sum(from.cost, error(wanted, t));
            if (!next[t].reached || bid < next[t].cost)
                next[t] = (struct cell){.cost = bid, .prev = (uint16_t)s, .code = (uint8_t)code, .reached = true};
        }
    }
}

// The cheapest state that is reached, the lowest at a tie.
static unsigned pick(const struct cell *column) {
    unsigned best = STATES;
    for (unsigned s = 0; s < STATES; s++)
        if (column[s].reached && (best == STATES || column[s].cost < column[best].cost))
            best = s;
    return best;
}

bool plain_line(const uint16_t registers[16], const uint8_t *targets, size_t pixels, uint8_t *codes, uint16_t *preview, uint32_t *cost) {
    struct cell *cells = malloc((pixels + 1) * STATES * sizeof *cells);
    if (!cells)
        return false;
    memset(cells, 0, STATES * sizeof *cells);
    cells[registers[0] & 0xfff].reached = true;
    for (size_t pixel = 0; pixel < pixels; pixel++) {
        const uint8_t wanted[3] = {targets[3 * pixel] >> 4, targets[3 * pixel + 1] >> 4, targets[3 * pixel + 2] >> 4};
        write_next(registers, cells + pixel * STATES, cells + (pixel + 1) * STATES, wanted);
    }
    unsigned state = pick(cells + pixels * STATES);
    *cost = cells[pixels * STATES + state].cost;
    for (size_t pixel = pixels; pixel-- > 0;) {
        const struct cell *cell = &cells[(pixel + 1) * STATES + state];
        codes[pixel] = cell->code;
        preview[pixel] = (uint16_t)state;
        state = cell->prev;
    }
    free(cells);
    return true;
}
