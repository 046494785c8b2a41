// A HAM line by a plain double loop over states and codes, to time the library against.
#ifndef PLAIN_LINE_H
#define PLAIN_LINE_H

#include <stdbool.h>
#include <stddef.h>
#include <stdint.h>

// How many bytes a cell of the plain loop takes.
size_t plain_cell_bytes(void);

// The cheapest code line for the targets, three bytes a pixel, by the sum of errors; its codes, its preview and its cost.
bool plain_line(const uint16_t registers[16], const uint8_t *targets, size_t pixels, uint8_t *codes, uint16_t *preview, uint32_t *cost);

#endif
