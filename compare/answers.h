/* What answers.c and parts.c share: the chunk that is asked about, the array of the calls, and how answers are printed. */
#include <inttypes.h>
#include <stdio.h>
#include <stdlib.h>
#include <string.h>

#include "../include/lafzimdo.h"

#define OUT 18

extern uint64_t out[OUT];
extern uint8_t chunk[1 << 20];
extern size_t len;
extern uint64_t limits[9];

void fill(void);
int answered(uint64_t r, int n);
void hex(const uint8_t *at, uint64_t n);
void string(const uint64_t *s);
void constant(void);

/* The functions of the chunk with all their entries, by the parts at their places; `rows` is the index. */
void functions_by_parts(const uint32_t *rows, uint64_t functions);
