/* How much stack each call of include/lafzimdo.h takes on one chunk: stack FILE prints a line `NAME BYTES` for each, or `NAME refused` where no answer was 0.
 * A call runs on a stack of its own that is filled with a pattern; the lowest byte that it changed says how far down it came. Calls on a part are made on the
 * first function and the last, on their first two entries, and at every place of the chunk's front and end; the most counts.
 * stack_calls.h is made by stack.py from the header: a function for each call, and their table. */
#define _GNU_SOURCE
#include <stdio.h>
#include <stdlib.h>
#include <string.h>
#include <sys/mman.h>
#include <ucontext.h>

#include "../include/lafzimdo.h"

#define STACK ((size_t)1 << 20)
#define GUARD ((size_t)1 << 16)
#define PATTERN 0xA5A5A5A5A5A5A5A5u
/* So many places at the chunk's front, where heads and their entries begin, and as many before its end, where tails do. */
#define PLACES 256
#define LENT ((size_t)1 << 20)

static uint8_t chunk[1 << 20];
static size_t len, functions;
static const uint64_t limits[9] = LAFZIMDO_CEILINGS;
static size_t function, entry, place;
static uint64_t out[64], lent[LENT / 8];
/* A list of numbers that does not fall. */
static const uint64_t listed[] = {0, 1, 1, 2};

struct call {
    const char *name;
    uint64_t (*run)(void);
    int of_function, of_entry, of_place; /* which of these it takes */
};
#include "stack_calls.h"

static uint64_t *stack;
static ucontext_t back, there;
static uint64_t (*running)(void);
static uint64_t answer, *top;

static void start(void) {
    top = __builtin_frame_address(0);
    answer = running();
}

/* The bytes of stack that a call takes, from the lowest that it changed; the stack is filled again as far. */
static size_t depth_of(uint64_t (*run)(void)) {
    running = run;
    getcontext(&there);
    there.uc_stack.ss_sp = stack;
    there.uc_stack.ss_size = STACK;
    there.uc_link = &back;
    makecontext(&there, start, 0);
    swapcontext(&back, &there);
    size_t at = 0, end = STACK / sizeof *stack;
    while (at < end && stack[at] == PATTERN) at++;
    for (size_t i = at; i < end; i++) stack[i] = PATTERN;
    return (size_t)(top - stack - at) * sizeof *stack;
}

static void measure(const struct call *call) {
    size_t most = 0, answered = 0;
    for (function = 0; function < (call->of_function ? functions : 1); function += functions > 1 ? functions - 1 : 1)
        for (entry = 0; entry < (call->of_entry ? 2 : 1); entry++)
            for (size_t i = 0; i < (call->of_place ? 2 * PLACES : 1); i++) {
                place = i < PLACES ? i : len - 2 * PLACES + i;
                size_t depth = depth_of(call->run);
                if (most < depth) most = depth;
                answered += answer == 0;
            }
    if (answered) printf("%s %zu\n", call->name, most);
    else printf("%s refused\n", call->name);
}

int main(int count, char **words) {
    FILE *file = count == 2 ? fopen(words[1], "rb") : NULL;
    if (!file) return fprintf(stderr, "usage: stack FILE\n"), 2;
    len = fread(chunk, 1, sizeof chunk, file);
    fclose(file);
    uint8_t *room = mmap(NULL, GUARD + STACK, PROT_READ | PROT_WRITE, MAP_PRIVATE | MAP_ANONYMOUS, -1, 0);
    if (room == MAP_FAILED || mprotect(room, GUARD, PROT_NONE) != 0) return perror("stack"), 2;
    stack = (uint64_t *)(room + GUARD);
    for (size_t i = 0; i < STACK / sizeof *stack; i++) stack[i] = PATTERN;
    functions = lafzimdo_summary(chunk, len, limits, out) == 0 ? out[7] : 1;
    for (size_t i = 0; i < sizeof calls / sizeof *calls; i++) measure(calls + i);
    return 0;
}
