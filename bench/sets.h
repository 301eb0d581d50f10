/* The chunks that are measured, the memory that is lent to the calls, and the clock. */
#include <stddef.h>
#include <stdint.h>

struct chunk {
    const uint8_t *bytes;
    size_t len;
    size_t functions;      /* as the C reader counts them */
    size_t instructions;
    size_t function, pc;   /* the last instruction of the function that has most: what is looked up */
    size_t late;           /* the last function that has an instruction */
    uint64_t *pcs;         /* PCS pcs of the function that has most, spread evenly: a sweep log */
};
#define PCS 10000

struct set {
    const char *name;
    struct chunk *chunks;
    size_t count;
    size_t bytes;          /* of all chunks together */
    unsigned repeats;      /* how often a call is made on each, so that the clock can tell */
};

extern const uint64_t limits[9];
extern uint64_t out[18];

/* Lent memory, enough for any chunk of the set. */
#define LIST_LEN 40004
extern uint8_t *copy;
extern uint32_t *rows;
extern uint64_t list[LIST_LEN];
extern size_t copy_len, rows_len;

/* Processor time, not time that others had the processor. */
double now(void);

/* Stops the program where what is told does not hold. */
void must(int holds, const char *what);

/* Runs a statement on every chunk `c` of the set, as often as the set says, and returns what one round takes. */
#define TIMED(set, statement)                                           \
    double start = now();                                               \
    for (unsigned r = 0; r < (set)->repeats; r++)                       \
        for (size_t i = 0; i < (set)->count; i++) {                     \
            const struct chunk *c = (set)->chunks + i;                  \
            statement;                                                  \
        }                                                               \
    return (now() - start) / (set)->repeats

double run_skip(const struct set *), run_test(const struct set *);

/* A file as bench/files.py writes it. */
void load_set(struct set *, const char *path);

/* Makes room for the largest chunk of a set, counts its functions, finds what is looked up, and says how often a call is to be made. */
void make_ready(struct set *);
