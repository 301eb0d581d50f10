/* A plain reader of chunks in C, to measure against: it passes over a chunk and tests its structure. */
#include <stddef.h>
#include <stdint.h>

/* How many functions a chunk has; -1 where it is refused. The limits are those of lafzimdo.h. */
int64_t skip_chunk(const uint8_t *chunk, size_t len, const uint64_t limits[9]);

/* The same, and how many instructions and findings there are (where the last of 10,000 findings is one of two: 10,001). */
struct tested {
    uint64_t instructions, findings;
};
int64_t test_chunk(const uint8_t *chunk, size_t len, const uint64_t limits[9], struct tested *);
