/* The calls that are measured, each on all chunks of a set. */
#include "sets.h"

/* The seconds of processor time that one call on every chunk takes, without what it has to make ready. It stops the program where an answer is a refusal. */
typedef double (*call)(const struct set *);

double run_memcpy(const struct set *), run_summary(const struct set *), run_strict(const struct set *), run_index(const struct set *), run_copy_length(const struct set *),
    run_copy(const struct set *), run_full(const struct set *), run_verdict(const struct set *), run_findings(const struct set *), run_line(const struct set *), run_lines(const struct set *), run_load(const struct set *),
    run_dump(const struct set *);

/* The Rust: decoding, and what comes on top for a copy, for validation and for a line. It may run out of memory, so it runs in a process of its own; whether it ended well. */
struct rust {
    double decode, encode, validate, line;
};
int run_rust(const struct set *, struct rust *);
