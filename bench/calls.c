/* The calls that are measured: the library's, the C reader's, memcpy, Lua's and the Rust's. */
#define _GNU_SOURCE
#include "calls.h"

#include <stdio.h>
#include <stdlib.h>
#include <string.h>
#include <sys/resource.h>
#include <sys/wait.h>
#include <unistd.h>

#include <lua5.4/lauxlib.h>
#include <lua5.4/lua.h>

#include "../include/lafzimdo.h"

static size_t dumped;

double run_memcpy(const struct set *set) {
    /* The compiler must not see that nobody reads the copy. */
    TIMED(set, { memcpy(copy, c->bytes, c->len); __asm__ volatile("" : : "r"(copy) : "memory"); });
}

double run_summary(const struct set *set) {
    TIMED(set, must(lafzimdo_summary(c->bytes, c->len, limits, out) == 0 && out[7] == c->functions, "summary"));
}

double run_strict(const struct set *set) {
    TIMED(set, must(lafzimdo_strict_summary(c->bytes, c->len, limits, out) == 0 && out[7] == c->functions, "strict_summary"));
}

double run_index(const struct set *set) {
    TIMED(set, must(lafzimdo_index(c->bytes, c->len, limits, rows, rows_len, out) == 0 && out[0] == c->functions, "index"));
}

double run_copy_length(const struct set *set) { TIMED(set, must(lafzimdo_copy_length(c->bytes, c->len, limits, out) == 0, "copy_length")); }

double run_copy(const struct set *set) { TIMED(set, must(lafzimdo_copy(c->bytes, c->len, limits, copy, copy_len, out) == 0, "copy")); }

double run_full(const struct set *set) { TIMED(set, must(lafzimdo_full_copy(c->bytes, c->len, limits, copy, copy_len, out) == 0, "full copy")); }

double run_verdict(const struct set *set) { TIMED(set, must(lafzimdo_verdict(c->bytes, c->len, limits, out) == 0, "verdict")); }

double run_findings(const struct set *set) {
    TIMED(set, must(lafzimdo_findings(c->bytes, c->len, limits, list, LIST_LEN, out) == 0, "findings"));
}

double run_line(const struct set *set) { TIMED(set, must(lafzimdo_line(c->bytes, c->len, limits, c->function, c->pc, out) == 0, "line")); }

double run_lines(const struct set *set) {
    TIMED(set, must(lafzimdo_lines(c->bytes, c->len, limits, c->function, c->pcs, PCS, list, LIST_LEN, out) == 0, "lines"));
}

/* ---- Lua: a fresh state each time; making it ready and freeing it are not counted */

struct piece {
    const uint8_t *bytes;
    size_t len;
};

static const char *give(lua_State *L, void *data, size_t *size) {
    struct piece *p = data;
    (void)L;
    *size = p->len;
    p->len = 0;
    return *size ? (const char *)p->bytes : NULL;
}

static int take(lua_State *L, const void *bytes, size_t size, void *data) {
    (void)L;
    (void)data;
    must(size <= copy_len - dumped, "lua_dump writes more than there is room for");
    memcpy(copy + dumped, bytes, size);
    dumped += size;
    return 0;
}

/* Loads and dumps every chunk; the one time or the other. */
static double lua(const struct set *set, int dumps) {
    double took = 0;
    for (unsigned r = 0; r < set->repeats; r++) {
        lua_State *L = luaL_newstate();
        must(L != NULL, "no Lua state");
        for (size_t i = 0; i < set->count; i++) {
            struct piece p = {set->chunks[i].bytes, set->chunks[i].len};
            double start = now();
            must(lua_load(L, give, &p, "=chunk", "b") == LUA_OK, "lua_load refused");
            double loaded = now();
            dumped = 0;
            if (dumps) must(lua_dump(L, take, NULL, 0) == 0, "lua_dump");
            took += dumps ? now() - loaded : loaded - start;
            lua_settop(L, 0);
        }
        lua_close(L);
    }
    return took / set->repeats;
}

double run_load(const struct set *set) { return lua(set, 0); }
double run_dump(const struct set *set) { return lua(set, 1); }

/* ---- the Rust */

struct luad_chunk;
const struct luad_chunk *luad_decode(const uint8_t *bytes, size_t len, const uint64_t *limits);
size_t luad_encode(const struct luad_chunk *), luad_validate(const struct luad_chunk *), luad_line(const struct luad_chunk *, size_t function, size_t pc);

#define MOST_MEMORY ((rlim_t)6 << 30)

static void rust_child(const struct set *set, int to) {
    struct rlimit memory = {MOST_MEMORY, MOST_MEMORY};
    struct rust took = {0};
    setrlimit(RLIMIT_AS, &memory);
    for (size_t i = 0; i < set->count; i++) {
        const struct chunk *c = set->chunks + i;
        double start = now();
        const struct luad_chunk *decoded = luad_decode(c->bytes, c->len, limits);
        double t1 = now();
        must(decoded != NULL, "the Rust refused");
        luad_encode(decoded);
        double t2 = now();
        luad_validate(decoded);
        double t3 = now();
        luad_line(decoded, c->function, c->pc);
        double t4 = now();
        took.decode += t1 - start;
        took.encode += t2 - t1;
        took.validate += t3 - t2;
        took.line += t4 - t3;
    }
    must(write(to, &took, sizeof took) == sizeof took, "no pipe");
    _exit(0);
}

int run_rust(const struct set *set, struct rust *took) {
    int ends[2];
    must(pipe(ends) == 0, "no pipe");
    fflush(NULL);
    pid_t child = fork();
    must(child >= 0, "no process");
    if (child == 0) rust_child(set, ends[1]);
    close(ends[1]);
    int ok = read(ends[0], took, sizeof *took) == sizeof *took;
    close(ends[0]);
    waitpid(child, NULL, 0);
    return ok;
}
