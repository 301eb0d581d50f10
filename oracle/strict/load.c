/* Has Lua's own loader load chunks: load FILE FROM [FAULT]. FILE holds chunks, each behind its length in four bytes, the low byte first. For each, from the one of number FROM on, a line is printed: its number, and `loads` or what Lua
 * says. Where the program stops at a chunk there is no line for it, nor for those behind: who runs it goes on with the next.
 * Built with address sanitizer, which sees what this file and the C library's functions do; Lua's own stores are watched by the allocator: behind each block stand bytes that must be as they were. A state may take 64 MB.
 * FAULT is for the self-test, at chunk FROM: `stop` stops, `read` reads behind the chunk, `write` has something written behind a block. */
#include <lua5.4/lauxlib.h>
#include <lua5.4/lua.h>
#include <stdint.h>
#include <stdio.h>
#include <stdlib.h>
#include <string.h>

#define MOST ((size_t)64 << 20)
#define BEHIND 32
#define GUARD 0xa5

static size_t taken;

static void must(int holds, const char *what) {
    if (holds) return;
    fprintf(stderr, "load: %s\n", what);
    abort();
}

static void see_guard(const uint8_t *block, size_t size) {
    for (size_t i = 0; i < BEHIND; i++) must(block[size + i] == GUARD, "something is written behind a block");
}

/* Lua tells the old size of every block that it has (of a new one it tells a kind). */
static void *allocate(void *none, void *old, size_t old_size, size_t size) {
    (void)none;
    if (old) see_guard(old, old_size);
    else old_size = 0;
    if (size == 0) {
        free(old);
        taken -= old_size;
        return NULL;
    }
    if (size > MOST || taken - old_size > MOST - size) return NULL;
    uint8_t *block = malloc(size + BEHIND);
    must(block != NULL, "no memory");
    if (old) memcpy(block, old, old_size < size ? old_size : size);
    memset(block + size, GUARD, BEHIND);
    free(old);
    taken += size - old_size;
    return block;
}

/* What stands in the brackets of `chunk: bad binary format (..)`, or all that Lua says. */
static void show(const char *said) {
    const char *why = strstr(said, "bad binary format (");
    if (why) printf("%.*s\n", (int)strcspn(why + 19, ")"), why + 19);
    else printf("%s\n", said);
}

static void load(const uint8_t *chunk, size_t len) {
    taken = 0;
    lua_State *L = lua_newstate(allocate, NULL);
    must(L != NULL, "no state");
    int status = luaL_loadbufferx(L, (const char *)chunk, len, "=chunk", "b");
    if (status == LUA_OK) printf("loads\n");
    else show(lua_tostring(L, -1));
    lua_close(L);
    must(taken == 0, "memory is left");
}

static void at_fault(const char *fault, const uint8_t *chunk, size_t len) {
    if (!strcmp(fault, "stop")) abort();
    if (!strcmp(fault, "read")) printf("%d\n", chunk[len]);
    if (!strcmp(fault, "write")) {
        uint8_t *block = allocate(NULL, NULL, 0, 8);
        block[8] = 0;
        allocate(NULL, block, 8, 0);
    }
}

static size_t length(FILE *file) {
    uint8_t b[4];
    if (fread(b, 1, 4, file) != 4) return SIZE_MAX;
    return b[0] | (size_t)b[1] << 8 | (size_t)b[2] << 16 | (size_t)b[3] << 24;
}

int main(int count, char **words) {
    must(count >= 3, "FILE FROM [FAULT]");
    FILE *file = fopen(words[1], "rb");
    must(file != NULL, "no file");
    size_t from = strtoul(words[2], NULL, 10), len;
    for (size_t number = 0; (len = length(file)) != SIZE_MAX; number++) {
        /* A block of just this length, so that nothing can be read behind it unseen. */
        uint8_t *chunk = malloc(len);
        must(chunk != NULL && fread(chunk, 1, len, file) == len, "the file is cut short");
        if (number >= from) {
            if (number == from && count > 3) at_fault(words[3], chunk, len);
            printf("%zu ", number);
            load(chunk, len);
            fflush(stdout);
        }
        free(chunk);
    }
    fclose(file);
    return 0;
}
