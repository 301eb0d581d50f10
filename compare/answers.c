/* Answers the requests of docs/PROTOCOL.md on standard input by the static library. On a refusal `out` and lent memory must be as they were, and lent memory behind what is
 * written always; where they are not, a line says so. Each answer ends with a line `end`.
 * With the argument `parts` functions and entries are shown by the calls on parts at a place. */
#include "answers.h"

#define BEFORE 0xa5

uint64_t out[OUT];
uint8_t chunk[1 << 20];
size_t len;
uint64_t limits[9];
static int by_parts;

void fill(void) { memset(out, BEFORE, sizeof out); }

/* Whether so many bytes from `at` on are as they were filled. */
static int untouched(const void *at, size_t n) {
    for (const uint8_t *p = at; n--; p++)
        if (*p != BEFORE) return 0;
    return 1;
}

static void refusal(uint64_t r) {
    printf("refused %u ", LAFZIMDO_NUMBER(r));
    if (LAFZIMDO_HAS_PLACE(r)) printf("%" PRIu64, LAFZIMDO_PLACE(r));
    else printf("-");
}

/* Whether the call answered, in n numbers; a refusal is printed. */
int answered(uint64_t r, int n) {
    int from = r ? 0 : n;
    if (!untouched(out + from, (OUT - from) * sizeof *out)) printf("out is touched\n");
    if (!r) return 1;
    refusal(r);
    printf("\n");
    return 0;
}

/* ---- Calls that fill lent memory: `call` lends n items to one. */
static uint8_t lent[1 << 23], first[1 << 23];
static size_t of_function, of_entry;

static uint64_t lend_index(size_t n) { return lafzimdo_index(chunk, len, limits, (uint32_t *)lent, n, out); }
static uint64_t lend_copy(size_t n) { return lafzimdo_copy(chunk, len, limits, lent, n, out); }
static uint64_t lend_findings(size_t n) { return lafzimdo_findings(chunk, len, limits, (uint64_t *)lent, n, out); }
static uint64_t lend_name(size_t n) { return lafzimdo_local(chunk, len, limits, of_function, of_entry, lent, n, out); }

struct lender {
    uint64_t (*call)(size_t n);
    size_t width, unit;   /* bytes of an item, items for each of what is counted */
    int numbers, counted; /* in `out`: how many, and which counts */
};

static const struct lender index_call = {lend_index, 4, LAFZIMDO_ROW_NUMBERS, 1, 0}, copy_call = {lend_copy, 1, 1, 1, 0}, name_call = {lend_name, 1, 1, 3, 0},
                           findings_call = {lend_findings, 8, 4, 2, 1};

static uint64_t lend(const struct lender *c, size_t n) {
    fill();
    memset(lent, BEFORE, n * c->width + 64);
    uint64_t r = c->call(n);
    size_t wrote = r ? 0 : out[c->counted] * c->unit * c->width;
    if (!untouched(lent + wrote, n * c->width + 64 - wrote)) printf("lent memory is touched\n");
    return r;
}

/* Whether the call answers where n items are more than enough. It must answer the same where they are just enough, and 26 where one is missing. */
static int lends(const struct lender *c, size_t n) {
    if (!answered(lend(c, n), c->numbers)) return 0;
    size_t need = out[c->counted] * c->unit;
    uint64_t numbers[OUT];
    memcpy(numbers, out, sizeof out);
    memcpy(first, lent, need * c->width);
    if (lend(c, need) || memcmp(numbers, out, sizeof out) || memcmp(first, lent, need * c->width)) printf("another answer\n");
    if (need && (lend(c, need - 1) != 26 || !untouched(out, sizeof out))) printf("no refusal\n");
    memcpy(out, numbers, sizeof out);
    memcpy(lent, first, need * c->width);
    return 1;
}

/* ---- What is printed */
void hex(const uint8_t *at, uint64_t n) {
    for (uint64_t i = 0; i < n; i++) printf("%02x", at[i]);
}

void string(const uint64_t *s) {
    if (!s[0]) printf("-");
    else { printf("x"); hex(chunk + s[1], s[2]); }
    printf("\n");
}

void constant(void) {
    switch (out[0]) {
    case 0: printf("k nil\n"); break;
    case 1: printf("k false\n"); break;
    case 17: printf("k true\n"); break;
    case 3: printf("k int %" PRId64 "\n", (int64_t)out[1]); break;
    case 19: printf("k float %016" PRIx64 "\n", out[1]); break;
    case 4:
    case 20:
        printf(out[0] == 4 ? "k short x" : "k long x");
        hex(chunk + out[1], out[2]);
        printf("\n");
        break;
    default: printf("k ?\n");
    }
}

static void entries(size_t f, const uint64_t *counts) {
    for (uint64_t i = 0; i < counts[0]; i++) {
        fill();
        if (answered(lafzimdo_instruction(chunk, len, limits, f, i, out), 1)) printf("i %08" PRIx64 "\n", out[0]);
    }
    for (uint64_t i = 0; i < counts[1]; i++) {
        fill();
        if (answered(lafzimdo_constant(chunk, len, limits, f, i, out), 3)) constant();
    }
    for (uint64_t i = 0; i < counts[2]; i++) {
        fill();
        if (answered(lafzimdo_upvalue(chunk, len, limits, f, i, out), 3)) printf("u %" PRIu64 " %" PRIu64 " %" PRIu64 "\n", out[0], out[1], out[2]);
    }
    for (uint64_t i = 0; i < counts[4]; i++) {
        fill();
        if (answered(lafzimdo_delta(chunk, len, limits, f, i, out), 1)) printf("d %" PRId64 "\n", (int64_t)out[0]);
    }
    for (uint64_t i = 0; i < counts[5]; i++) {
        fill();
        if (answered(lafzimdo_anchor(chunk, len, limits, f, i, out), 2)) printf("a %" PRIu64 " %" PRIu64 "\n", out[0], out[1]);
    }
    for (uint64_t i = 0; i < counts[6]; i++) {
        of_function = f;
        of_entry = i;
        if (!lends(&name_call, len)) continue;
        printf("l x");
        hex(lent, out[0]);
        printf(" %" PRIu64 " %" PRIu64 "\n", out[1], out[2]);
    }
    for (uint64_t i = 0; i < counts[7]; i++) {
        fill();
        if (answered(lafzimdo_upvalue_name(chunk, len, limits, f, i, out), 3)) { printf("n "); string(out); }
    }
}

static void function(size_t f, const uint32_t *row) {
    uint64_t y[OUT];
    fill();
    if (!answered(lafzimdo_function(chunk, len, limits, f, out), 18)) return;
    memcpy(y, out, sizeof out);
    printf("function %zu depth %" PRIu64 " parent %" PRIu64 " start %" PRIu32 " end %" PRIu32 "\nsource ", f, y[0], y[1], row[0], row[1]);
    string(y + 2);
    printf("lines %" PRIu64 " %" PRIu64 "\nbytes %" PRIu64 " %" PRIu64 " %" PRIu64 "\ncounts", y[5], y[6], y[7], y[8], y[9]);
    for (int i = 10; i < 18; i++) printf(" %" PRIu64, y[i]);
    printf("\n");
    entries(f, y + 10);
}

static void line(size_t f, uint64_t pc) {
    fill();
    uint64_t r = lafzimdo_line(chunk, len, limits, f, pc, out);
    if (r) printf(" refused %u", LAFZIMDO_NUMBER(r));
    else printf(" %" PRIu64 ":%" PRIu64, pc, out[0]);
}

static void lines(size_t f) {
    fill();
    if (!answered(lafzimdo_function(chunk, len, limits, f, out), 18)) return;
    uint64_t most = out[10];
    if (most < out[14]) most = out[14];
    if (most < out[15]) most = out[15];
    uint64_t n = most + 2 < 64 ? most + 2 : 64;
    printf("line %zu", f);
    fill();
    uint64_t r = lafzimdo_line(chunk, len, limits, f, 0, out);
    if (r) {
        printf(" refused %u\n", LAFZIMDO_NUMBER(r));
        return;
    }
    for (uint64_t pc = 0; pc < n; pc++) line(f, pc);
    line(f, 4294967296u);
    line(f, 9223372036854775808u);
    line(f, 18446744073709551615u);
    printf("\n");
}

static uint64_t verdict(void) {
    static const char *const words[] = {"valid-for-analysis", "invalid", "incomplete"};
    fill();
    if (!answered(lafzimdo_verdict(chunk, len, limits, out), 1)) return 3;
    uint64_t v = out[0];
    printf("verdict %s\n", words[v]);
    fill();
    if (answered(lafzimdo_finding_count(chunk, len, limits, out), 1)) printf("findings %" PRIu64 "\n", out[0]);
    return v;
}

static void findings(uint64_t v) {
    static const char *const rules[] = {"", "OPCODE-001", "REG-001", "CONST-001", "UPVAL-001", "UPVAL-002", "PROTO-001", "JUMP-001"};
    if (!lends(&findings_call, 40010)) return;
    if (out[0] != v) printf("another verdict\n");
    const uint64_t *y = (const uint64_t *)lent;
    for (uint64_t i = 0; i < out[1]; i++, y += 4)
        printf("finding %" PRIu64 " %" PRIu64 " %s %" PRId64 " %s\n", y[0], y[1], rules[y[2]], (int64_t)y[3], y[2] == 2 ? "warning" : "error");
}

static void copy(void) {
    fill();
    if (!answered(lafzimdo_copy_length(chunk, len, limits, out), 1)) return;
    uint64_t n = out[0];
    if (!lends(&copy_call, n + 64)) return;
    if (out[0] != n) printf("another length\n");
    printf("copy ");
    hex(lent, n);
    printf("\n");
}

static void whole(void) {
    static const char *const names[] = {"", "HEADER-003", "CHUNK-001"};
    uint64_t s[OUT];
    fill();
    if (!answered(lafzimdo_summary(chunk, len, limits, out), LAFZIMDO_SUMMARY_NUMBERS)) return;
    memcpy(s, out, sizeof out);
    printf("header %02" PRIx64 " %02" PRIx64 " %" PRIu64 " %" PRIu64 " %" PRIu64 " %" PRIu64 " 22136 %016" PRIx64 "\n", s[0], s[1], s[2], s[3], s[4], s[5], s[6]);
    printf("warnings %d\n", (s[10] != 0) + (s[12] != 0));
    if (s[10]) printf("warning %s %" PRIu64 "\n", names[s[10]], s[11]);
    if (s[12]) printf("warning %s %" PRIu64 "\n", names[s[12]], s[13]);
    printf("functions %" PRIu64 "\npadded %" PRIu64 "\ntrailing %" PRIu64 " ", s[7], s[14], s[8]);
    if (s[9]) hex(chunk + s[8], s[9]);
    else printf("-");
    printf("\n");
    size_t numbers = s[7] * LAFZIMDO_ROW_NUMBERS;
    if (!lends(&index_call, numbers + 64)) return;
    if (out[0] != s[7]) printf("another number of functions\n");
    uint32_t *rows = malloc(numbers * sizeof *rows);
    memcpy(rows, lent, numbers * sizeof *rows);
    if (by_parts) functions_by_parts(rows, s[7]);
    else
        for (uint64_t f = 0; f < s[7]; f++) function(f, rows + LAFZIMDO_ROW_NUMBERS * f);
    for (uint64_t f = 0; f < s[7]; f++) {
        printf("row");
        for (int i = 0; i < LAFZIMDO_ROW_NUMBERS; i++) printf(" %" PRIu32, rows[LAFZIMDO_ROW_NUMBERS * f + i]);
        printf("\n");
    }
    free(rows);
    copy();
    findings(verdict());
    for (uint64_t f = 0; f < s[7]; f++) lines(f);
}

/* ---- Words */
static void encode(const uint64_t *y, int64_t sbx, int64_t sj) {
    fill();
    uint64_t r = lafzimdo_encode(y[0], y[1], y[2], y[3], y[4], y[5], sbx, y[6], sj, out);
    if (!untouched(out + !r, (OUT - !r) * sizeof *out)) printf("out is touched\n");
    if (r) refusal(r);
    else printf("%08" PRIx64, out[0]);
    printf("\n");
}

static void word(uint32_t w) {
    static const char *const modes[] = {"iABC", "iABx", "iAsBx", "iAx", "isJ", "-"};
    uint64_t y[OUT];
    fill();
    if (!answered(lafzimdo_decode(w, out), 12)) return;
    memcpy(y, out, sizeof out);
    printf("word %08" PRIx32 " op %" PRIu64 " mode %s a %" PRIu64 " k %" PRIu64 " b %" PRIu64 " sb %" PRId64 " c %" PRIu64 " sc %" PRId64, w, y[0], modes[y[1]], y[2], y[3], y[4], (int64_t)y[5], y[6], (int64_t)y[7]);
    printf(" bx %" PRIu64 " sbx %" PRId64 " ax %" PRIu64 " sj %" PRId64 " encode ", y[8], (int64_t)y[9], y[10], (int64_t)y[11]);
    uint64_t fields[] = {y[0], y[2], y[3], y[4], y[6], y[8], y[10]};
    encode(fields, (int64_t)y[9], (int64_t)y[11]);
}

/* ---- Requests */
static int digit(int c) { return c <= '9' ? c - '0' : c - 'a' + 10; }

/* The nine limits and the chunk; the place behind them. */
static char *read_chunk(char *at) {
    for (int i = 0; i < 9; i++) limits[i] = strtoull(at, &at, 10);
    at++;
    len = 0;
    if (*at == '-') return at + 1;
    for (; at[0] >= '0' && at[1] >= '0'; at += 2) chunk[len++] = (uint8_t)(digit(at[0]) * 16 + digit(at[1]));
    return at;
}

static void ask_lines(char *at) {
    at = read_chunk(at);
    size_t f = strtoull(at, &at, 10);
    fill();
    if (!answered(lafzimdo_line(chunk, len, limits, f, 0, out), 1)) return;
    printf("line %zu", f);
    while (*at == ' ') line(f, strtoull(at, &at, 10));
    printf("\n");
}

static void ask_encode(char *at) {
    uint64_t y[7];
    for (int i = 0; i < 6; i++) y[i] = strtoull(at, &at, 10);
    int64_t sbx = strtoll(at, &at, 10);
    y[6] = strtoull(at, &at, 10);
    printf("enc ");
    encode(y, sbx, strtoll(at, &at, 10));
}

int main(int argc, char **argv) {
    static char request[1 << 21];
    by_parts = argc > 1 && !strcmp(argv[1], "parts");
    while (fgets(request, sizeof request, stdin)) {
        char *behind = strchr(request, ' ');
        if (!behind || *request == '#') continue;
        if (!strncmp(request, "word ", 5)) word((uint32_t)strtoul(behind, 0, 16));
        else if (!strncmp(request, "enc ", 4)) ask_encode(behind);
        else if (!strncmp(request, "lines ", 6)) ask_lines(behind);
        else if (!strncmp(request, "verdict ", 8)) { read_chunk(behind); verdict(); }
        else { read_chunk(request); whole(); }
        printf("end\n");
    }
    return 0;
}
