/* Answers requests on chunks by the lent list of findings: verdict, number of findings, findings, or the refusal, in the text of docs/PROTOCOL.md. Each chunk is asked four times: with a list
   that is longer than any, with one that is exactly long enough, with three numbers more, and with one too short by a number. What is lent is filled before; where a call touches what it should not,
   or the four disagree, a line says so. With the argument `time` it times one large chunk instead. Built by compare.py over the static library. */
#include <stdio.h>
#include <stdlib.h>
#include <string.h>
#include <time.h>

#include "../../include/lafzimdo.h"

#define BEFORE 0xa5a5a5a5a5a5a5a5u
#define LONGEST (4 * 10001 + 8)

static const char *verdicts[] = {"valid-for-analysis", "invalid", "incomplete"};
static const char *rules[] = {"", "OPCODE-001", "REG-001", "CONST-001", "UPVAL-001", "UPVAL-002", "PROTO-001", "JUMP-001"};
static char line[1 << 21];
static uint8_t bytes[1 << 20];
static uint64_t list[LONGEST], again[LONGEST], out[2];

/* of a long list some records: the first, the last and every thousandth */
static int shown(size_t k, size_t n) { return n <= 200 || k == 0 || k + 1 == n || k % 1000 == 0; }

/* The call on a list of `room` numbers: of a refusal all must be as it was, else all behind the findings. */
static uint64_t ask(const uint64_t *limits, const uint8_t *chunk, size_t len, uint64_t *to, size_t room) {
    for (size_t i = 0; i < LONGEST; i++) to[i] = BEFORE;
    out[0] = out[1] = BEFORE;
    uint64_t r = lafzimdo_findings(chunk, len, limits, to, room, out);
    size_t written = r ? 0 : 4 * out[1];
    for (size_t i = written; i < LONGEST; i++)
        if (to[i] != BEFORE) printf("touched %zu of the list\n", i);
    if (r && (out[0] != BEFORE || out[1] != BEFORE)) printf("touched the answer\n");
    return r;
}

static void refusal(uint64_t r) {
    printf("refused %u ", LAFZIMDO_NUMBER(r));
    if (LAFZIMDO_HAS_PLACE(r)) printf("%llu\n", (unsigned long long)LAFZIMDO_PLACE(r));
    else printf("-\n");
}

static void answer(const uint64_t *limits, const uint8_t *chunk, size_t len) {
    uint64_t r = ask(limits, chunk, len, list, LONGEST);
    if (r) { refusal(r); return; }
    uint64_t verdict = out[0], n = out[1];
    printf("verdict %s\nfindings %llu\n", verdicts[verdict], (unsigned long long)n);
    for (size_t k = 0; k < n; k++) {
        if (!shown(k, n)) continue;
        const uint64_t *f = list + 4 * k;
        printf("finding %llu %llu %s %lld %s\n", (unsigned long long)f[0], (unsigned long long)f[1], rules[f[2]], (long long)f[3], f[2] == 2 ? "warning" : "error");
    }
    for (size_t room = 4 * n; room <= 4 * n + 3; room += 3)
        if (ask(limits, chunk, len, again, room) || out[0] != verdict || out[1] != n || memcmp(list, again, sizeof list)) printf("another answer with %zu numbers\n", room);
    if (n && ask(limits, chunk, len, again, 4 * n - 1) != 26) printf("no refusal with %llu numbers\n", (unsigned long long)(4 * n - 1));
}

static double now(void) {
    struct timespec t;
    clock_gettime(CLOCK_MONOTONIC, &t);
    return t.tv_sec * 1e3 + t.tv_nsec / 1e6;
}

static size_t number(uint8_t *to, uint64_t v) {
    uint8_t g[10];
    size_t k = 0, n = 0;
    do { g[k++] = v & 127; v >>= 7; } while (v);
    g[0] |= 128;
    while (k) to[n++] = g[--k];
    return n;
}

/* main with `nested` functions, each with one wrong instruction (a word without an opcode; the 10,000th breaks two rules) and `pad` bytes of deltas */
static size_t build(uint8_t *to, size_t nested, size_t pad) {
    static const uint8_t head[32] = {0x1b, 'L', 'u', 'a', 0x54, 0, 0x19, 0x93, 13, 10, 26, 10, 4, 8, 8, 0x78, 0x56, 0, 0, 0, 0, 0, 0, 0, 0, 0, 0, 0, 0x28, 0x77, 0x40, 0};
    memcpy(to, head, 32);
    size_t n = 32;
    for (size_t i = 0; i <= nested; i++) {
        memcpy(to + n, "\x80\x80\x80\0\0\2", 6);
        n += 6;
        n += number(to + n, i != 0);
        if (i) { memcpy(to + n, i == 10000 ? "\x83\x7f\0\0" : "\x7f\0\0\0", 4); n += 4; }
        to[n++] = 0x80; to[n++] = 0x80;
        n += number(to + n, i ? 0 : nested);
        if (i) { n += number(to + n, pad); memset(to + n, 0, pad); n += pad; memcpy(to + n, "\x80\x80\x80", 3); n += 3; }
    }
    memcpy(to + n, "\x80\x80\x80\x80", 4);
    return n + 4;
}

static void timing(void) {
    uint64_t top[9] = LAFZIMDO_CEILINGS;
    uint8_t *big = malloc(20 << 20);
    size_t len = build(big, 10001, 1650);
    for (int i = 0; i < 3; i++) {
        uint64_t v[1];
        double a = now();
        uint64_t r = lafzimdo_verdict(big, len, top, v);
        double b = now();
        uint64_t f = lafzimdo_findings(big, len, top, list, LONGEST, out);
        double c = now();
        if (r || f) { printf("refused\n"); return; }
        printf("%zu bytes, 10,001 functions: verdict %s %.2f ms, with the list (%llu findings) %.2f ms\n", len, verdicts[v[0]], b - a, (unsigned long long)out[1], c - b);
    }
}

int main(int argc, char **argv) {
    if (argc > 1) { timing(); return 0; }
    while (fgets(line, sizeof line, stdin)) {
        uint64_t limits[9];
        char *p = line;
        if (*p < '0' || *p > '9') continue;
        for (int i = 0; i < 9; i++) limits[i] = strtoull(p, &p, 10);
        while (*p == ' ') p++;
        size_t len = 0;
        if (*p != '-') for (; p[0] > ' '; p += 2) { unsigned b; sscanf(p, "%2x", &b); bytes[len++] = b; }
        answer(limits, bytes, len);
        puts("end");
    }
    return 0;
}
