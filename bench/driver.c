// Drives the compiled reader and writer: vectors FILE | stack FILE [w] | bench FILE ROUNDS [w]; with w it is `write` that is called.
// Vectors have commands and calls; of a call every lent number is looked at, of the lists that it may not change too, and the guards around each list.
#include <stdio.h>
#include <stdlib.h>
#include <string.h>
#include <stdint.h>
#include <time.h>
typedef uint32_t u32; typedef uint64_t u64;
typedef struct { u32 *p; u64 n; } Slice;
typedef struct { uint8_t tag; u32 number; u64 place; } Answer;
void reader_read(Answer *out, Slice *kinds, Slice *texts, Slice *nodes);
void writer_write(Answer *out, Slice *kinds, Slice *texts, Slice *nodes, Slice *out_kinds, Slice *out_texts);
static u32 wk[16384], wt[16384]; static int writes;
static u32 kinds[8192], texts[8192]; static u32 nodes[200000], before[200000];
static Answer run(u64 nk, u64 nt, u64 nn) {
    Slice k = {kinds, nk}, t = {texts, nt}, n = {nodes, nn}; Answer a; memset(&a, 0, sizeof a);
    reader_read(&a, &k, &t, &n); return a;
}
static u64 number(Answer a) { return a.tag ? a.number : 0; }
static char label[256];
static int parse(FILE *f, u64 *n) { // one line
    static char line[1 << 20]; if (!fgets(line, sizeof line, f)) return 0;
    *n = 0; char *s = line; label[0] = 0; char *bar = strchr(line, '|'); if (bar) { *bar = 0; strncpy(label, line, 255); s = bar + 1; }
    for (;;) { while (*s == ' ' || *s == '\n') s++; if (!*s) break;
        kinds[*n] = strtoul(s, &s, 10); texts[*n] = 0; if (*s == '.') texts[*n] = strtoul(s + 1, &s, 10); (*n)++; }
    return 1;
}
enum { MOST = 131072, GUARD = 1024, READ = 0xfffffffe, WRITE = 0xfffffffd };
static u32 lent[5][MOST + 2 * GUARD], wanted[5][MOST + 2 * GUARD];
static int list(FILE *f, u32 *p, u32 *n) { return fread(n, 4, 1, f) == 1 && *n <= MOST && fread(p, 4, *n, f) == *n; }
static int call(FILE *f, int lists, Answer *a, u32 *e, u64 *tokens) { // 0 right, 1 another answer, 2 to 6 another number in a list, -1 no vector
    Slice s[5]; u32 n; memset(a, 0, sizeof *a);
    for (int l = 0; l < lists; l++) {
        if (!list(f, lent[l] + GUARD, &n)) return -1; s[l] = (Slice){lent[l] + GUARD, n};
        for (u32 i = 0; i < GUARD; i++) { lent[l][i] = 0xABC00000u + i; lent[l][GUARD + n + i] = 0xABD00000u + i; }
        memcpy(wanted[l], lent[l], (n + 2 * GUARD) * 4);
    }
    *tokens = s[0].n; if (fread(e, 4, 2, f) != 2) return -1;
    for (int l = 2; l < lists; l++) if (!list(f, wanted[l] + GUARD, &n) || n > s[l].n) return -1; // the rest is as found
    if (lists == 3) reader_read(a, s, s + 1, s + 2); else writer_write(a, s, s + 1, s + 2, s + 3, s + 4);
    if (number(*a) != e[0] || a->place != e[1]) return 1;
    for (int l = 0; l < lists; l++) if (memcmp(lent[l], wanted[l], (s[l].p - lent[l] + s[l].n + GUARD) * 4)) return 2 + l;
    return 0;
}
#define STACK (1 << 18)
static char area[STACK] __attribute__((aligned(64)));
static long painted(u64 nt, u64 nn, Answer *a) {
    Slice k = {kinds, nt}, t = {texts, nt}, n = {nodes, nn}, x = {wk, 16384}, y = {wt, 16384}; Answer out; memset(&out, 0, sizeof out);
    memset(area, 0xA5, STACK);
    register Answer *rdi __asm__("rdi") = &out; register Slice *rsi __asm__("rsi") = &k, *rdx __asm__("rdx") = &t, *rcx __asm__("rcx") = &n, *r8 __asm__("r8") = &x, *r9 __asm__("r9") = &y;
    void *call = writes ? (void *)&writer_write : (void *)&reader_read;
    char *top = area + STACK;
    __asm__ volatile("movq %%rsp, %%rbx; movq %[top], %%rsp; callq *%[f]; movq %%rbx, %%rsp"
        : "+r"(rdi), "+r"(rsi), "+r"(rdx), "+r"(rcx), "+r"(r8), "+r"(r9) : [top] "r"(top), [f] "r"(call)
        : "rbx", "rax", "r10", "r11", "memory", "cc", "xmm0", "xmm1", "xmm2", "xmm3", "xmm4", "xmm5", "xmm6", "xmm7");
    *a = out; long i = 0; while (i < STACK && (uint8_t)area[i] == 0xA5) i++; return STACK - i;
}
int main(int argc, char **argv) {
    FILE *f = fopen(argv[2], "rb"); if (!f) return 2;
    writes = argv[argc - 1][0] == 'w' && !argv[argc - 1][1];
    if (!strcmp(argv[1], "vectors")) {
        u32 x; long bad = 0, all = 0;
        while (fread(&x, 4, 1, f) == 1) {
            u32 nk, nt, e[3]; u32 table = x; static u32 rec[200000];
            if (x == READ || x == WRITE) { Answer a; u64 n; int wrong = call(f, x == READ ? 3 : 5, &a, e, &n); all++;
                if (wrong < 0) return 2;
                if (wrong && bad++ < 10) { printf("case %ld, %s, wrong %d: %lu %lu for %u %u:", all, x == READ ? "read" : "write", wrong, number(a), a.place, e[0], e[1]);
                    for (u64 i = 0; i < n && i < 60; i++) printf(" %u", lent[0][GUARD + i]); printf("\n"); }
                continue; }
            if (!fread(&nk, 4, 1, f)) return 2; if (nk && fread(kinds, 4, nk, f) != nk) return 2;
            if (!fread(&nt, 4, 1, f)) return 2; if (nt && fread(texts, 4, nt, f) != nt) return 2;
            if (fread(e, 4, 3, f) != 3) return 2; if (e[2] && fread(rec, 4, e[2], f) != e[2]) return 2;
            for (int round = 0; round < (table == 0xffffffff ? 2 : 1); round++) {
            // as large as needed; then exactly as large as needed
            u64 nn = table == 0xffffffff ? (round ? e[2] : 80000) : table;
            if (round && e[0]) continue;
            for (u64 i = 0; i < 80000 + 16; i++) nodes[i] = before[i] = 0xABC00000u + i;
            Answer a = run(nk, nt, nn); all++;
            u64 written = number(a) == 0 ? a.place * 4 : 0; int wrong = 0;
            if (number(a) != e[0] || a.place != e[1]) wrong = 1;
            if (table == 0xffffffff && e[0] == 0 && !wrong && memcmp(nodes, rec, e[2] * 4)) wrong = 2;
            if (!wrong && memcmp(nodes + written, before + written, (80000 + 16 - written) * 4)) wrong = 3;
            if (wrong) { if (bad++ < 10) { printf("case %ld wrong %d: %lu %lu for %u %u:", all, wrong, number(a), a.place, e[0], e[1]);
                for (u32 i = 0; i < nk && i < 60; i++) printf(" %u", kinds[i]); printf("\n"); } }
            }
        }
        printf("%ld runs, %ld wrong\n", all, bad); return bad != 0;
    }
    if (!strcmp(argv[1], "stack")) {
        u64 n; long worst = 0; char name[256] = ""; int quiet = argc > 3 && !writes;
        while (parse(f, &n)) { Answer a; long b = painted(n, 80000, &a); if (!quiet) printf("%6ld bytes  %5lu tokens, %lu at %lu  %s\n", b, n, number(a), a.place, label); if (b > worst) { worst = b; strcpy(name, label); } }
        printf("worst %ld: %s\n", worst, name); return 0;
    }
    if (!strcmp(argv[1], "bench")) {
        u64 n, tokens = 0; static u32 *ks[4096], *ts[4096]; static u64 ns[4096]; int c = 0;
        while (parse(f, &n)) { if (!n) continue; ks[c] = malloc(n * 4); ts[c] = malloc(n * 4); memcpy(ks[c], kinds, n * 4); memcpy(ts[c], texts, n * 4); ns[c++] = n; tokens += n; }
        int rounds = atoi(argv[3]); u64 ok = 0; struct timespec from, to; clock_gettime(CLOCK_MONOTONIC, &from);
        for (int r = 0; r < rounds; r++) for (int i = 0; i < c; i++) { Slice k = {ks[i], ns[i]}, t = {ts[i], ns[i]}, o = {nodes, 80000}, x = {wk, 16384}, y = {wt, 16384}; Answer a;
            if (writes) writer_write(&a, &k, &t, &o, &x, &y); else reader_read(&a, &k, &t, &o);
            ok += a.tag == 0; }
        clock_gettime(CLOCK_MONOTONIC, &to); double spent = (to.tv_sec - from.tv_sec) * 1e9 + (to.tv_nsec - from.tv_nsec);
        printf("bench: %d commands, %lu tokens, %lu accepted, %.1f ns a token\n", c, tokens, ok, spent / rounds / tokens); return 0;
    }
    return 2;
}
