// The stack that the two C functions take: firmware LISTS, lines of routes.py. Painted before each call; the return address counts, arguments don't.
#include <stdio.h>
#include <stdlib.h>
#include <string.h>
#include "cjarvint.h"
#define STACK (1 << 18)
#define NODES CJARVINT_TABLE(CJARVINT_TOKENS)
#define OUT 8192
static uint32_t kinds[8192], texts[8192], nodes[NODES], out_kinds[OUT], out_texts[OUT];
static char label[256], area[STACK] __attribute__((aligned(64)));
static int parse(FILE *f, uint64_t *n) {
    static char line[1 << 20]; if (!fgets(line, sizeof line, f)) return 0;
    char *s = line, *bar = strchr(line, '|'); *n = 0; label[0] = 0;
    if (bar) { *bar = 0; strncpy(label, line, 255); s = bar + 1; }
    for (;;) { while (*s == ' ' || *s == '\n') s++; if (!*s) return 1;
        kinds[*n] = strtoul(s, &s, 10); texts[*n] = 0; if (*s == '.') texts[*n] = strtoul(s + 1, &s, 10); (*n)++; }
}
static long painted(int write, uint64_t n, uint32_t *number) {
    memset(area, 0xA5, STACK);
    uint64_t *top = (uint64_t *)(area + STACK); void *f = (void *)cjarvint_read;
    if (write) { f = (void *)cjarvint_write; top -= 4; top[0] = (uint64_t)out_kinds; top[1] = OUT; top[2] = (uint64_t)out_texts; top[3] = OUT; }
    register uint64_t rdi __asm__("rdi") = (uint64_t)kinds, rsi __asm__("rsi") = n, rdx __asm__("rdx") = (uint64_t)texts, rcx __asm__("rcx") = n, r8 __asm__("r8") = (uint64_t)nodes, r9 __asm__("r9") = NODES;
    uint64_t rax;
    __asm__ volatile("movq %%rsp, %%rbx; movq %[top], %%rsp; callq *%[f]; movq %%rbx, %%rsp"
        : "=a"(rax), "+r"(rdi), "+r"(rsi), "+r"(rdx), "+r"(rcx), "+r"(r8), "+r"(r9) : [top] "r"(top), [f] "r"(f)
        : "rbx", "r10", "r11", "memory", "cc", "xmm0", "xmm1", "xmm2", "xmm3", "xmm4", "xmm5", "xmm6", "xmm7");
    *number = (uint32_t)rax; long i = 0; while ((unsigned char)area[i] == 0xA5) i++; return (char *)top - area - i;
}
int main(int argc, char **argv) {
    FILE *f = argc > 1 ? fopen(argv[1], "r") : NULL; if (!f) return 2;
    long worst[2] = {0, 0}, lists = 0, accepted = 0; char name[2][256] = {"", ""}; uint64_t n; uint32_t number;
    for (; parse(f, &n); lists++) for (int w = 0; w < 2; w++) {
        long b = painted(w, n, &number); if (w) accepted += number == 0;
        if (b > worst[w]) { worst[w] = b; strcpy(name[w], label); } }
    printf("%ld lists, %ld written\ncjarvint_read  %ld bytes: %s\ncjarvint_write %ld bytes: %s\n", lists, accepted, worst[0], name[0], worst[1], name[1]);
    return 0;
}
