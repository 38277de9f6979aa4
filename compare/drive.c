// Our side of the comparison: a command a line in, as for the crate's program; out `number place`, or `0 count : records`.
// The reader is linked in as rt compiles it (bench/build.sh makes the object).
#include <stdint.h>
#include <stdio.h>
#include <stdlib.h>
#include <string.h>
typedef uint32_t u32; typedef uint64_t u64;
typedef struct { u32 *p; u64 n; } Slice;
typedef struct { uint8_t tag; u32 number; u64 place; } Answer;
void reader_read(Answer *out, Slice *kinds, Slice *texts, Slice *nodes);
enum { TOKENS = 8192, TABLE = 65536 }; // TABLE: more than 4,096 tokens can need
static u32 kinds[TOKENS], texts[TOKENS], nodes[TABLE];
static char line[1 << 17], out[1 << 21];
static char *put(char *o, u32 n) { // by hand: most of the time goes into writing numbers
    char d[10]; int k = 0; do d[k++] = '0' + n % 10; while (n /= 10);
    while (k) *o++ = d[--k];
    return o;
}
int main(void) {
    while (fgets(line, sizeof line, stdin)) {
        u64 n = 0; char *s = line;
        for (;;) {
            while (*s == ' ' || *s == '\n') s++;
            if (!*s) break;
            if (n == TOKENS) { fprintf(stderr, "drive: more than %d tokens\n", TOKENS); return 2; }
            kinds[n] = strtoul(s, &s, 10); texts[n] = 0;
            if (*s == '.') texts[n] = strtoul(s + 1, &s, 10);
            n++;
        }
        Slice k = {kinds, n}, t = {texts, n}, r = {nodes, TABLE}; Answer a; memset(&a, 0, sizeof a);
        reader_read(&a, &k, &t, &r);
        char *o = put(out, a.tag ? a.number : 0); *o++ = ' '; o = put(o, a.place);
        if (!a.tag) {
            *o++ = ' '; *o++ = ':';
            for (u64 i = 0; i < a.place * 4; i++) { *o++ = i % 4 ? ',' : ' '; o = put(o, nodes[i]); }
        }
        *o++ = '\n'; fwrite(out, 1, o - out, stdout);
    }
    return 0;
}
