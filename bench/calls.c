// The two calls in the form that driver.c and compare/drive.c make them, over the static library's C functions.
#include "cjarvint.h"
typedef struct { uint32_t *p; uint64_t n; } Slice;
typedef struct { uint8_t tag; uint32_t number; uint64_t place; } Answer;
static void tell(Answer *out, cjarvint_answer a) {
    out->tag = a.number != 0;
    out->number = a.number;
    out->place = a.place;
}
void reader_read(Answer *out, Slice *kinds, Slice *texts, Slice *nodes) {
    tell(out, cjarvint_read(kinds->p, kinds->n, texts->p, texts->n, nodes->p, nodes->n));
}
void writer_write(Answer *out, Slice *kinds, Slice *texts, Slice *nodes, Slice *out_kinds, Slice *out_texts) {
    tell(out, cjarvint_write(kinds->p, kinds->n, texts->p, texts->n, nodes->p, nodes->n, out_kinds->p, out_kinds->n, out_texts->p, out_texts->n));
}
