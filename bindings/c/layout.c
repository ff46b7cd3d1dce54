/* Prints the sizes of the header's structs and where each field stands, for the test that compares other bindings with it. */
#include <stdio.h>

#include "phieulakhon.h"

#define ROW(type, field) printf(".%s %zu\n", #field, offsetof(struct phieulakhon_##type, field))

int main(void) {
    printf("%zu %zu %zu %zu\n", sizeof(struct phieulakhon_params), sizeof(struct phieulakhon_answer), sizeof(struct phieulakhon_span),
           sizeof(struct phieulakhon_reader));
    ROW(params, n);
    ROW(params, b);
    ROW(params, k);
    ROW(params, q);
    ROW(answer, number);
    ROW(answer, place);
    ROW(span, number);
    ROW(span, place);
    ROW(span, start);
    ROW(span, length);
    ROW(reader, u8s);
    ROW(reader, u32s);
    ROW(reader, sizes);
    ROW(reader, item);
    ROW(reader, node);
    ROW(reader, transcript);
    ROW(reader, roots);
    ROW(reader, challenges);
    ROW(reader, coefficients);
    return 0;
}
