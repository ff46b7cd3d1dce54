/* Writes the proof of the polynomial with coefficients 1, 2, 3, ... for the parameters of the command line and a context of zeros, judges it, and
 * prints the job for the program `verify`:
 *
 *     target/write_c 4 2 1 2 | crates/verify/out/verify
 *
 * Build, after `rt lib` in crates/exports, from the repository's folder:
 *
 *     cc -O2 -Wall -Wextra -Werror bindings/c/write.c crates/exports/out/libexports.a -o target/write_c
 */
#include <stdio.h>
#include <stdlib.h>

#include "phieulakhon.h"

static int refused(struct phieulakhon_answer answer) {
    fprintf(stderr, "refused %u at %u: %s\n", (unsigned)answer.number, (unsigned)answer.place, phieulakhon_message(answer.number));
    return 1;
}

int main(int argc, char **argv) {
    uint8_t head[36] = {0}; /* the parameters, then the context */
    if (argc != 5) {
        fprintf(stderr, "usage: %s N B K Q\n", argv[0]);
        return 2;
    }
    for (int i = 0; i < 4; i++) {
        unsigned long number = strtoul(argv[i + 1], NULL, 10);
        head[i] = number < 256 ? (uint8_t)number : 0; /* no parameter may be 0 */
    }
    struct phieulakhon_params p = {head[0], head[1], head[2], head[3]};
    const uint8_t *context = head + 4;

    size_t length = phieulakhon_file_length(p);
    if (length == 0)
        return refused((struct phieulakhon_answer){PHIEULAKHON_PARAMETERS_NOT_VALID, 0});
    size_t points = (size_t)1 << p.n, count = points >> p.b;
    uint32_t *coefficients = malloc(count * sizeof *coefficients), *numbers = malloc(2 * points * sizeof *numbers);
    uint8_t *bytes = malloc(64 * points), *proof = malloc(length);
    if (!coefficients || !numbers || !bytes || !proof) {
        perror("memory");
        return 2;
    }
    for (size_t i = 0; i < count; i++)
        coefficients[i] = (uint32_t)i + 1;

    struct phieulakhon_answer answer = phieulakhon_write(p, context, coefficients, count, numbers, 2 * points, bytes, 64 * points, proof, length);
    if (answer.number == PHIEULAKHON_WRITTEN)
        answer = phieulakhon_verdict(p, context, proof, length);
    if (!phieulakhon_is_accepted(answer))
        return refused(answer);
    if (fwrite(head, 1, sizeof head, stdout) < sizeof head || fwrite(proof, 1, length, stdout) < length || fflush(stdout) != 0) {
        perror("standard output");
        return 2;
    }
    return 0; /* the end of the program gives the memory back */
}
