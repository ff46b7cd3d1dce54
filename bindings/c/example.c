/* Judges a job from standard input, in chunks, and prints the line that the program `verify` prints.
 *
 * Build, after `rt lib` in crates/exports, from the repository's folder:
 *
 *     cc -O2 -Wall -Wextra -Werror bindings/c/example.c crates/exports/out/libexports.a -o target/example_c
 */
#include <stdio.h>

#include "phieulakhon.h"

enum { HEAD = 36, JOB_TOO_SHORT = 12 };

static struct phieulakhon_answer judge(FILE *in) {
    uint8_t head[HEAD], chunk[4096];
    size_t got = fread(head, 1, HEAD, in);
    if (got < HEAD)
        return (struct phieulakhon_answer){JOB_TOO_SHORT, (uint32_t)got};
    struct phieulakhon_params p = {head[0], head[1], head[2], head[3]};

    struct phieulakhon_reader reader;
    struct phieulakhon_answer answer = phieulakhon_reader_open(&reader, p, head + 4);
    if (answer.number != PHIEULAKHON_OPEN)
        return answer;
    while (answer.number == PHIEULAKHON_OPEN && (got = fread(chunk, 1, sizeof chunk, in)) > 0)
        answer = phieulakhon_reader_feed(&reader, chunk, got);
    return phieulakhon_reader_end(&reader);
}

int main(void) {
    struct phieulakhon_answer answer = judge(stdin);
    if (ferror(stdin)) { /* the bytes that came are judged, but they may not be the whole file */
        perror("standard input");
        return 2;
    }
    if (phieulakhon_is_accepted(answer))
        printf("accepted %u\n", (unsigned)answer.place);
    else
        printf("refused %u at %u\n", (unsigned)answer.number, (unsigned)answer.place);
    return 0;
}
