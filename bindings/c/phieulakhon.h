/* Phieulakhon: the verified reader and writer of FRI proofs, for C and C++ on x86-64 Linux.
 *
 * A proof is judged by three calls, as its bytes arrive:
 *
 *     struct phieulakhon_reader reader;
 *     phieulakhon_reader_open(&reader, params, context)      once, with parameters and context of your own records
 *     phieulakhon_reader_feed(&reader, bytes, length)        for each piece, as often as there are pieces
 *     phieulakhon_reader_end(&reader)                        once: the verdict
 *
 * and what must not happen without a proof asks phieulakhon_is_accepted of the last one's answer. No other test will do: 0 is no verdict.
 *
 * `./install PREFIX` installs this header and libphieulakhon.a, and a file for pkg-config. In the repository the library is
 * crates/exports/out/libexports.a, which `rt lib` proves and writes there. example.c shows how to judge a file, write.c how to write one.
 *
 * Every call returns for all arguments, and keeps nothing: there is no heap and no global, so calls from several threads need no lock. A call takes
 * less than 8 KiB of stack. docs/FORMAT.md has the file's layout and the table of the answers.
 *
 * Duties of the caller, which no proof can cover:
 * - parameters and context are the caller's own, never taken from where the proof comes from: they are what the proof is judged for;
 * - a context is 32 bytes that can be read, and a pointer with a length or a count beside it points at as many bytes or numbers as that says;
 * - nobody writes what is read before the call returns: another thread, or, where it is a mapped file, whoever may write to that file or cut it;
 * - where a length is 0 nothing is read or written; pass a pointer that is not null there too, as the type of the proved call asks;
 * - a reader, and each buffer that the writer is lent, is memory that can be written, that no other thread touches during a call, and that overlaps
 *   neither what is read nor another of them;
 * - a reader was opened, and nobody but the calls of this header writes it. One of zeros is closed. A call on any other, one of random bytes too, is
 *   safe and answers with a number that the table has for it, but the answer says nothing about any file.
 */
#ifndef PHIEULAKHON_H
#define PHIEULAKHON_H

#include <stddef.h>
#include <stdint.h>

#if !defined(__x86_64__) || defined(__ILP32__) || !defined(__linux__)
#error "phieulakhon: the proved library is compiled for x86-64 Linux, and there is none for this platform"
#endif

/* The version of this header, and the number of the file format: 1, and one more for each change of what a file's bytes are or mean. CHANGELOG.md says
 * what each changed. */
#define PHIEULAKHON_VERSION "0.1.0"
#define PHIEULAKHON_FORMAT 2

/* An answer that nobody looks at is a mistake, and compilers that can say so do. */
#if defined(__GNUC__)
#define PHIEULAKHON_MUST_USE __attribute__((warn_unused_result))
#else
#define PHIEULAKHON_MUST_USE
#endif

#ifdef __cplusplus
extern "C" {
#endif

/* The numbers that these calls answer with. The earliest byte of a file that is wrong decides. */
enum phieulakhon_number {
    PHIEULAKHON_OPEN = 0,                     /* no fault so far, and no verdict; never by the end call */
    PHIEULAKHON_WRITTEN = 0,                  /* by the writer: the proof is in the output */
    PHIEULAKHON_ACCEPTED = 1,                 /* only by the end call and the verdict: the file is a proof that holds */
    PHIEULAKHON_PARAMETERS_NOT_VALID = 10,    /* at opening, and by the writer */
    PHIEULAKHON_CLOSED = 11,                  /* a call after the end call, or after 10, or on a reader of zeros */
    PHIEULAKHON_NO_SUCH_OPENING = 16,         /* only by the look-up */
    PHIEULAKHON_COUNT_DIFFERS = 20,           /* a section's count */
    PHIEULAKHON_PARAMETERS_DIFFER = 21,       /* section 1 is not the caller's parameters */
    PHIEULAKHON_NOT_BELOW_MODULUS = 22,       /* a number that is no field element; by the writer, a coefficient */
    PHIEULAKHON_PATH_MISSES_ROOT = 23,        /* a Merkle path */
    PHIEULAKHON_NOT_THE_FOLDED_VALUE = 24,    /* an opened value that is not the fold of the layer before */
    PHIEULAKHON_MISSES_FINAL_POLYNOMIAL = 25, /* a query's last fold */
    PHIEULAKHON_TOO_FEW_BYTES = 26,           /* at the end call */
    PHIEULAKHON_BYTE_AFTER_THE_END = 27,
    PHIEULAKHON_WRONG_COEFFICIENT_COUNT = 30, /* only by the writer, as 31 and 32 */
    PHIEULAKHON_SCRATCH_TOO_SHORT = 31,
    PHIEULAKHON_OUTPUT_TOO_SHORT = 32
};

/* An answer: a number of the table, and the place that decides it: the count of the file's bytes up to and including the deciding one. An open
 * reader's place is the count of bytes so far, an accepted or written file's is its length, and a writer's refusal has place 0. A proof is accepted
 * exactly if the number is 1. */
struct phieulakhon_answer {
    uint8_t number;
    uint32_t place;
};

/* The parameters, as the first four bytes of a job have them: 2^n points, blowup 2^b, k folds, q queries. */
struct phieulakhon_params {
    uint8_t n, b, k, q;
};

/* The numbers of one byte that a reader holds: six, and the parameter bytes. */
enum { PHIEULAKHON_U8S = 6 + sizeof(struct phieulakhon_params) };

/* A reader, about 1 KiB of plain numbers that the caller keeps wherever it likes. Its fields are for the calls only. A reader of zeros, which was never
 * opened, is closed: it answers 11 at 0 to every call. */
struct phieulakhon_reader {
    uint8_t u8s[PHIEULAKHON_U8S];
    uint32_t u32s[10];
    size_t sizes[2];
    uint8_t item[32], node[32], transcript[32], roots[512];
    uint32_t challenges[16], coefficients[64];
};

/* Where a look-up found an opening: its answer, and the part of the proof. */
struct phieulakhon_span {
    uint8_t number;
    uint32_t place;
    size_t start, length;
};

/* Opens a reader, whatever was in its memory: 0 at 0, or 10 at 0 where the parameters are not valid, and then the reader is closed. */
PHIEULAKHON_MUST_USE static inline struct phieulakhon_answer phieulakhon_reader_open(struct phieulakhon_reader *r, struct phieulakhon_params p,
                                                                                     const uint8_t context[32]);

/* Feeds the next bytes of the file, as many as there are at hand: 0 at the bytes so far, or the refusal. A refused reader stays refused, with the
 * same answer to every later piece and to the end call, so that a caller may stop at the first number other than 0, or not look until the end. */
static inline struct phieulakhon_answer phieulakhon_reader_feed(struct phieulakhon_reader *r, const uint8_t *bytes, size_t length);

/* Ends the file: 1 at its length, or the refusal. It leaves the closed reader, which answers 11 at 0 to every call. Do not end a file that could not
 * be read to its end: the bytes that came may be a whole proof, and more were to come. */
PHIEULAKHON_MUST_USE static inline struct phieulakhon_answer phieulakhon_reader_end(struct phieulakhon_reader *r);

/* Whether an answer, of the end call or of the verdict, is that the file is a proof that holds: 1 or 0. */
PHIEULAKHON_MUST_USE static inline int phieulakhon_is_accepted(struct phieulakhon_answer answer) {
    return answer.number == PHIEULAKHON_ACCEPTED;
}

/* What a number says, in words, without a newline; never null. 12 is the answer of programs to a job that is shorter than its head. */
static inline const char *phieulakhon_message(uint8_t number) {
    switch (number) {
    case PHIEULAKHON_OPEN:
        return "no fault so far, and no verdict";
    case PHIEULAKHON_ACCEPTED:
        return "accepted";
    case PHIEULAKHON_PARAMETERS_NOT_VALID:
        return "the parameters are not valid";
    case PHIEULAKHON_CLOSED:
        return "the reader is closed";
    case 12:
        return "the job is shorter than its head";
    case PHIEULAKHON_NO_SUCH_OPENING:
        return "a file of this length has no such opening";
    case PHIEULAKHON_COUNT_DIFFERS:
        return "a section's count is not the one that the parameters call for";
    case PHIEULAKHON_PARAMETERS_DIFFER:
        return "the file was made for other parameters";
    case PHIEULAKHON_NOT_BELOW_MODULUS:
        return "a number is not below 3221225473";
    case PHIEULAKHON_PATH_MISSES_ROOT:
        return "a Merkle path does not end at its layer's root";
    case PHIEULAKHON_NOT_THE_FOLDED_VALUE:
        return "an opened value is not the one folded from the layer before";
    case PHIEULAKHON_MISSES_FINAL_POLYNOMIAL:
        return "the last folded value is not the final polynomial's";
    case PHIEULAKHON_TOO_FEW_BYTES:
        return "the file ends too soon";
    case PHIEULAKHON_BYTE_AFTER_THE_END:
        return "the file has a byte too many";
    case PHIEULAKHON_WRONG_COEFFICIENT_COUNT:
        return "there are not exactly 2^(n-b) coefficients";
    case PHIEULAKHON_SCRATCH_TOO_SHORT:
        return "the scratch is too short";
    case PHIEULAKHON_OUTPUT_TOO_SHORT:
        return "the output is too short";
    default:
        return "not a number of the table";
    }
}

/* The verdict on a whole proof: 1 at its length, or the refusal. */
PHIEULAKHON_MUST_USE struct phieulakhon_answer phieulakhon_verdict(struct phieulakhon_params p, const uint8_t context[32], const uint8_t *proof,
                                                                   size_t length);

/* The length of every file that can be accepted, or is written, with these parameters; 0 where they are not valid. */
PHIEULAKHON_MUST_USE size_t phieulakhon_file_length(struct phieulakhon_params p);

/* Writes the proof of the polynomial with these coefficients, lowest power first: 0 at the file's length, and the first so many bytes of the output
 * are the file, which is accepted with these parameters and this context; no other byte of it is written. `numbers` and `bytes` are scratch, whatever
 * they hold; all of both is zero afterwards, also what is lent beyond need.
 *
 * The first that applies decides: 10; 30, not exactly 2^(n-b) coefficients; 22, one of them not below 3221225473; 31, fewer than 2 * 2^n numbers or
 * 64 * 2^n bytes of scratch; 32, an output shorter than the file. A refusal is at 0, and leaves every buffer as it was. */
PHIEULAKHON_MUST_USE struct phieulakhon_answer phieulakhon_write(struct phieulakhon_params p, const uint8_t context[32], const uint32_t *coefficients,
                                                                 size_t count, uint32_t *numbers, size_t numbers_length, uint8_t *bytes,
                                                                 size_t bytes_length, uint8_t *output, size_t output_length);

/* Where the opening of a query in a layer, two values and the siblings, stands in a proof of that length: 0 at 0 and `length` bytes from `start` on;
 * 10, or 16 where the length is not that of a whole file or there is no such query or layer, at 0 with an empty part. It doesn't judge the proof. */
PHIEULAKHON_MUST_USE struct phieulakhon_span phieulakhon_look_up(struct phieulakhon_params p, size_t length, size_t query, size_t layer);

/* Below is what the three calls of a reader are made of, and nothing that a C program needs: the proved calls, on a reader's nine arrays, which they
 * change in place. */
struct phieulakhon_answer phieulakhon_open(struct phieulakhon_params p, const uint8_t context[32], uint8_t u8s[PHIEULAKHON_U8S], uint32_t u32s[10],
                                           size_t sizes[2], uint8_t item[32], uint8_t node[32], uint8_t transcript[32], uint8_t roots[512],
                                           uint32_t challenges[16], uint32_t coefficients[64]);
struct phieulakhon_answer phieulakhon_piece(uint8_t u8s[PHIEULAKHON_U8S], uint32_t u32s[10], size_t sizes[2], uint8_t item[32], const uint8_t *bytes,
                                            size_t length, uint8_t node[32], uint8_t transcript[32], uint8_t roots[512], uint32_t challenges[16],
                                            uint32_t coefficients[64]);
struct phieulakhon_answer phieulakhon_end(uint8_t u8s[PHIEULAKHON_U8S], uint32_t u32s[10], size_t sizes[2], uint8_t item[32], uint8_t node[32],
                                          uint8_t transcript[32], uint8_t roots[512], uint32_t challenges[16], uint32_t coefficients[64]);

static inline struct phieulakhon_answer phieulakhon_reader_open(struct phieulakhon_reader *r, struct phieulakhon_params p, const uint8_t context[32]) {
    return phieulakhon_open(p, context, r->u8s, r->u32s, r->sizes, r->item, r->node, r->transcript, r->roots, r->challenges, r->coefficients);
}

static inline struct phieulakhon_answer phieulakhon_reader_feed(struct phieulakhon_reader *r, const uint8_t *bytes, size_t length) {
    return phieulakhon_piece(r->u8s, r->u32s, r->sizes, r->item, bytes, length, r->node, r->transcript, r->roots, r->challenges, r->coefficients);
}

static inline struct phieulakhon_answer phieulakhon_reader_end(struct phieulakhon_reader *r) {
    return phieulakhon_end(r->u8s, r->u32s, r->sizes, r->item, r->node, r->transcript, r->roots, r->challenges, r->coefficients);
}

#ifdef __cplusplus
}
#endif

#endif
