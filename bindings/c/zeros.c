/* Calls on readers that were never opened: one of zeros is closed, and whatever number stands where a stopped reader keeps its answer, none comes out
 * that the table does not have for the call. Each answer that is another is printed, and the status is then 1. */
#include <stdio.h>
#include <string.h>

#include "phieulakhon.h"

enum { NUMBER = 5, PLACE = 5 }; /* where the answer stands: u8s[5] at u32s[5] */

static int wrong;

static void expect(const char *call, uint8_t kept, struct phieulakhon_answer got, uint8_t number, uint32_t place) {
    if (got.number == number && got.place == place)
        return;
    printf("%s, where %u is kept: %u at %u, not %u at %u\n", call, (unsigned)kept, (unsigned)got.number, (unsigned)got.place, (unsigned)number,
           (unsigned)place);
    wrong = 1;
}

/* The calls on a stopped reader that keeps this number, at byte 7; with 0, on one of zeros. */
static void calls(uint8_t kept) {
    static const uint8_t bytes[4096] = {4, 0};
    int fault = (kept >= PHIEULAKHON_COUNT_DIFFERS && kept <= PHIEULAKHON_MISSES_FINAL_POLYNOMIAL) || kept == PHIEULAKHON_BYTE_AFTER_THE_END;
    uint8_t number = fault ? kept : PHIEULAKHON_CLOSED;
    uint32_t place = fault ? 7 : 0;

    struct phieulakhon_reader reader;
    memset(&reader, 0, sizeof reader);
    reader.u8s[NUMBER] = kept;
    reader.u32s[PLACE] = kept ? 7 : 0;
    expect("no byte", kept, phieulakhon_reader_feed(&reader, bytes, 0), number, place);
    expect("two bytes", kept, phieulakhon_reader_feed(&reader, bytes, 2), number, place);
    expect("many bytes", kept, phieulakhon_reader_feed(&reader, bytes, sizeof bytes), number, place);
    expect("the end call", kept, phieulakhon_reader_end(&reader), number, place);
    expect("the end call again", kept, phieulakhon_reader_end(&reader), PHIEULAKHON_CLOSED, 0);
}

int main(void) {
    for (int kept = 0; kept < 256; kept++)
        calls((uint8_t)kept);
    return wrong;
}
