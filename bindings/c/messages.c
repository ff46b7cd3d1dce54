/* Prints what the header says of each number, for the test that compares other bindings with it. */
#include <stdio.h>

#include "phieulakhon.h"

int main(void) {
    for (int number = 0; number < 256; number++)
        printf("%d %s\n", number, phieulakhon_message((uint8_t)number));
    return 0;
}
