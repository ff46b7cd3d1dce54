/* Prints the header's version and its number of the file format, for the test that compares other bindings with it. */
#include <stdio.h>

#include "phieulakhon.h"

int main(void) {
    printf("%s %d\n", PHIEULAKHON_VERSION, PHIEULAKHON_FORMAT);
    return 0;
}
