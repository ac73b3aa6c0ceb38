/* Prints the report of an edit file, as the planning station would get it:
 *   (cd crates/station_c && rt lib) && mkdir -p target/staticlib
 *   cp crates/station_c/out/libstation_c.a target/staticlib/libstation.a
 *   cc -Iinclude examples/station.c target/staticlib/libstation.a -o target/station
 *   target/station examples/worked.edit
 */
#include "soguapy.h"

#include <stdio.h>

/* The longest edit file has 16,384 bytes, and its report at most 24 for the first line and for each of its 2,729 steps. */
static uint8_t file[16385];
static uint8_t report[65520];

int main(int argc, char **argv) {
    FILE *in = argc == 2 ? fopen(argv[1], "rb") : NULL;
    if (!in) {
        fprintf(stderr, "usage: station EDIT-FILE\n");
        return 2;
    }
    size_t length = fread(file, 1, sizeof file, in);
    fclose(in);
    uint32_t answer = soguapy_report(SOGUAPY_PLAIN, file, length, report, sizeof report);
    if (answer >= SOGUAPY_REFUSED) {
        printf("refused %u\n", answer - SOGUAPY_REFUSED);
        return 1;
    }
    fwrite(report, 1, answer, stdout);
    return 0;
}
