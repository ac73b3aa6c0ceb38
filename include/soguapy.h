/* The planning station's call: an edit file goes in, its report comes out. See docs/STATION.md. */
#ifndef SOGUAPY_H
#define SOGUAPY_H

#include <stddef.h>
#include <stdint.h>

/* What a refused call returns is this number plus the refusal's. */
#define SOGUAPY_REFUSED 2147483648u

/* The table kinds that there are. They report alike, byte for byte. */
#define SOGUAPY_PLAIN 0u
#define SOGUAPY_FULL 1u

/* Carries out the edit file and writes its report to the front of the buffer.
 * Returns the report's length; the bytes behind it stay as they were.
 * A refused call returns SOGUAPY_REFUSED plus the refusal's number, and leaves every byte of the buffer as it was.
 * It allocates nothing and keeps nothing between calls. Its stack was measured at 25 KiB; no proof bounds it.
 * Where a length is 0 the pointer may be null. */
uint32_t soguapy_report(uint32_t kind, const uint8_t *file, size_t file_len, uint8_t *report, size_t report_len);

#endif
