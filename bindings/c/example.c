/* Plans five buffers: within 12 bytes they fit, and 12 is the least. */
#include "dsaplan.h"

#include <inttypes.h>
#include <stdio.h>

int main(void)
{
    /* each lives from its lower on, and no longer at its upper */
    const uint64_t lower[] = {0, 3, 0, 9, 0};
    const uint64_t upper[] = {3, 9, 9, 21, 21};
    const uint64_t size[] = {4, 4, 4, 4, 4};
    const uint64_t alignment[] = {1, 1, 1, 1, 1};
    const uint64_t lowest[] = {0, 0, 0, 0, 0};
    const dsaplan_buffers buffers = {
        .count = 5, .lower = lower, .upper = upper, .size = size, .alignment = alignment, .lowest = lowest};
    uint64_t offsets[5];
    dsaplan_detail detail;

    uint32_t status = dsaplan_fit(&buffers, 11, offsets, &detail);
    printf("within 11: %s\n", status == DSAPLAN_DOES_NOT_FIT ? "does not fit" : "unexpected");

    status = dsaplan_fit_least(&buffers, offsets, &detail);
    if (status != DSAPLAN_FITS) {
        printf("status %" PRIu32 ", fault %" PRIu32 " of buffer %" PRIu32 "\n", status, detail.fault, detail.buffer);
        return 1;
    }
    printf("least: %" PRIu64 "\n", detail.high);
    for (int b = 0; b < 5; b++)
        printf("buffer %d at %" PRIu64 "\n", b, offsets[b]);
    return 0;
}
