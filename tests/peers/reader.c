/* The tuned reader: the header, the counts and the claims of a file of edition 1. */
#include "peers.h"

retro_group tuned_read(const uint8_t *restrict file, uint8_t *restrict counts,
                       uint32_t *restrict claims, uint8_t *restrict joined)
{
    size_t place;
    size_t all = 0;
    retro_group group = take_header(file, &place);
    for (size_t risk = 0; risk < group.risks; risk++) {
        size_t count = take(file, &place, COUNT_WIDTH);
        counts[risk] = (uint8_t)count;
        for (size_t k = 0; k < count; k++) {
            claims[k] = (uint32_t)take(file, &place, CLAIM_WIDTH);
        }
        claims += count;
        all += count;
    }
    /* each claim is an accident of its own */
    memset(joined, 0, all);
    return group;
}
