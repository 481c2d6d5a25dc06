/* A console with patches up to 7 by 7: a stream is decoded only if the console's limits allow its shape. */
#include "baizeridge.h"
#include <stdio.h>

enum { LARGEST_HEIGHT = 7, LARGEST_DISTANCE = 7 };

/* Whether the stream was decoded to its end; says so, or what refused it. */
static int decoded(const uint8_t *src, size_t src_len) {
    uint8_t out[1024] = {0};
    uint32_t height = 0, distance = 0, model = 0;
    size_t count = 0, place = 0;

    uint8_t status = baizeridge_read_header(src, src_len, 0, &height, &distance, &model, &place);
    if (status != 0) {
        printf("header refused %u\n", status);
        return 0;
    }
    printf("%u by %u, model %u: ", height, distance, model);
    status = baizeridge_allowed(height, distance, model, LARGEST_HEIGHT, LARGEST_DISTANCE);
    if (status == 0) status = baizeridge_decode(src, src_len, out, sizeof out, &count, &place);
    if (status == 0)
        printf("decoded");
    else
        printf("refused %u", status);
    printf(", %zu bytes written\n", count);
    return status == 0;
}

int main(void) {
    const uint8_t patch[] = {7, 7, 1, 1, 0, 0}; /* 7 by 7, model 1, a defect at detector 0, an empty round */
    const uint8_t large[] = {8, 7, 1, 1, 0, 0}; /* 8 by 7 */

    int right = decoded(patch, sizeof patch);
    right &= !decoded(large, sizeof large);
    right &= !decoded(patch, 2); /* ends before the model */
    return !right;
}
