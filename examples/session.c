/* Decodes document 01's first session and reads its result record by record; then decodes it cut off. */
#include "baizeridge.h"
#include <stdio.h>

/* Decodes a stream, and says where it is wrong if it is refused. */
static int decoded(const uint8_t *src, size_t src_len, uint8_t *out, size_t out_len, size_t *count) {
    size_t place = 0;
    uint8_t status = baizeridge_decode(src, src_len, out, out_len, count, &place);
    if (status >= 7 && status <= 9)
        printf("refused %u at byte %zu, %zu bytes written\n", status, place, *count);
    else if (status != 0)
        printf("ended %u, %zu bytes written\n", status, *count);
    return status == 0;
}

int main(void) {
    const uint8_t src[] = {1, 3, 0, 1, 0, 0, 0, 0}; /* 1 by 3, model 0, a defect at detector 0, three empty rounds */
    uint8_t out[1024] = {0}, edges[1204] = {0}, escapes[210] = {0};
    uint32_t height = 0, distance = 0, model = 0, steps = 0;
    size_t rounds = 0, count = 0, place = 0, at = 0;

    if (baizeridge_scan_input(src, sizeof src, &height, &distance, &model, &rounds, &place) != 0) return 1;
    printf("%u by %u, model %u, %zu rounds\n", height, distance, model, rounds);
    if (!decoded(src, sizeof src, out, sizeof out, &count)) return 1;
    if (baizeridge_take_header(out, count, &at, &height, &distance, &model, &place) != 0) return 1;

    size_t edges_len = baizeridge_layer_edges(height, distance, model);
    size_t escapes_len = baizeridge_detectors(height, distance, model);
    uint8_t status;
    while ((status = baizeridge_take_result(height, distance, model, out, count, &at, edges, edges_len, escapes,
                                            escapes_len, &steps, &place)) == 0) {
        printf("%u steps, edges", steps);
        for (size_t i = 0; i < edges_len; i++)
            if (edges[i]) printf(" %zu", i);
        printf("\n");
    }
    if (status != 255) return 1;

    return decoded(src, 4, out, sizeof out, &count); /* ends behind the round's count of defects */
}
