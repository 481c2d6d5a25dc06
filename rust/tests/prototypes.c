/* Calls every function of the header once with sensible arguments, and again where a pointer may be NULL, and checks the
 * answers. The test in c.rs builds it as C99 and as C++, and holds its calls to the header. */
#include "baizeridge.h"
#include <stdio.h>
#include <string.h>

static int failures = 0;

#define EXPECT(condition)                                                                                              \
    do {                                                                                                               \
        if (!(condition)) {                                                                                            \
            printf("line %d: %s\n", __LINE__, #condition);                                                             \
            failures++;                                                                                                \
        }                                                                                                              \
    } while (0)

/* Document 01's first session: 1 by 3, model 0, a defect at detector 0 and three empty rounds; the fourth commits edge 0. */
static const uint8_t input[] = {1, 3, 0, 1, 0, 0, 0, 0};
static const uint8_t results[] = {1, 3, 0, 0, 0, 2, 0, 0, 1, 0, 0, 4, 1, 0, 0, 2};

static void numbers_and_lists(void) {
    const uint8_t number[] = {0xac, 0x02}, list[] = {2, 0, 1}, entries[] = {1, 0, 1};
    uint8_t out[3] = {9, 9, 9};
    uint32_t value = 5;
    size_t place = 77;

    EXPECT(baizeridge_read_number(number, sizeof number, 0, &value, &place) == 0 && value == 300 && place == 2);
    EXPECT(baizeridge_write_number(300, out, sizeof out, 1, &place) == 0 && place == 3);
    EXPECT(out[0] == 9 && out[1] == 0xac && out[2] == 0x02);
    EXPECT(baizeridge_read_list(list, sizeof list, 0, out, sizeof out, &place) == 0 && place == 3);
    EXPECT(memcmp(out, entries, sizeof entries) == 0);
    EXPECT(baizeridge_write_list(entries, sizeof entries, out, sizeof out, 0, &place) == 0 && place == 3);
    EXPECT(memcmp(out, list, sizeof list) == 0);
}

static void input_records(void) {
    uint8_t defects[2] = {9, 9}, out[3] = {9, 9, 9};
    uint32_t height = 8, distance = 8, model = 8;
    size_t at = 0, place = 77;

    EXPECT(baizeridge_read_header(input, sizeof input, 0, &height, &distance, &model, &place) == 0 && place == 3);
    EXPECT(height == 1 && distance == 3 && model == 0);
    EXPECT(baizeridge_take_header(input, sizeof input, &at, &height, &distance, &model, &place) == 0 && at == 3);
    EXPECT(place == 3 && height == 1 && distance == 3 && model == 0);
    EXPECT(baizeridge_read_round(1, 3, 0, input, sizeof input, 3, defects, 2, &place) == 0 && place == 5);
    EXPECT(defects[0] == 1 && defects[1] == 0);
    EXPECT(baizeridge_take_round(1, 3, 0, input, sizeof input, &at, defects, 2, &place) == 0 && at == 5 && place == 5);
    EXPECT(baizeridge_write_header(1, 3, 1, out, sizeof out, 0, &place) == 0 && place == 3);
    EXPECT(out[0] == 1 && out[1] == 3 && out[2] == 1);
    EXPECT(baizeridge_write_round(1, 3, 0, defects, 2, out, sizeof out, 0, &place) == 0 && place == 2);
    EXPECT(memcmp(out, input + 3, 2) == 0 && out[2] == 1);
}

static void result_records(void) {
    uint8_t edges[6] = {9, 9, 9, 9, 9, 9}, escapes[2] = {9, 9}, out[4] = {9, 9, 9, 9};
    uint32_t steps = 8;
    size_t at = 12, place = 77;

    EXPECT(baizeridge_read_result(1, 3, 0, results, sizeof results, 3, edges, 5, escapes, 2, &steps, &place) == 0);
    EXPECT(steps == 2 && place == 6 && edges[0] == 0 && edges[5] == 9 && escapes[0] == 0);
    EXPECT(baizeridge_take_result(1, 3, 0, results, sizeof results, &at, edges, 5, escapes, 2, &steps, &place) == 0);
    EXPECT(steps == 2 && place == 16 && at == 16 && edges[0] == 1 && edges[4] == 0 && escapes[1] == 0);
    EXPECT(baizeridge_write_result(1, 3, 0, edges, 5, escapes, 2, 2, out, sizeof out, 0, &place) == 0 && place == 4);
    EXPECT(memcmp(out, results + 12, 4) == 0);
    /* With diagonals there is one edge more. */
    EXPECT(baizeridge_read_result(1, 3, 1, results, sizeof results, 3, edges, 5, escapes, 2, &steps, &place) == 5);
    EXPECT(baizeridge_read_result(1, 3, 1, results, sizeof results, 3, edges, 6, escapes, 2, &steps, &place) == 0);
    EXPECT(edges[5] == 0);
}

static void whole_streams(void) {
    const uint8_t overlong[] = {1, 3, 0, 0x80, 0x00}, too_many[] = {1, 3, 0, 0, 3}; /* behind the header, and a round */
    const uint8_t no_model[] = {1, 3, 2};
    uint8_t out[sizeof results + 1] = {0};
    uint32_t height = 8, distance = 8, model = 8;
    size_t rounds = 8, count = 8, place = 77;

    EXPECT(baizeridge_scan_input(input, sizeof input, &height, &distance, &model, &rounds, &place) == 0);
    EXPECT(height == 1 && distance == 3 && model == 0 && rounds == 4 && place == sizeof input);
    EXPECT(baizeridge_scan_results(results, sizeof results, &height, &distance, &model, &rounds, &place) == 0);
    EXPECT(height == 1 && distance == 3 && model == 0 && rounds == 4 && place == sizeof results);
    memset(out, 9, sizeof out);
    place = 77;
    EXPECT(baizeridge_decode(input, sizeof input, out, sizeof out, &count, &place) == 0);
    EXPECT(count == sizeof results && place == 77 && memcmp(out, results, count) == 0 && out[count] == 9);
    EXPECT(baizeridge_decode(no_model, sizeof no_model, out, sizeof out, &count, &place) == 31 && count == 0);
    EXPECT(place == 77);
    EXPECT(baizeridge_decode(input, 4, out, sizeof out, &count, &place) == 7 && count == 3 && place == 4);
    EXPECT(baizeridge_decode(overlong, sizeof overlong, out, sizeof out, &count, &place) == 8 && place == 3);
    EXPECT(baizeridge_decode(too_many, sizeof too_many, out, sizeof out, &count, &place) == 9 && place == 4);
    EXPECT(count == 6);
}

static void sizes(void) {
    EXPECT(baizeridge_nodes(1, 3, 0) == 12 && baizeridge_nodes(0, 3, 0) == 0 && baizeridge_nodes(1, 3, 2) == 0);
    EXPECT(baizeridge_detectors(1, 3, 1) == 2 && baizeridge_detectors(16, 3, 0) == 0);
    EXPECT(baizeridge_layer_edges(1, 3, 0) == 5 && baizeridge_layer_edges(1, 3, 1) == 6);
    EXPECT(baizeridge_layer_edges(1, 259, 0) == 0 && baizeridge_layer_edges(1, 3, 256) == 0);
    EXPECT(baizeridge_step_bound(1, 3, 0) == 52 && baizeridge_step_bound(15, 15, 1) == 14404);
    EXPECT(baizeridge_step_bound(0, 3, 0) == 0 && baizeridge_step_bound(1, 3, 2) == 0);
}

/* A console with patches up to 7 by 7, and limits that are none. */
static void limits(void) {
    EXPECT(baizeridge_allowed(7, 7, 1, 7, 7) == 0 && baizeridge_allowed(15, 15, 0, 15, 15) == 0);
    EXPECT(baizeridge_allowed(8, 7, 0, 7, 7) == 32 && baizeridge_allowed(7, 8, 0, 7, 7) == 32);
    EXPECT(baizeridge_allowed(3, 3, 0, 16, 7) == 32 && baizeridge_allowed(3, 3, 0, 7, 263) == 32);
    EXPECT(baizeridge_allowed(0, 3, 2, 0, 0) == 1 && baizeridge_allowed(8, 16, 2, 7, 7) == 2);
    EXPECT(baizeridge_allowed(8, 8, 2, 7, 7) == 31);
}

/* NULL with length 0, wherever a slice stands. */
static void empty_slices(void) {
    uint8_t edges[5] = {0}, escapes[2] = {0};
    uint32_t height = 8, distance = 8, model = 8, value = 5;
    size_t at = 0, rounds = 8, count = 8, place = 77;

    EXPECT(baizeridge_read_round(1, 3, 0, NULL, 0, 0, escapes, 2, &place) == 255);
    EXPECT(baizeridge_take_round(1, 3, 0, NULL, 0, &at, escapes, 2, &place) == 255 && at == 0);
    EXPECT(baizeridge_read_result(1, 3, 0, NULL, 0, 0, edges, 5, escapes, 2, &value, &place) == 255);
    EXPECT(baizeridge_take_result(1, 3, 0, NULL, 0, &at, edges, 5, escapes, 2, &value, &place) == 255 && at == 0);
    EXPECT(baizeridge_read_round(1, 3, 0, input, sizeof input, 3, NULL, 0, &place) == 3);
    EXPECT(baizeridge_read_result(1, 3, 0, results, sizeof results, 3, NULL, 0, NULL, 0, &value, &place) == 5);
    EXPECT(baizeridge_write_number(300, NULL, 0, 0, &place) == 11);
    EXPECT(baizeridge_write_list(NULL, 0, NULL, 0, 0, &place) == 11);
    EXPECT(baizeridge_write_header(1, 3, 0, NULL, 0, 0, &place) == 11);
    EXPECT(baizeridge_write_round(1, 3, 0, NULL, 0, NULL, 0, 0, &place) == 3);
    EXPECT(baizeridge_write_result(1, 3, 0, NULL, 0, NULL, 0, 2, NULL, 0, 0, &place) == 5);
    EXPECT(baizeridge_decode(input, sizeof input, NULL, 0, &count, &place) == 11 && count == 0);
    EXPECT(value == 5 && place == 77);
    EXPECT(baizeridge_read_number(NULL, 0, 0, &value, &place) == 7 && place == 0);
    EXPECT(baizeridge_read_list(NULL, 0, 0, NULL, 0, &place) == 7 && place == 0);
    EXPECT(baizeridge_read_header(NULL, 0, 0, &height, &distance, &model, &place) == 7 && place == 0);
    EXPECT(baizeridge_take_header(NULL, 0, &at, &height, &distance, &model, &place) == 7 && at == 0);
    EXPECT(baizeridge_scan_input(NULL, 0, &height, &distance, &model, &rounds, &place) == 7 && rounds == 8);
    EXPECT(baizeridge_scan_results(NULL, 0, &height, &distance, &model, &rounds, &place) == 7 && rounds == 8);
    EXPECT(baizeridge_decode(NULL, 0, NULL, 0, &count, &place) == 7 && count == 0 && place == 0);
    EXPECT(height == 8 && distance == 8 && model == 8 && value == 5);
}

int main(void) {
    numbers_and_lists();
    input_records();
    result_records();
    whole_streams();
    sizes();
    limits();
    empty_slices();
    return failures > 0;
}
