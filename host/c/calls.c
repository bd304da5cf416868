/* The single calls: known answers, refusals, empty lists. */
#include "test.h"

#include <string.h>

/* By its bits, since -ffast-math may take it that there is no such number. */
static float infinity(void) {
    uint32_t bits = 0x7f800000;
    float f;
    memcpy(&f, &bits, sizeof f);
    return f;
}

static double not_a_number(void) {
    uint64_t bits = (uint64_t)0x7ff80000 << 32;
    double d;
    memcpy(&d, &bits, sizeof d);
    return d;
}

static funnelivy_report_answer find(const uint8_t *flags, size_t n, double rate, uint8_t mode) {
    return funnelivy_find_sync(flags, n, rate, mode, img, FUNNELIVY_IMAGE_BYTES, votes,
                               FUNNELIVY_VOTE_CELLS);
}

static void sizes_and_columns(void) {
    static const struct {
        uint8_t mode;
        uint64_t window, columns;
        int64_t skip;
    } known[] = {{0, 11213, 28, -221}, {4, 5790, 42, -99}, {9, 9447, 15, -828}, {12, 9846, 8, -54}};
    size_t i;
    for (i = 0; i < 4; i++) {
        funnelivy_report_answer r = find(NULL, 0, 11025.0, known[i].mode);
        CHECK(funnelivy_sizes(known[i].mode).window == known[i].window);
        CHECK(funnelivy_columns(known[i].mode, 700).columns == known[i].columns);
        CHECK(r.refusal == 0 && r.has_slant == 0 && r.rate == 11025.0 && r.skip == known[i].skip);
    }
    CHECK(funnelivy_sizes(0).picture == 347572);
    CHECK(funnelivy_sizes(4).picture == 99225);
    CHECK(funnelivy_sizes(16).refusal == 1);
    CHECK(funnelivy_columns(16, 700).refusal == 1);
    CHECK(funnelivy_columns(0, 65537).refusal == 9);
}

static int same_window(funnelivy_window_answer a, funnelivy_window_answer b) {
    return a.refusal == b.refusal && a.start == b.start && a.sum == b.sum &&
           a.windows == b.windows;
}

static void windows_and_quality(void) {
    static const uint32_t ring[4] = {5, 1, 1, 5};
    static const uint32_t equal[4] = {5, 5, 5, 5};
    /* Larger sums behind some that tie. */
    static const uint32_t later[7] = {4, 4, 4, 9, 0, 9, 4};
    /* Both windows with the largest sum cross the ring's end. */
    static const uint32_t crossing[5] = {5, 0, 0, 0, 5};
    static const struct {
        const uint32_t *counts;
        size_t n;
        uint64_t width;
        funnelivy_window_answer answer;
    } known[] = {
        {ring, 4, 2, {0, 3, 10, 1}},
        {equal, 4, 2, {0, 0, 10, 4}},
        {ring, 4, 4, {0, 0, 12, 4}},
        {ring, 1, 1, {0, 0, 5, 1}},
        {later, 7, 1, {0, 3, 9, 2}},
        {later, 7, 2, {0, 2, 13, 2}},
        {crossing, 5, 3, {0, 3, 10, 2}},
        {ring, 4, 0, {9, 0, 0, 0}},
        {ring, 4, 5, {9, 0, 0, 0}},
        {NULL, 0, 1, {9, 0, 0, 0}},
    };
    size_t i;
    for (i = 0; i < sizeof known / sizeof known[0]; i++) {
        CHECK(same_window(funnelivy_window(known[i].counts, known[i].n, known[i].width),
                          known[i].answer));
    }
    CHECK(funnelivy_quality(NULL, 0, 4, 0).refusal == 0);
    CHECK(funnelivy_quality(NULL, 0, 4, 0).quality == 0.0f);
    CHECK(funnelivy_quality(ring, 4, 16, 5).refusal == 1);
    CHECK(funnelivy_quality(ring, 4, 4, 65537).refusal == 9);
}

static void edges(void) {
    static const struct {
        size_t column;
        uint64_t edge;
    } known[] = {{349, 350}, {350, 1}, {694, 345}, {695, 0}};
    size_t i;
    for (i = 0; i < 4; i++) {
        uint32_t counts[700] = {0};
        funnelivy_columns_answer r;
        counts[known[i].column] = 1;
        r = funnelivy_edge(counts, 700);
        CHECK(r.refusal == 0 && r.columns == known[i].edge);
        CHECK(funnelivy_edge(counts, 699).refusal == 9);
    }
}

static void find_sync_refuses(void) {
    static const uint8_t two[1] = {2};
    CHECK(find(two, 1, 11025.0, 16).refusal == 1);
    CHECK(find(two, 1, not_a_number(), 0).refusal == 2);
    CHECK(find(two, 1, 7999.0, 0).refusal == 2);
    CHECK(find(two, 1, 11025.0, 0).refusal == 7);
    CHECK(funnelivy_find_sync(two, 1, 11025.0, 0, img, FUNNELIVY_IMAGE_BYTES - 1, votes,
                              FUNNELIVY_VOTE_CELLS)
              .refusal == 5);
}

static void spectrum_calls(void) {
    float sound[16], buffer[512], spectrum[258];
    size_t i;
    memset(spectrum, 0, sizeof spectrum);
    for (i = 0; i < 16; i++) {
        sound[i] = 0.5f;
    }
    CHECK(funnelivy_sync_window(sound, 16, 8, buffer, 512) == 0);
    CHECK(buffer[0] == 0.0f && buffer[2] > 0.0f && buffer[16] > 0.49f && buffer[511] == 0.0f);
    CHECK(funnelivy_sync_window(sound, 16, ((uint64_t)1 << 62) + 1, buffer, 512) == 4);
    CHECK(funnelivy_sync_window(sound, 16, 8, buffer, 511) == 5);
    sound[3] = 1.5f;
    CHECK(funnelivy_sync_window(sound, 16, 8, buffer, 512) == 8);
    CHECK(funnelivy_has_sync(spectrum, 258, 0.0).has_sync == 0);
    spectrum[2 * 27] = 1.0f;
    CHECK(funnelivy_has_sync(spectrum, 258, 0.0).has_sync == 1);
    CHECK(funnelivy_has_sync(spectrum, 258, 5001.0).refusal == 3);
    CHECK(funnelivy_has_sync(spectrum, 257, 0.0).refusal == 6);
    spectrum[0] = infinity();
    CHECK(funnelivy_has_sync(spectrum, 258, 0.0).refusal == 8);
}

/* NULL with length 0, for each pointer of each call. */
static void empty_lists(void) {
    static const float sound[1] = {0.5f};
    float buffer[512];
    size_t i;
    CHECK(funnelivy_window(NULL, 0, 1).refusal == 9);
    CHECK(funnelivy_quality(NULL, 0, 4, 1).refusal == 0);
    CHECK(funnelivy_edge(NULL, 0).refusal == 9);
    CHECK(find(NULL, 0, 11025.0, 0).refusal == 0);
    CHECK(funnelivy_find_sync(NULL, 0, 11025.0, 0, NULL, 0, votes, FUNNELIVY_VOTE_CELLS)
              .refusal == 5);
    CHECK(funnelivy_find_sync(NULL, 0, 11025.0, 0, img, FUNNELIVY_IMAGE_BYTES, NULL, 0)
              .refusal == 5);
    CHECK(funnelivy_sync_window(sound, 1, 0, NULL, 0) == 5);
    CHECK(funnelivy_has_sync(NULL, 0, 0.0).refusal == 6);
    for (i = 0; i < 512; i++) {
        buffer[i] = 1.0f;
    }
    CHECK(funnelivy_sync_window(NULL, 0, 0, buffer, 512) == 0);
    for (i = 0; i < 512 && buffer[i] == 0.0f; i++) {
    }
    CHECK(i == 512);
}

void test_calls(void) {
    sizes_and_columns();
    windows_and_quality();
    edges();
    find_sync_refuses();
    spectrum_calls();
    empty_lists();
}
