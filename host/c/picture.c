/* The sound of one Robot 36 picture. */
#include "test.h"

#include <math.h>
#include <stdlib.h>
#include <string.h>

static const uint8_t robot36 = 4;
static const double rate = 11025.0;
static const double line_seconds = 0.15;
static const double pulse_seconds = 0.009;
/* From a line's start: pulse, porch, 320 pixels of twice 0.1375 ms. */
static const double separator = 0.009 + 0.003 + 0.088;
static const double first_pulse = 4 * 700;

/* A separator tone of 4.5 ms, with some samples more at both ends. */
static void tone(picture p, double at, double hz, double amplitude) {
    size_t from = (size_t)at - 10;
    size_t i;
    for (i = from; i < from + 70 && i < p.samples_len; i++) {
        p.samples[i] = (float)(amplitude * sin(6.283185307179586 * hz * (double)i / rate));
    }
}

picture make_picture(double amplitude) {
    funnelivy_sizes_answer sizes = funnelivy_sizes(robot36);
    picture p;
    size_t line;
    p.flags_len = (size_t)(sizes.window + sizes.picture);
    p.samples_len = 4 * p.flags_len + 4;
    p.flags = (uint8_t *)memory(p.flags_len);
    p.flag_store = (uint8_t *)memory(p.flags_len);
    p.samples = (float *)memory(p.samples_len * sizeof(float));
    p.sample_store = (float *)memory(p.samples_len * sizeof(float));
    for (line = 0; line < 240; line++) {
        double at = first_pulse + (double)line * line_seconds * rate;
        size_t flag = (size_t)(at / 4);
        size_t pulse = (size_t)(pulse_seconds * rate / 4);
        if (flag + pulse <= p.flags_len) {
            memset(p.flags + flag, 1, pulse);
        }
        tone(p, at + separator * rate, line % 2 == 0 ? 2300.0 : 1500.0, amplitude);
    }
    return p;
}

void free_picture(picture p) {
    free(p.sample_store);
    free(p.samples);
    free(p.flag_store);
    free(p.flags);
}

funnelivy_opened open_picture(picture p) {
    return funnelivy_open(robot36, 0, p.flag_store, p.flags_len, p.sample_store, p.samples_len,
                          p.samples, 4);
}

funnelivy_fed feed_picture(funnelivy_session session, picture p) {
    return funnelivy_feed(session, p.flag_store, p.flags_len, p.sample_store, p.samples_len, img,
                          FUNNELIVY_IMAGE_BYTES, votes, FUNNELIVY_VOTE_CELLS, p.flags, p.flags_len,
                          p.samples + 4, p.samples_len - 4);
}
