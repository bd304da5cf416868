/*
 * The float environment: the answers through the header's guard are those of the
 * default, whatever the environment, and without it they are not, so that the
 * guard is seen to do something.
 */
#include "test.h"

#include <fenv.h>
#include <string.h>

/* What some calls answer. */
typedef struct {
    uint32_t has_sync; /* of a spectrum with 1e-40 in it */
    uint64_t position; /* of a picture with tones of amplitude 1e-39 */
    uint64_t picture;  /* P of Robot 24 B/W */
    float window[512]; /* around sound of 2e-38 and 0.3 */
    uint32_t written;  /* of a card whose rate and qualities are the smallest there are */
    uint32_t read;     /* of its bytes */
    uint32_t below;    /* of a card whose quality is just below 0 */
    uint8_t card[FUNNELIVY_CARD_BYTES];
} answers;

static float spectrum[258];
static float sound[16];
static picture faint;
static funnelivy_card smallest, below;

/* Only hands numbers on, so that nothing in it depends on the environment. */
static void ask(answers *a) {
    a->has_sync = funnelivy_has_sync(spectrum, 258, 0.0).has_sync;
    a->position = feed_picture(open_picture(faint).session, faint).session.position;
    a->picture = funnelivy_sizes(6).picture;
    funnelivy_sync_window(sound, 16, 8, a->window, 512);
    a->below = funnelivy_write_card(below, a->card, sizeof a->card);
    a->written = funnelivy_write_card(smallest, a->card, sizeof a->card);
    a->read = funnelivy_read_card(a->card, sizeof a->card).refusal;
}

static int same(const answers *a, const answers *b) {
    return a->has_sync == b->has_sync && a->position == b->position && a->picture == b->picture &&
           memcmp(a->window, b->window, sizeof a->window) == 0 && a->written == b->written &&
           a->read == b->read && a->below == b->below &&
           memcmp(a->card, b->card, sizeof a->card) == 0;
}

enum { FLUSH = 0x8000, DENORMALS = 0x0040, DOWN = 0x2000, UP = 0x4000, CUT = 0x6000 };

static const struct {
    unsigned bits; /* beside the default's */
    const char *guarded, *bare;
} environments[] = {
    {FLUSH, "guarded from flush to zero", "flush to zero changes an answer"},
    {DENORMALS, "guarded from denormals are zero", "denormals are zero changes an answer"},
    {FLUSH | DENORMALS, "guarded from both", "both change an answer"},
    {UP, "guarded from rounding up", "rounding up changes an answer"},
    {DOWN, "guarded from rounding down", "rounding down changes an answer"},
    {CUT, "guarded from rounding to zero", "rounding to zero changes an answer"},
};

static void answers_in_each_environment(void) {
    answers usual, bare, guarded;
    size_t i;
    ask(&usual);
    CHECK(usual.has_sync == 1 && usual.position == 944 && usual.picture == 66150);
    CHECK(usual.written == 0 && usual.read == 0 && usual.card[31] == 1 && usual.card[35] == 1);
    CHECK(usual.below == 14);
    for (i = 0; i < sizeof environments / sizeof environments[0]; i++) {
        unsigned found, saved;
        int seen, set, restored;
        _mm_setcsr(FUNNELIVY_MXCSR_DEFAULT | environments[i].bits);
        seen = !funnelivy_float_default();
        ask(&bare);
        found = _mm_getcsr();
        saved = funnelivy_float_enter();
        set = funnelivy_float_default();
        ask(&guarded);
        funnelivy_float_leave(saved);
        restored = _mm_getcsr() == found;
        _mm_setcsr(FUNNELIVY_MXCSR_DEFAULT);
        check(seen && set && restored && same(&guarded, &usual), environments[i].guarded);
        check(!same(&bare, &usual), environments[i].bare);
        if (environments[i].bits == (FLUSH | DENORMALS)) {
            CHECK(bare.has_sync == 0 && bare.position == 2598 && bare.picture == 66150);
            CHECK(bare.below == 0);
        }
        if (environments[i].bits == UP) {
            CHECK(bare.has_sync == 1 && bare.position == 944 && bare.picture == 66151);
        }
    }
}

/* As a host changes it. */
static void rounding_of_the_c_library(void) {
    uint64_t bare, guarded;
    unsigned saved;
    CHECK(funnelivy_float_default());
    CHECK(fesetround(FE_UPWARD) == 0);
    CHECK(!funnelivy_float_default());
    bare = funnelivy_sizes(6).picture;
    saved = funnelivy_float_enter();
    guarded = funnelivy_sizes(6).picture;
    funnelivy_float_leave(saved);
    CHECK(fegetround() == FE_UPWARD);
    CHECK(fesetround(FE_TONEAREST) == 0);
    CHECK(funnelivy_float_default());
    CHECK(bare == 66151 && guarded == 66150);
}

/* A result that is not exact traps. */
static int bare_trap(void) {
    _mm_setcsr(FUNNELIVY_MXCSR_DEFAULT & ~0x1000u);
    return funnelivy_sizes(6).picture != 66150;
}

static int guarded_trap(void) {
    unsigned saved;
    int wrong;
    _mm_setcsr(FUNNELIVY_MXCSR_DEFAULT & ~0x1000u);
    wrong = funnelivy_float_default();
    saved = funnelivy_float_enter();
    wrong |= funnelivy_sizes(6).picture != 66150;
    funnelivy_float_leave(saved);
    return wrong;
}

/* The environment that the process started with. */
void test_float_at_start(void) {
    uint32_t bare, guarded;
    unsigned saved;
    spectrum[54] = 1e-40f;
    bare = funnelivy_has_sync(spectrum, 258, 0.0).has_sync;
    saved = funnelivy_float_enter();
    guarded = funnelivy_has_sync(spectrum, 258, 0.0).has_sync;
    funnelivy_float_leave(saved);
    CHECK(guarded == 1);
#ifdef __FAST_MATH__
    CHECK(!funnelivy_float_default() && bare == 0);
#else
    CHECK(funnelivy_float_default() && bare == 1);
#endif
}

/* By its bits, since -ffast-math may take a number so small for 0. */
static void smallest_numbers(void) {
    static const uint64_t rate = 1;
    static const uint32_t quality = 1, negative = 0x80000001u;
    memcpy(&smallest.rate, &rate, sizeof rate);
    memcpy(&smallest.start_quality, &quality, sizeof quality);
    memcpy(&smallest.quality, &quality, sizeof quality);
    below = smallest;
    /* A subnormal rate may be taken for 0, and the card be refused for that. */
    below.rate = 11025.0;
    memcpy(&below.quality, &negative, sizeof negative);
}

void test_float(void) {
    size_t i;
    for (i = 0; i < 16; i++) {
        sound[i] = i % 2 == 0 ? 2e-38f : 0.3f;
    }
    smallest_numbers();
    faint = make_picture(1e-39);
    answers_in_each_environment();
    free_picture(faint);
    rounding_of_the_c_library();
    CHECK(apart(bare_trap) == -1);
    CHECK(apart(guarded_trap) == 0);
}
