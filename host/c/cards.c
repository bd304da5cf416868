/* Ledger cards: bytes written out by hand, every cause of a refusal. */
#include "test.h"

#include <string.h>

static const funnelivy_card reported = {22588, 3, 1843, -158, 11025.0, 0.75f, 0.5f, 4, 0, 120};
static const funnelivy_card unfound = {311712, 4723, 0, 0, 0.0, 0.0f, 0.0f, 9, 1, 255};
static const funnelivy_card cut_short = {1, 3, 258, 0, 0.0, 1.0f, 0.0f, 15, 2, 255};

/* Mark, version, mode, end; taken; evaluations; start; start quality; rate; slant
 * index; skip; image quality. */
static const uint8_t reported_bytes[FUNNELIVY_CARD_BYTES] = {
    0x53, 0x53, 0x52, 1, 0, 4, 0,
    0x3c, 0x58, 0, 0, 0, 0, 0, 0,
    3, 0, 0, 0, 0, 0, 0, 0,
    0x33, 0x07, 0, 0, 0, 0, 0, 0,
    0, 0, 0x40, 0x3f,
    0, 0, 0, 0, 0x80, 0x88, 0xc5, 0x40,
    120,
    0x62, 0xff, 0xff, 0xff, 0xff, 0xff, 0xff, 0xff,
    0, 0, 0, 0x3f,
};
static const uint8_t unfound_bytes[FUNNELIVY_CARD_BYTES] = {
    0x53, 0x53, 0x52, 1, 0, 9, 1,
    0xa0, 0xc1, 0x04, 0, 0, 0, 0, 0,
    0x73, 0x12, 0, 0, 0, 0, 0, 0,
    0, 0, 0, 0, 0, 0, 0, 0,
    0, 0, 0, 0,
    0, 0, 0, 0, 0, 0, 0, 0,
    255,
    0, 0, 0, 0, 0, 0, 0, 0,
    0, 0, 0, 0,
};
static const uint8_t cut_short_bytes[FUNNELIVY_CARD_BYTES] = {
    0x53, 0x53, 0x52, 1, 0, 15, 2,
    1, 0, 0, 0, 0, 0, 0, 0,
    3, 0, 0, 0, 0, 0, 0, 0,
    2, 1, 0, 0, 0, 0, 0, 0,
    0, 0, 0x80, 0x3f,
    0, 0, 0, 0, 0, 0, 0, 0,
    255,
    0, 0, 0, 0, 0, 0, 0, 0,
    0, 0, 0, 0,
};

int same_card(funnelivy_card a, funnelivy_card b) {
    return a.taken == b.taken && a.evaluations == b.evaluations && a.start == b.start &&
           a.skip == b.skip && memcmp(&a.rate, &b.rate, sizeof a.rate) == 0 &&
           memcmp(&a.start_quality, &b.start_quality, sizeof a.start_quality) == 0 &&
           memcmp(&a.quality, &b.quality, sizeof a.quality) == 0 && a.mode == b.mode &&
           a.end == b.end && a.slant == b.slant;
}

int refused_card(funnelivy_card_answer answer, uint32_t refusal) {
    static const funnelivy_card none = {0, 0, 0, 0, 0.0, 0.0f, 0.0f, 0, 0, 0};
    return answer.refusal == refusal && same_card(answer.card, none);
}

/* By their bits, since -ffast-math may take it that there is no such number. */
static float f32(uint32_t bits) {
    float f;
    memcpy(&f, &bits, sizeof f);
    return f;
}

static double f64(uint32_t high, uint32_t low) {
    uint64_t bits = (uint64_t)high << 32 | low;
    double d;
    memcpy(&d, &bits, sizeof d);
    return d;
}

/* The writer's number, in a marked buffer that a refusal leaves as it was. */
static uint32_t write_card(funnelivy_card card, size_t n) {
    uint8_t out[2 * FUNNELIVY_CARD_BYTES];
    uint32_t refusal;
    size_t i, written = 0;
    memset(out, 0xa5, sizeof out);
    refusal = funnelivy_write_card(card, out, n);
    for (i = 0; i < sizeof out; i++) {
        written = out[i] != 0xa5 ? i + 1 : written;
    }
    CHECK(refusal == 0 ? n == FUNNELIVY_CARD_BYTES && written <= n && out[3] == 1 : written == 0);
    return refusal;
}

/* The reader's number, beside which there is nothing. */
static uint32_t read_card(const uint8_t *bytes, size_t n) {
    funnelivy_card_answer r = funnelivy_read_card(bytes, n);
    CHECK(r.refusal == 0 || refused_card(r, r.refusal));
    return r.refusal;
}

static void known(funnelivy_card card, const uint8_t *bytes) {
    uint8_t out[FUNNELIVY_CARD_BYTES + 2];
    funnelivy_card_answer r = funnelivy_read_card(bytes, FUNNELIVY_CARD_BYTES);
    CHECK(r.refusal == 0 && same_card(r.card, card));
    memset(out, 0xa5, sizeof out);
    CHECK(funnelivy_write_card(card, out + 1, FUNNELIVY_CARD_BYTES) == 0);
    CHECK(memcmp(out + 1, bytes, FUNNELIVY_CARD_BYTES) == 0);
    CHECK(out[0] == 0xa5 && out[FUNNELIVY_CARD_BYTES + 1] == 0xa5);
}

/* 12 comes before 13, and both before 14. */
static void lengths_and_marks(void) {
    static const size_t lengths[] = {0, 1, 55, 57, 65, 112};
    uint8_t bytes[2 * FUNNELIVY_CARD_BYTES];
    funnelivy_card wrong = reported;
    size_t i;
    wrong.mode = 16;
    memset(bytes, 0, sizeof bytes);
    memcpy(bytes, reported_bytes, FUNNELIVY_CARD_BYTES);
    for (i = 0; i < sizeof lengths / sizeof lengths[0]; i++) {
        CHECK(read_card(bytes, lengths[i]) == 12);
        CHECK(write_card(reported, lengths[i]) == 12);
        CHECK(write_card(wrong, lengths[i]) == 12);
    }
    for (i = 0; i < 5; i++) {
        bytes[i] ^= 2;
        CHECK(read_card(bytes, FUNNELIVY_CARD_BYTES) == 13);
        bytes[5] = 16;
        CHECK(read_card(bytes, FUNNELIVY_CARD_BYTES) == 13);
        CHECK(read_card(bytes, FUNNELIVY_CARD_BYTES - 1) == 12);
        bytes[i] ^= 2;
        CHECK(read_card(bytes, FUNNELIVY_CARD_BYTES) == 14);
        bytes[5] = 4;
        CHECK(read_card(bytes, FUNNELIVY_CARD_BYTES) == 0);
    }
    /* NULL with length 0. */
    CHECK(funnelivy_read_card(NULL, 0).refusal == 12);
    CHECK(funnelivy_write_card(reported, NULL, 0) == 12);
    CHECK(funnelivy_write_card(wrong, NULL, 0) == 12);
}

/* The writer's number for a card with one field changed. */
#define WITH(card, field, value, number)                             \
    do {                                                             \
        funnelivy_card changed = card;                               \
        changed.field = (value);                                     \
        check(write_card(changed, FUNNELIVY_CARD_BYTES) == (number), \
              #card " with " #field " " #value);                     \
    } while (0)

static void contents(void) {
    const int64_t most = (int64_t)1 << 62;
    WITH(reported, mode, 15, 0);
    WITH(reported, mode, 16, 14);
    WITH(unfound, mode, 255, 14);
    WITH(reported, end, 3, 14);
    WITH(reported, end, 255, 14);
    WITH(unfound, end, 3, 14);
    WITH(cut_short, end, 3, 14);
    WITH(reported, slant, 239, 0);
    WITH(reported, slant, 240, 14);
    WITH(reported, slant, 254, 14);
    WITH(reported, slant, 255, 0);
    WITH(unfound, slant, 120, 14);
    WITH(cut_short, slant, 120, 14);
    WITH(reported, skip, most, 0);
    WITH(reported, skip, -most, 0);
    WITH(reported, skip, most + 1, 14);
    WITH(reported, skip, -most - 1, 14);
    WITH(unfound, skip, 1, 14);
    WITH(cut_short, skip, -1, 14);
    WITH(unfound, start, 1, 14);
    WITH(cut_short, start, 0, 0);
}

static void floats(void) {
    WITH(reported, rate, f64(0, 1), 0);
    WITH(reported, rate, f64(0x7fefffff, 0xffffffff), 0);
    WITH(reported, rate, 0.0, 14);
    WITH(reported, rate, -1.0, 14);
    WITH(reported, rate, f64(0x7ff00000, 0), 14);
    WITH(reported, rate, f64(0x7ff80000, 0), 14);
    WITH(reported, rate, f64(0xfff00000, 1), 14);
    WITH(unfound, rate, 11025.0, 14);
    WITH(cut_short, rate, f64(0x80000000, 0), 14);
    WITH(reported, start_quality, f32(0x00000001), 0);
    WITH(reported, start_quality, f32(0x80000000), 0);
    WITH(reported, start_quality, f32(0x3f800001), 14);
    WITH(cut_short, start_quality, f32(0x80000001), 14);
    WITH(cut_short, start_quality, f32(0x7fc00000), 14);
    WITH(unfound, start_quality, f32(0x80000000), 14);
    WITH(reported, quality, f32(0x3f800000), 0);
    WITH(reported, quality, f32(0x80000000), 0);
    WITH(reported, quality, f32(0x7f800001), 14);
    WITH(reported, quality, f32(0x7f800000), 14);
    WITH(unfound, quality, f32(0x00000001), 14);
    WITH(cut_short, quality, f32(0x80000000), 14);
    WITH(cut_short, quality, f32(0xffc00000), 14);
}

/* Each byte of each card changed in turn: what is read writes back, and what is
 * refused is refused for what the byte is. */
static void each_byte(funnelivy_card card, const uint8_t *right) {
    uint8_t bytes[FUNNELIVY_CARD_BYTES], out[FUNNELIVY_CARD_BYTES];
    size_t at;
    int change;
    for (at = 0; at < FUNNELIVY_CARD_BYTES; at++) {
        int back = 1, number = 1, same = 0;
        memcpy(bytes, right, FUNNELIVY_CARD_BYTES);
        for (change = 1; change < 256; change++) {
            funnelivy_card_answer r;
            bytes[at] = (uint8_t)(right[at] ^ change);
            r = funnelivy_read_card(bytes, FUNNELIVY_CARD_BYTES);
            number &= at < 5 ? r.refusal == 13 : r.refusal == 0 || r.refusal == 14;
            same |= r.refusal == 0 && same_card(r.card, card);
            back &= r.refusal != 0 || (funnelivy_write_card(r.card, out, sizeof out) == 0 &&
                                       memcmp(out, bytes, sizeof out) == 0);
        }
        CHECK(number && back && !same);
    }
}

void test_cards(void) {
    known(reported, reported_bytes);
    known(unfound, unfound_bytes);
    known(cut_short, cut_short_bytes);
    lengths_and_marks();
    contents();
    floats();
    each_byte(reported, reported_bytes);
    each_byte(unfound, unfound_bytes);
    each_byte(cut_short, cut_short_bytes);
}
