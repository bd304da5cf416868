/* Sessions from open to read and card, refusals, empty lists. */
#include "test.h"

#include <stdlib.h>
#include <string.h>

typedef struct {
    uint8_t mode;
    uint64_t anchor;
    size_t capacity, samples, block;
} setting;

/* A pulse of some flags on each line of Robot 8 B/W (66.9 ms, 7 ms), the first
 * from a flag on. */
static void pulses(uint8_t *flags, size_t n, size_t first, size_t pulse) {
    size_t line;
    memset(flags, 0, n);
    for (line = 0; line < 120; line++) {
        size_t from = first + (size_t)((double)line * 0.0669 * 11025.0 / 4.0);
        if (from + pulse <= n) {
            memset(flags + from, 1, pulse);
        }
    }
}

/* The card of an ended session says what read gave, and survives its bytes. */
static void card_of(funnelivy_session session, uint8_t mode, funnelivy_reading reading) {
    uint8_t bytes[FUNNELIVY_CARD_BYTES];
    funnelivy_card_answer r = funnelivy_session_card(session);
    funnelivy_card c = r.card;
    CHECK(r.refusal == 0 && c.mode == mode && c.end == reading.end);
    CHECK(c.taken == reading.taken && c.evaluations == reading.evaluations);
    CHECK(c.start == reading.start && c.skip == reading.skip);
    CHECK(memcmp(&c.rate, &reading.rate, sizeof c.rate) == 0);
    CHECK(memcmp(&c.start_quality, &reading.start_quality, sizeof c.start_quality) == 0);
    CHECK(memcmp(&c.quality, &reading.quality, sizeof c.quality) == 0);
    CHECK(reading.has_slant ? c.slant < 240 && 30.0 + c.slant / 2.0 == reading.slant
                            : c.slant == 255);
    CHECK(funnelivy_write_card(c, bytes, sizeof bytes) == 0);
    CHECK(same_card(funnelivy_read_card(bytes, sizeof bytes).card, c));
}

/* A record has a count of windows where it has a start, and read gives the same. */
static int counted(funnelivy_session session, funnelivy_reading reading) {
    int start = session.phase == 1 || session.phase == 2 || session.phase == 4;
    return (start ? session.windows >= 1 && session.windows <= 700 : session.windows == 0) &&
           reading.windows == (reading.refusal == 0 ? session.windows : 0);
}

/* Feeds until the session ends or the flags do. */
static funnelivy_reading run(setting s, const uint8_t *flags, size_t n) {
    static const float first[4] = {0, 0, 0, 0};
    uint8_t *flag_store = (uint8_t *)memory(s.capacity);
    float *sample_store = (float *)memory((s.samples + 1) * sizeof(float));
    float *samples = (float *)memory(4 * s.block * sizeof(float));
    funnelivy_opened opened = funnelivy_open(s.mode, s.anchor, flag_store, s.capacity, sample_store,
                                             s.samples, first, 4);
    funnelivy_session session = opened.session;
    funnelivy_reading reading = funnelivy_read(session);
    size_t at = 0;
    int right = 1;
    CHECK(opened.refusal == 0 && session.capacity == s.capacity && session.anchor == s.anchor);
    CHECK(reading.refusal == 11 && refused_card(funnelivy_session_card(session), 11));
    CHECK(counted(session, reading));
    while (at < n && reading.refusal == 11) {
        size_t m = n - at < s.block ? n - at : s.block;
        funnelivy_fed fed =
            funnelivy_feed(session, flag_store, s.capacity, sample_store, s.samples, img,
                           FUNNELIVY_IMAGE_BYTES, votes, FUNNELIVY_VOTE_CELLS, flags + at, m,
                           samples, 4 * m);
        if (fed.refusal != 0 || fed.taken == 0) {
            break;
        }
        session = fed.session;
        at += (size_t)fed.taken;
        reading = funnelivy_read(session);
        right &= counted(session, reading);
    }
    CHECK(right);
    CHECK(reading.taken == at && memcmp(flag_store, flags, at) == 0);
    card_of(session, s.mode, reading);
    CHECK(funnelivy_feed(session, flag_store, s.capacity, sample_store, s.samples, img,
                         FUNNELIVY_IMAGE_BYTES, votes, FUNNELIVY_VOTE_CELLS, flags, 1, samples, 4)
              .refusal == 10);
    free(samples);
    free(sample_store);
    free(flag_store);
    return reading;
}

/* The same flags from two anchors and in two cuts. Gives what one of them reads. */
static funnelivy_reading twice(const uint8_t *flags, size_t capacity) {
    setting one = {8, 0, 0, 0, 64};
    setting other = {8, 1000003, 0, 0, 1021};
    funnelivy_reading a, b;
    one.capacity = other.capacity = capacity;
    a = run(one, flags, capacity);
    b = run(other, flags, capacity);
    CHECK(b.start == a.start + 1000003 && b.windows == a.windows);
    CHECK(b.taken == a.taken && b.evaluations == a.evaluations && b.rate == a.rate);
    CHECK(b.slant == a.slant && b.skip == a.skip && b.start_quality == a.start_quality);
    CHECK(b.end == a.end && b.has_slant == a.has_slant && b.quality == a.quality);
    return a;
}

/* One picture, as the Rust answers it; one with pulses so long that windows tie; and
 * one that comes too late. How many windows have the largest sum was counted over the
 * columns of the evaluation that finds the start. */
static void sessions_with_a_start(void) {
    size_t capacity = (size_t)(funnelivy_sizes(8).window + funnelivy_sizes(8).picture);
    uint8_t *flags = (uint8_t *)memory(capacity);
    funnelivy_reading r;
    pulses(flags, capacity, 500, 19);
    r = twice(flags, capacity);
    CHECK(r.refusal == 0 && r.end == 0);
    CHECK(r.taken == 22588 && r.evaluations == 3);
    CHECK(r.start == 1843 && r.windows == 1 && r.rate == 11025.0);
    CHECK(r.has_slant == 1 && r.slant == 90.0 && r.skip == 158);
    CHECK(r.start_quality == 0.91415524f && r.quality == 0.98070776f);
    pulses(flags, capacity, 500, 90);
    r = twice(flags, capacity);
    CHECK(r.refusal == 0 && r.end == 0 && r.evaluations == 3);
    CHECK(r.start == 1846 && r.windows == 266 && r.skip == 227);
    pulses(flags, capacity, 12000, 90);
    r = twice(flags, capacity);
    CHECK(r.refusal == 0 && r.end == 2 && r.taken == capacity && r.evaluations == 154);
    CHECK(r.start == 47846 && r.windows == 2 && r.skip == 0);
    free(flags);
}

static void silent_session(void) {
    size_t capacity = (size_t)(funnelivy_sizes(4).window + funnelivy_sizes(4).picture);
    uint8_t *flags = (uint8_t *)memory(capacity);
    setting s = {4, 7, 0, 0, 4096};
    funnelivy_reading r;
    s.capacity = capacity;
    s.samples = 4 * capacity + 4;
    r = run(s, flags, capacity);
    CHECK(r.refusal == 0 && r.end == 1 && r.taken == capacity);
    CHECK(r.evaluations == 99225 / 64 + 1 && r.start == 0 && r.windows == 0);
    free(flags);
}

static void sessions_refuse(void) {
    static const uint8_t store[4] = {0, 0, 0, 0};
    static const float first[4] = {0, 0, 0, 0};
    static const float loud[4] = {0, 2, 0, 0};
    size_t enough = (size_t)(funnelivy_sizes(8).window + funnelivy_sizes(8).picture);
    uint8_t *flag_store = (uint8_t *)memory(enough);
    funnelivy_session none;
    memset(&none, 0, sizeof none);
    CHECK(funnelivy_open(16, 0, store, 4, NULL, 0, first, 4).refusal == 1);
    CHECK(funnelivy_open(8, ~(uint64_t)0, store, 4, NULL, 0, first, 4).refusal == 4);
    CHECK(funnelivy_open(8, 0, store, 4, NULL, 0, first, 4).refusal == 5);
    CHECK(funnelivy_open(8, 0, flag_store, enough, NULL, 0, first, 3).refusal == 6);
    CHECK(funnelivy_open(8, 0, flag_store, enough, NULL, 0, loud, 4).refusal == 8);
    CHECK(funnelivy_open(8, 0, flag_store, enough, NULL, 0, first, 4).refusal == 0);
    CHECK(funnelivy_feed(none, flag_store, enough, NULL, 0, img, FUNNELIVY_IMAGE_BYTES, votes,
                         FUNNELIVY_VOTE_CELLS, NULL, 0, NULL, 0)
              .refusal == 5);
    CHECK(funnelivy_read(none).refusal == 11);
    free(flag_store);
}

/* By the fields: what lies between and behind them may be anything. */
static int same_session(funnelivy_session a, funnelivy_session b) {
    return a.anchor == b.anchor && a.capacity == b.capacity && a.taken == b.taken &&
           a.evaluations == b.evaluations && a.streak == b.streak && a.position == b.position &&
           a.rate == b.rate && a.slant == b.slant && a.skip == b.skip &&
           a.start_quality == b.start_quality && a.quality == b.quality &&
           a.windows == b.windows && a.mode == b.mode && a.phase == b.phase &&
           a.has_slant == b.has_slant;
}

/* The flags 0 to 99 of a picture, or 100 to the end, in one piece. */
static funnelivy_fed feed_part(funnelivy_session session, picture p, int second) {
    size_t from = second ? 100 : 0;
    size_t n = second ? p.flags_len - 100 : 100;
    return funnelivy_feed(session, p.flag_store, p.flags_len, p.sample_store, p.samples_len, img,
                          FUNNELIVY_IMAGE_BYTES, votes, FUNNELIVY_VOTE_CELLS, p.flags + from, n,
                          p.samples + 4 + 4 * from, 4 * n);
}

/* Read gives the count of any record, where the phase has a start. */
static void readings_of_other_records(void) {
    funnelivy_session s;
    memset(&s, 0, sizeof s);
    s.windows = UINT16_MAX;
    for (s.phase = 0; s.phase < 6; s.phase++) {
        uint32_t due = s.phase == 2 || s.phase == 4 ? UINT16_MAX : 0;
        CHECK(funnelivy_read(s).windows == due);
    }
}

/* A record that no call returned has a card too, which the writer refuses. */
static void cards_of_other_records(void) {
    uint8_t bytes[FUNNELIVY_CARD_BYTES];
    funnelivy_session s;
    funnelivy_card_answer r;
    memset(&s, 0, sizeof s);
    CHECK(refused_card(funnelivy_session_card(s), 11));
    s.mode = 200;
    s.phase = 2;
    s.anchor = UINT64_MAX;
    s.position = 3;
    s.has_slant = 7;
    s.slant = 90.25;
    r = funnelivy_session_card(s);
    CHECK(r.refusal == 0 && r.card.mode == 200 && r.card.end == 0 && r.card.start == 2);
    CHECK(r.card.slant == 254 && funnelivy_write_card(r.card, bytes, sizeof bytes) == 14);
    s.slant = 149.5;
    CHECK(funnelivy_session_card(s).card.slant == 239);
    s.slant = 150.0;
    CHECK(funnelivy_session_card(s).card.slant == 254);
    s.slant = -1e300;
    CHECK(funnelivy_session_card(s).card.slant == 254);
    s.phase = 5;
    r = funnelivy_session_card(s);
    CHECK(r.refusal == 0 && r.card.end == 1 && r.card.start == 0 && r.card.slant == 255);
}

/* A refused feed gives zeros and leaves the stores; the session goes on with the
 * record that was handed to it, and ends as one that was never refused. */
static void refused_feed(void) {
    picture p = make_picture(0.5);
    picture q = make_picture(0.5);
    size_t bytes = p.samples_len * sizeof(float);
    funnelivy_session none, kept;
    funnelivy_fed fed;
    memset(&none, 0, sizeof none);
    kept = feed_part(open_picture(p).session, p, 0).session;
    CHECK(kept.taken == 100 && kept.capacity == p.flags_len && kept.mode == 4);
    memcpy(q.flag_store, p.flag_store, p.flags_len);
    memcpy(q.sample_store, p.sample_store, bytes);
    p.flags[200] = 2;
    fed = feed_part(kept, p, 1);
    CHECK(fed.refusal == 7 && fed.taken == 0 && same_session(fed.session, none));
    CHECK(memcmp(q.flag_store, p.flag_store, p.flags_len) == 0);
    CHECK(memcmp(q.sample_store, p.sample_store, bytes) == 0);
    p.flags[200] = 0;
    fed = feed_part(kept, p, 1);
    CHECK(fed.refusal == 0 && fed.session.phase == 2 && fed.session.position == 944);
    CHECK(fed.session.windows == 1 && counted(fed.session, funnelivy_read(fed.session)));
    CHECK(same_session(fed.session, feed_picture(open_picture(q).session, q).session));
    CHECK(same_session(funnelivy_open(16, 0, NULL, 0, NULL, 0, NULL, 0).session, none));
    free_picture(q);
    free_picture(p);
}

/* A feed of one flag with NULL and 0 for one of its six pointers. */
static funnelivy_fed feed_without(picture p, int gone) {
    return funnelivy_feed(
        open_picture(p).session, gone == 0 ? NULL : p.flag_store, gone == 0 ? 0 : p.flags_len,
        gone == 1 ? NULL : p.sample_store, gone == 1 ? 0 : p.samples_len, gone == 2 ? NULL : img,
        gone == 2 ? 0 : FUNNELIVY_IMAGE_BYTES, gone == 3 ? NULL : votes,
        gone == 3 ? 0 : FUNNELIVY_VOTE_CELLS, gone == 4 ? NULL : p.flags, gone == 4 ? 0 : 1,
        gone == 5 ? NULL : p.samples, gone == 5 ? 0 : 4);
}

/* NULL with length 0, for each pointer of each call. */
static void empty_lists(void) {
    static const uint32_t refusal[6] = {5, 5, 5, 5, 6, 6};
    picture p = make_picture(0.5);
    size_t n = p.flags_len;
    funnelivy_opened opened = funnelivy_open(8, 0, p.flag_store, n, NULL, 0, p.samples, 4);
    funnelivy_session session = opened.session;
    funnelivy_fed fed;
    int gone;
    for (gone = 0; gone < 6; gone++) {
        CHECK(feed_without(p, gone).refusal == refusal[gone]);
    }
    CHECK(feed_without(p, 6).taken == 1);
    CHECK(funnelivy_open(8, 0, NULL, 0, NULL, 0, p.samples, 4).refusal == 5);
    CHECK(funnelivy_open(4, 0, p.flag_store, n, NULL, 0, p.samples, 4).refusal == 5);
    CHECK(funnelivy_open(8, 0, p.flag_store, n, NULL, 0, NULL, 0).refusal == 6);
    /* Robot 8 B/W needs no sample store, and a piece may be empty. */
    CHECK(opened.refusal == 0 && session.capacity == n);
    fed = funnelivy_feed(session, p.flag_store, n, NULL, 0, img, FUNNELIVY_IMAGE_BYTES, votes,
                         FUNNELIVY_VOTE_CELLS, NULL, 0, NULL, 0);
    CHECK(fed.refusal == 0 && fed.taken == 0 && same_session(fed.session, session));
    fed = funnelivy_feed(session, p.flag_store, n, NULL, 0, img, FUNNELIVY_IMAGE_BYTES, votes,
                         FUNNELIVY_VOTE_CELLS, p.flags, 1, p.samples, 4);
    CHECK(fed.refusal == 0 && fed.taken == 1 && fed.session.taken == 1);
    free_picture(p);
}

void test_sessions(void) {
    sessions_with_a_start();
    silent_session();
    sessions_refuse();
    readings_of_other_records();
    cards_of_other_records();
    refused_feed();
    empty_lists();
}
