/*
 * Funnelivy: where a slow-scan picture starts, at what true rate, and how far
 * to skip. C interface of the static library that `host/staticlib` writes to
 * target/staticlib/libfunnelivy.a (x86-64).
 *
 * Every call is total: an argument that does not meet the call's conditions is
 * refused with the lowest number that applies, 0 meaning that nothing is
 * refused. A refused call writes to no buffer, and every field of its answer
 * but `refusal` is 0.
 *
 *    1 mode above 15                     7 flag above 1
 *    2 rate not finite or outside        8 sample not finite or beyond 1,
 *      8,000 to 48,000 Hz                  spectrum number not finite
 *    3 shift not finite or beyond        9 count list, count, width, n or
 *      5,000 Hz either way                 lines outside the limits
 *    4 anchor or centre above 2^62      10 feed after the end
 *    5 lent memory of a wrong length    11 read, or a session's card,
 *    6 list of a wrong length              before the end
 *   12 card of another length than 56   14 card with a field outside its
 *   13 card with another mark or           limits, or filled where its end
 *      version                             has none
 *
 * All memory is the caller's. The library keeps no pointer and allocates
 * nothing. A length is the true number of elements behind its pointer, and
 * times the size of one it is below 2^63. A pointer is aligned for its type,
 * and may be NULL only where its length is 0. Buffers that are written must not
 * overlap any other argument.
 *
 * Float environment. A call must be made with rounding to nearest, without
 * flush-to-zero (FTZ), without denormals-are-zero (DAZ) and with all float
 * exceptions masked: the calls round, and an exception that is not masked
 * traps. The answers are those of the scope document only then, and the proofs
 * presuppose it, so that otherwise nothing is promised. A process starts so.
 * But linking with -ffast-math, -Ofast or -funsafe-math-optimizations changes
 * it for the whole process: gcc and clang then add crtfastmath.o, which sets
 * FTZ and DAZ before main, and new threads inherit them. A single shared
 * library that was linked so is enough (older compilers: gcc before 13).
 * fesetround, feenableexcept and _mm_setcsr change it for their thread. A host
 * that does not know puts funnelivy_float_enter and funnelivy_float_leave,
 * below, around its calls.
 *
 * Stack. FUNNELIVY_STACK_BYTES of free stack are enough for every call, and
 * FUNNELIVY_SMALL_STACK_BYTES for every call but feed and find_sync. Measured,
 * with the arguments: feed 43,600 bytes, find_sync 20,400, the others below
 * 500, and 3,200 more where the dynamic linker binds memset in the first call.
 * Large frames are touched page by page from above, so that a guard page is not
 * jumped over. What signal handlers take comes on top.
 *
 * Modes: 0 PD 120, 1 PD 180, 2 PD 240, 3 Robot 24, 4 Robot 36, 5 Robot 72,
 * 6 Robot 24 B/W, 7 Robot 12 B/W, 8 Robot 8 B/W, 9 Scottie 1, 10 Scottie 2,
 * 11 Scottie DX, 12 Martin 1, 13 Martin 2, 14 Wraase SC-2 120,
 * 15 Wraase SC-2 180.
 */
#ifndef FUNNELIVY_H
#define FUNNELIVY_H

#include <stddef.h>
#include <stdint.h>
#ifdef __x86_64__
#include <xmmintrin.h>
#endif

#ifdef __cplusplus
extern "C" {
#endif

/* Lengths of the work memory of find_sync and feed. */
#define FUNNELIVY_IMAGE_BYTES 441000
#define FUNNELIVY_VOTE_CELLS 144000
/* Longest flag store and flag list. */
#define FUNNELIVY_MOST_FLAGS 16777216
/* Length of a ledger card. */
#define FUNNELIVY_CARD_BYTES 56
/* Free stack that is enough for each call, and for each but feed and find_sync. */
#define FUNNELIVY_STACK_BYTES 65536
#define FUNNELIVY_SMALL_STACK_BYTES 8192

/*
 * A session, to be kept by the host and handed back to the next call. The
 * fields may be read. A record that no call returned is refused where a number
 * applies, as any; else its answer is free, within the memory that was lent. A
 * refused call returns a record of zeros, which is no session: go on with the
 * record that was handed to it.
 *
 * `windows` is how many windows have the largest sum, at the evaluation that
 * found the start: 1 unless several windows tie, up to 700.
 *
 * In this and every other record the bytes between and behind the fields are
 * not written and may hold anything: compare records by their fields, not by
 * memcmp.
 */
typedef struct {
    uint64_t anchor;       /* number of the session's first sample */
    uint64_t capacity;     /* F, the length of the flag store */
    uint64_t taken;        /* flags taken */
    uint64_t evaluations;  /* evaluations made */
    uint64_t streak;       /* evaluations in a row that passed */
    uint64_t position;     /* start less the anchor, where there is one */
    double rate;           /* of the report, where there is one */
    double slant;          /* of the report, where has_slant is 1 */
    int64_t skip;          /* of the report */
    float start_quality;   /* where there is a start */
    float quality;         /* of the report */
    uint16_t windows;      /* with the largest sum, where there is a start */
    uint8_t mode;
    uint8_t phase;         /* 0 searching, 1 collecting, 2 reported, 3 unfound, 4 cut short */
    uint8_t has_slant;
} funnelivy_session;

typedef struct {
    uint32_t refusal;
    uint64_t window;   /* w: flags of a search window */
    uint64_t picture;  /* P: flags of a picture at 11,025 Hz */
} funnelivy_sizes_answer;

typedef struct {
    uint32_t refusal;
    uint64_t columns;
} funnelivy_columns_answer;

typedef struct {
    uint32_t refusal;
    uint64_t start;
    uint64_t sum;
    uint64_t windows;  /* how many windows have that sum */
} funnelivy_window_answer;

typedef struct {
    uint32_t refusal;
    float quality;
} funnelivy_quality_answer;

typedef struct {
    uint32_t refusal;
    uint32_t has_slant;  /* 1 where a slant was found */
    double rate;         /* true sampling rate, Hz */
    double slant;        /* degrees, 0 where none was found */
    int64_t skip;        /* samples to the first line, may be negative */
    float quality;
} funnelivy_report_answer;

typedef struct {
    uint32_t refusal;
    uint32_t has_sync;
} funnelivy_decision_answer;

typedef struct {
    uint32_t refusal;
    funnelivy_session session;
} funnelivy_opened;

typedef struct {
    uint32_t refusal;
    uint64_t taken;  /* flags of the piece that were taken */
    funnelivy_session session;
} funnelivy_fed;

typedef struct {
    uint32_t refusal;
    uint32_t end;  /* 0 reported, 1 unfound, 2 cut short */
    uint64_t taken;
    uint64_t evaluations;
    uint64_t start;  /* anchor plus position: reported, cut short */
    double rate;     /* from here on: reported */
    double slant;
    int64_t skip;
    float start_quality; /* reported, cut short */
    float quality;
    uint32_t has_slant;
    uint32_t windows; /* of the session: reported, cut short */
} funnelivy_reading;

/*
 * A ledger card: an ended session in 56 bytes, numbers little-endian, signed
 * ones in two's complement and floats as their bits.
 *
 *    offset  bytes
 *         0      3  the mark, 53 53 52 ("SSR")
 *         3      2  the version, 1
 *         5      1  mode
 *         6      1  end: 0 reported, 1 unfound, 2 cut short
 *         7      8  taken
 *        15      8  evaluations
 *        23      8  start
 *        31      4  start quality
 *        35      8  rate
 *        43      1  slant index q: 0 to 239 for 30 + q / 2 degrees, 255 for none
 *        44      8  skip
 *        52      4  image quality
 *
 * What an end lacks is zero, and q 255: start and start quality of an unfound
 * card; rate, slant, skip and image quality of an unfound or a cut short one.
 *
 * Refusal 14: a mode above 15 (which is not 1 here), an end above 2, q from 240
 * to 254, a field that is filled though the end lacks it (any bit set, so -0.0
 * too, or a q that is not 255), a quality that is not from 0 to 1, and in a
 * reported card a rate that is not finite and positive or a skip beyond 2^62
 * either way. A NaN is outside each of these limits, so that a card with one is
 * refused; -0.0 is from 0 to 1.
 */
typedef struct {
    uint64_t taken;
    uint64_t evaluations;
    uint64_t start;       /* reported, cut short */
    int64_t skip;         /* reported */
    double rate;          /* reported */
    float start_quality;  /* reported, cut short */
    float quality;        /* image quality: reported */
    uint8_t mode;
    uint8_t end;          /* 0 reported, 1 unfound, 2 cut short */
    uint8_t slant;        /* index q, 255 for none */
} funnelivy_card;

typedef struct {
    uint32_t refusal;
    funnelivy_card card;
} funnelivy_card_answer;

/* The sizes of a mode, from which stores are made. Refuses 1. */
funnelivy_sizes_answer funnelivy_sizes(uint8_t mode);

/* Columns of a sync pulse in a line of n columns. Refuses 1, 9 (n above 65,536). */
funnelivy_columns_answer funnelivy_columns(uint8_t mode, uint64_t n);

/* The first window of `width` counts in a ring whose sum is the largest, that
 * sum, and how many windows have it: 1 unless several tie. Refuses 9 (no counts,
 * more than 65,536, a width of 0 or above the number of counts). */
funnelivy_window_answer funnelivy_window(const uint32_t *counts, size_t counts_len, uint64_t width);

/* Quality of the sync in column counts of `lines` lines. Refuses 1, 9 (more
 * than 65,536 counts or lines). */
funnelivy_quality_answer funnelivy_quality(const uint32_t *counts, size_t counts_len, uint8_t mode,
                                           uint64_t lines);

/* Column of the falling edge. Refuses 9 (not 700 counts, a count above
 * 1,000,000). */
funnelivy_columns_answer funnelivy_edge(const uint32_t *counts, size_t counts_len);

/* Slant, rate and skip of a picture whose first flag is flags[0]. The work
 * memory may hold anything; its first 441,000 bytes and 144,000 cells come
 * back as 0. Refuses 1, 2, 5 (work memory short), 6 (too many flags), 7. */
funnelivy_report_answer funnelivy_find_sync(const uint8_t *flags, size_t flags_len, double rate,
                                            uint8_t mode, uint8_t *img, size_t img_len,
                                            uint16_t *votes, size_t votes_len);

/* Fills the 512 numbers (256 pairs, real part first) that a transform of
 * length 256 takes for a probe at `centre`. Gives the refusal: 4, 5 (buffer
 * not 512 numbers), 8. */
uint32_t funnelivy_sync_window(const float *sound, size_t sound_len, uint64_t centre,
                               float *buffer, size_t buffer_len);

/* Whether a spectrum of 129 pairs (258 numbers) shows the sync tone, the
 * receiver being off by shift_hz. Refuses 3, 6, 8. */
funnelivy_decision_answer funnelivy_has_sync(const float *spectrum, size_t spectrum_len,
                                             double shift_hz);

/* Opens a session over a flag store of F bytes, at least window + picture. For
 * Robot 24 and 36 the sample store has at least 4F + 4 numbers, and its first
 * four become `first`; other modes never touch it. `first` are the samples 0
 * to 3. Refuses 1, 4, 5, 6, 8. */
funnelivy_opened funnelivy_open(uint8_t mode, uint64_t anchor, const uint8_t *flag_store,
                                size_t flag_store_len, float *sample_store,
                                size_t sample_store_len, const float *first, size_t first_len);

/* Feeds flags, and four samples for each: flag p comes with samples 4p + 4 to
 * 4p + 7. What is taken is written into the stores behind what is there; a
 * session that ends leaves the rest of the piece. The stores are those that
 * open was given, and nobody else writes them in between; in modes other than
 * Robot 24 and 36 the sample store may be any, or none. The work memory may
 * hold anything; it comes back as 0 in its extent where a report was made, and
 * else unchanged. Refuses 5, 6, 7, 8, 10. */
funnelivy_fed funnelivy_feed(funnelivy_session session, uint8_t *flag_store, size_t flag_store_len,
                             float *sample_store, size_t sample_store_len, uint8_t *img,
                             size_t img_len, uint16_t *votes, size_t votes_len,
                             const uint8_t *flags, size_t flags_len, const float *samples,
                             size_t samples_len);

/* The end of a session. Refuses 11. */
funnelivy_reading funnelivy_read(funnelivy_session session);

/* Writes a card's 56 bytes. Gives the refusal: 12 (buffer not 56 bytes), 14. A
 * refused call writes to no buffer. What is written reads back as the same
 * card, bit for bit. */
uint32_t funnelivy_write_card(funnelivy_card card, uint8_t *out, size_t out_len);

/* The card that 56 bytes hold. Refuses 12 (not 56 bytes), 13 (another mark or
 * version), 14. A card that is read writes back as the same bytes. */
funnelivy_card_answer funnelivy_read_card(const uint8_t *bytes, size_t bytes_len);

/* The card of an ended session: what read gives, without `windows` and with the
 * slant as its index. Refuses 11. The card of a session is never refused by
 * write_card; that of a record that no call returned may be (a slant that is no
 * angle of the table has the index 254). */
funnelivy_card_answer funnelivy_session_card(funnelivy_session session);

/* The library is for x86-64 alone; elsewhere these are left out and the rest can
 * still be read. It uses no x87 register, so that MXCSR is the whole of its float
 * environment. */
#ifdef __x86_64__

/* MXCSR's control bits, which are DAZ (6), the exception masks (7 to 12), rounding
 * (13, 14) and FTZ (15), and their default. */
#define FUNNELIVY_MXCSR_CONTROL 0xffc0u
#define FUNNELIVY_MXCSR_DEFAULT 0x1f80u

/* 1 if the thread's float environment is the one that the calls need, else 0. */
static inline int funnelivy_float_default(void) {
    return (_mm_getcsr() & FUNNELIVY_MXCSR_CONTROL) == FUNNELIVY_MXCSR_DEFAULT;
}

/* Sets the float environment that the calls need, for this thread, and gives what
 * there was, for funnelivy_float_leave:
 *
 *     unsigned saved = funnelivy_float_enter();
 *     fed = funnelivy_feed(...);
 *     funnelivy_float_leave(saved);
 *
 * The host's own float arithmetic belongs outside: between the two it may be done
 * in either environment. */
static inline unsigned funnelivy_float_enter(void) {
    unsigned saved = _mm_getcsr();
    _mm_setcsr(FUNNELIVY_MXCSR_DEFAULT);
    return saved;
}

/* Sets the environment that enter found, exception flags included: those that the
 * calls raised are gone. */
static inline void funnelivy_float_leave(unsigned saved) {
    _mm_setcsr(saved);
}

#endif

#ifdef __cplusplus
}
#endif

#endif
