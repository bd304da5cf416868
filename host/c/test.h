/* What the files of the C test share. */
#ifndef TEST_H
#define TEST_H

#include "funnelivy.h"

/* Counts a check, and prints it if it does not hold. */
void check(int holds, const char *what);
#define CHECK(condition) check((condition), #condition)

/* Memory of zeros. */
void *memory(size_t bytes);

/* The result of `what`, 0 to 255, in a process of its own; -1 if a signal ended it. */
int apart(int (*what)(void));

/* Work memory of find_sync and feed. */
extern uint8_t *img;
extern uint16_t *votes;

/* The sound of one Robot 36 picture whose first line is odd, as flags and samples,
 * and stores for a session. The first pulse is at flag 700. */
typedef struct {
    size_t flags_len, samples_len;
    uint8_t *flags, *flag_store;
    float *samples, *sample_store;
} picture;

/* With separator tones of the amplitude given. */
picture make_picture(double amplitude);
void free_picture(picture p);

/* A session over it, and all its flags in one piece. */
funnelivy_opened open_picture(picture p);
funnelivy_fed feed_picture(funnelivy_session session, picture p);

/* Whether all fields are the same, floats bit for bit. */
int same_card(funnelivy_card a, funnelivy_card b);

/* Whether the answer is this refusal, with 0 in every other field. */
int refused_card(funnelivy_card_answer answer, uint32_t refusal);

/* One subject and one file each. */
void test_layout(void);
void test_calls(void);
void test_cards(void);
void test_sessions(void);
void test_stack(int print);
void test_float_at_start(void);
void test_float(void);

#endif
