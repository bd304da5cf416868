/* Layout of the records and heads of the calls, held beside the sources. */
#include "test.h"

#include <string.h>

/* Each call once more, as the Rattle source has it: the compiler refuses one that
 * differs from the header's. */
#ifdef __cplusplus
extern "C" {
#endif
#include "signatures.h"
#ifdef __cplusplus
}
#endif

/* A 1 in a whole number shows in its first byte, in a float it does not. */
static int first_byte(const void *record, size_t offset) {
    return ((const unsigned char *)record)[offset];
}

#define PLACE(record, field, offset, size)                                             \
    check(offsetof(record, field) == (offset) && sizeof(((record *)0)->field) == (size), \
          #record "." #field " stands at " #offset " with " #size " bytes")
#define KIND(record, field, offset, byte)                                     \
    do {                                                                      \
        record r;                                                             \
        memset(&r, 0, sizeof r);                                              \
        r.field = 1;                                                          \
        check(first_byte(&r, offset) == (byte), #record "." #field "'s type"); \
    } while (0)
#define WHOLE(record, field, offset, size) \
    PLACE(record, field, offset, size);    \
    KIND(record, field, offset, 1);
#define FLOATING(record, field, offset, size) \
    PLACE(record, field, offset, size);       \
    KIND(record, field, offset, 0);
#define RECORD(record, field, offset, size) PLACE(record, field, offset, size);
#define SIZE(record, size) check(sizeof(record) == (size), #record " has " #size " bytes");

/* Against the Rattle source and the Rust declarations, through layout.awk. */
static void layout_of_the_sources(void) {
#include "layout.h"
}

/* Against the numbers that hosts were built with. */
static void layout_as_released(void) {
    SIZE(funnelivy_session, 88)
    SIZE(funnelivy_opened, 96)
    SIZE(funnelivy_fed, 104)
    SIZE(funnelivy_reading, 72)
    SIZE(funnelivy_report_answer, 40)
    SIZE(funnelivy_sizes_answer, 24)
    SIZE(funnelivy_columns_answer, 16)
    SIZE(funnelivy_window_answer, 32)
    SIZE(funnelivy_quality_answer, 8)
    SIZE(funnelivy_decision_answer, 8)
    SIZE(funnelivy_card, 56)
    SIZE(funnelivy_card_answer, 64)
    /* These took bytes that were free, so that no size shows them. */
    WHOLE(funnelivy_session, windows, 80, 2)
    WHOLE(funnelivy_session, mode, 82, 1)
    WHOLE(funnelivy_reading, windows, 68, 4)
}

void test_layout(void) {
    layout_of_the_sources();
    layout_as_released();
}
