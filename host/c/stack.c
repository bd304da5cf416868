/*
 * Each call on a stack of the size that the header states, with a guard page
 * below it, in a process of its own.
 */
#ifndef _GNU_SOURCE
#define _GNU_SOURCE
#endif
#include "test.h"

#include <stdio.h>
#include <stdlib.h>
#include <string.h>
#include <sys/mman.h>
#include <ucontext.h>

/* The header's figures were measured with gcc 12; another compiler's calls may take
 * more. */
#if defined(__GNUC__) && __GNUC__ == 12 && !defined(__clang__)
enum { FIGURES_HOLD = 1 };
#else
enum { FIGURES_HOLD = 0 };
#endif

/* ---- the calls, on arguments that lead to the deepest place */

static picture sender;
static funnelivy_session opened, reported;
static uint32_t counts[700];
static float sound[16], buffer[512], spectrum[258];
static funnelivy_card card;
static uint8_t bytes[FUNNELIVY_CARD_BYTES];

static int call_sizes(void) {
    return funnelivy_sizes(4).picture == 99225;
}

static int call_columns(void) {
    return funnelivy_columns(4, 700).columns == 42;
}

static int call_window(void) {
    return funnelivy_window(counts, 700, 42).sum == 42;
}

static int call_quality(void) {
    return funnelivy_quality(counts, 700, 4, 1).quality == 1.0f;
}

static int call_edge(void) {
    return funnelivy_edge(counts, 700).columns == 342;
}

static int call_find_sync(void) {
    return funnelivy_find_sync(sender.flags, sender.flags_len, 11000.0, 4, img,
                               FUNNELIVY_IMAGE_BYTES, votes, FUNNELIVY_VOTE_CELLS)
               .has_slant == 1;
}

static int call_sync_window(void) {
    return funnelivy_sync_window(sound, 16, 8, buffer, 512) == 0;
}

static int call_has_sync(void) {
    return funnelivy_has_sync(spectrum, 258, 0.0).has_sync == 1;
}

static int call_open(void) {
    return open_picture(sender).refusal == 0;
}

/* Evaluates, locates with parity tones, collects and reports. */
static int call_feed(void) {
    return feed_picture(opened, sender).session.phase == 2;
}

static int call_read(void) {
    return funnelivy_read(reported).end == 0;
}

static int call_write_card(void) {
    return funnelivy_write_card(card, bytes, FUNNELIVY_CARD_BYTES) == 0;
}

static int call_read_card(void) {
    return funnelivy_read_card(bytes, FUNNELIVY_CARD_BYTES).card.slant == card.slant;
}

static int call_session_card(void) {
    return funnelivy_session_card(reported).card.start == card.start;
}

static const struct {
    const char *name;
    int (*call)(void);
    size_t bytes;
    size_t measured;
} calls[] = {
    {"sizes", call_sizes, FUNNELIVY_SMALL_STACK_BYTES, 499},
    {"columns", call_columns, FUNNELIVY_SMALL_STACK_BYTES, 499},
    {"window", call_window, FUNNELIVY_SMALL_STACK_BYTES, 499},
    {"quality", call_quality, FUNNELIVY_SMALL_STACK_BYTES, 499},
    {"edge", call_edge, FUNNELIVY_SMALL_STACK_BYTES, 499},
    {"find_sync", call_find_sync, FUNNELIVY_STACK_BYTES, 20400},
    {"sync_window", call_sync_window, FUNNELIVY_SMALL_STACK_BYTES, 499},
    {"has_sync", call_has_sync, FUNNELIVY_SMALL_STACK_BYTES, 499},
    {"open", call_open, FUNNELIVY_SMALL_STACK_BYTES, 499},
    {"feed", call_feed, FUNNELIVY_STACK_BYTES, 43600},
    {"read", call_read, FUNNELIVY_SMALL_STACK_BYTES, 499},
    {"write_card", call_write_card, FUNNELIVY_SMALL_STACK_BYTES, 499},
    {"read_card", call_read_card, FUNNELIVY_SMALL_STACK_BYTES, 499},
    {"session_card", call_session_card, FUNNELIVY_SMALL_STACK_BYTES, 499},
};

/* ---- the stack */

enum { PAGE = 4096, PAINT = 0xa5 };

static struct {
    unsigned char *low; /* above the guard page */
    size_t bytes;
    int (*call)(void);
    int holds;
} on;

static void entry(void) {
    on.holds = on.call();
}

static int on_stack(void) {
    ucontext_t back, there;
    if (getcontext(&there) != 0) {
        return 2;
    }
    there.uc_stack.ss_sp = on.low;
    there.uc_stack.ss_size = on.bytes;
    there.uc_link = &back;
    makecontext(&there, entry, 0);
    if (swapcontext(&back, &there) != 0) {
        return 2;
    }
    return on.holds ? 0 : 1;
}

/* 0 if the call answers rightly on a stack of so many bytes, 1 if wrongly, -1 if it
 * is stopped at the guard page. `depth` is how far down the stack was written. */
static int try_stack(int (*call)(void), size_t bytes, size_t *depth) {
    void *map = mmap(NULL, PAGE + bytes, PROT_READ | PROT_WRITE, MAP_SHARED | MAP_ANONYMOUS, -1, 0);
    size_t clean = 0;
    int result;
    if (map == MAP_FAILED || mprotect(map, PAGE, PROT_NONE) != 0) {
        puts("no stack");
        exit(2);
    }
    on.low = (unsigned char *)map + PAGE;
    on.bytes = bytes;
    on.call = call;
    memset(on.low, PAINT, bytes);
    result = apart(on_stack);
    while (clean < bytes && on.low[clean] == PAINT) {
        clean += 1;
    }
    *depth = bytes - clean;
    munmap(map, PAGE + bytes);
    return result;
}

void test_stack(int print) {
    size_t i, depth;
    sender = make_picture(0.5);
    opened = open_picture(sender).session;
    reported = feed_picture(opened, sender).session;
    card = funnelivy_session_card(reported).card;
    CHECK(card.end == 0 && funnelivy_write_card(card, bytes, sizeof bytes) == 0);
    for (i = 300; i < 342; i++) {
        counts[i] = 1;
    }
    sound[8] = 0.5f;
    spectrum[54] = 1.0f;
    for (i = 0; i < sizeof calls / sizeof calls[0]; i++) {
        check(try_stack(calls[i].call, calls[i].bytes, &depth) == 0, calls[i].name);
        if (print || (FIGURES_HOLD && depth > calls[i].measured)) {
            printf("%s: %zu bytes of stack\n", calls[i].name, depth);
        }
        check(!FIGURES_HOLD || depth <= calls[i].measured, "the stack that the header says");
    }
    /* The guard page is there. */
    CHECK(try_stack(call_feed, 32768, &depth) == -1);
    CHECK(try_stack(call_find_sync, 16384, &depth) == -1);
    free_picture(sender);
}
