/*
 * The C interface from C99 and C++11: layout of the records, known answers, cards,
 * a session from open to read, a refusal of each call, stack, float environment.
 * Prints each check that fails and, last, `N passed, M failed`; before that, if
 * called with an argument, the stack that each call took.
 */
#define _POSIX_C_SOURCE 200809L
#include "test.h"

#include <stdio.h>
#include <stdlib.h>
#include <sys/wait.h>
#include <unistd.h>

static int passed;
static int failed;

void check(int holds, const char *what) {
    if (holds) {
        passed += 1;
    } else {
        failed += 1;
        printf("failed: %s\n", what);
    }
}

void *memory(size_t bytes) {
    void *lent = calloc(bytes, 1);
    if (lent == NULL) {
        puts("no memory");
        exit(2);
    }
    return lent;
}

int apart(int (*what)(void)) {
    int status;
    pid_t child;
    fflush(stdout);
    child = fork();
    if (child == 0) {
        _exit(what());
    }
    if (child < 0 || waitpid(child, &status, 0) != child) {
        puts("no process");
        exit(2);
    }
    return WIFEXITED(status) ? WEXITSTATUS(status) : -1;
}

uint8_t *img;
uint16_t *votes;

int main(int argc, char **argv) {
    unsigned saved;
    (void)argv;
    img = (uint8_t *)memory(FUNNELIVY_IMAGE_BYTES);
    votes = (uint16_t *)memory(FUNNELIVY_VOTE_CELLS * sizeof(uint16_t));
    test_float_at_start();
    /* For the program that is linked with -ffast-math. */
    saved = funnelivy_float_enter();
    test_layout();
    test_calls();
    test_cards();
    test_sessions();
    test_stack(argc > 1);
    test_float();
    funnelivy_float_leave(saved);
    free(votes);
    free(img);
    printf("%d passed, %d failed\n", passed, failed);
    return failed == 0 ? 0 : 1;
}
