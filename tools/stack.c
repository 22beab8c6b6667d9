/* Prints how much stack signal_book_lower takes at most for a book of a list of answers (docs/ANSWERS.md), which stands on standard input. Each
   book is lowered on a thread of its own, whose stack was filled with a pattern; what a thread takes that does nothing is taken off. */
#include "../tests/answers.h"
#include <pthread.h>

enum { STACK = 1 << 20, PATTERN = 0xA5 };
static uint8_t results[LONGEST_RESULTS], diagnostics[LONGEST_DIAGNOSTICS];
static const struct answer *answer;
static uint64_t reply[4];

static void *nothing(void *unused) {
    return unused;
}

static void *lower(void *unused) {
    const struct answer *a = answer;
    signal_book_lower(a->book, a->book_len, results, a->results_len, diagnostics, a->diagnostics_len, reply);
    return unused;
}

/* The bytes of its stack that a thread has written to, from the deepest one on. */
static size_t used(void *(*work)(void *)) {
    static uint8_t *stack;
    pthread_attr_t attr;
    pthread_t thread;
    size_t i = 0;
    if (!stack && !(stack = aligned_alloc(4096, STACK))) exit(2);
    memset(stack, PATTERN, STACK);
    pthread_attr_init(&attr);
    if (pthread_attr_setstack(&attr, stack, STACK) || pthread_create(&thread, &attr, work, 0)) exit(2);
    pthread_join(thread, 0);
    pthread_attr_destroy(&attr);
    while (i < STACK && stack[i] == PATTERN) i++;
    return STACK - i;
}

int main(void) {
    struct list list = read_list();
    const char *name = "";
    size_t most = 0, none = used(nothing);
    for (size_t i = 0; i < list.count; i++) {
        answer = list.answers + i;
        size_t now = used(lower) - none;
        if (now > most) {
            most = now;
            name = answer->name;
        }
    }
    printf("%zu bytes of stack at most, for %s\n", most, name);
    return 0;
}
