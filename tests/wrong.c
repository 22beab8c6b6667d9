/* A wrong library in the place of the right one. The linker (-Wl,--wrap=signal_book_lower) sends every call here; it goes on to the right
   function, and one thing beside that is wrong, which -DWRONG chooses by its name below. */
#include "answers.h"
#include <sched.h>
#include <stdatomic.h>

/* One byte outside a region, and what is done to it: read; written with another value than it has; written with the same value, which shows by
   a fault alone; written with another value only where the page goes on, so that no guard page is met. */
enum { BEHIND_BOOK, BEFORE_BOOK, BEHIND_RESULTS, BEFORE_RESULTS, BEHIND_DIAGNOSTICS, BEFORE_DIAGNOSTICS, BEHIND_REPLY, BEFORE_REPLY, SPOTS };
enum { READ, CHANGE, REWRITE, CHANGE_UNGUARDED, MANNERS };
#define TOUCHES(spot, manner) ((spot) * MANNERS + (manner))

enum {
    NOTHING = SPOTS * MANNERS,
    REWRITES_BOOK,
    LAST_RESULT_NOT_ZEROED,
    LAST_DIAGNOSTIC_NOT_ZEROED,
    RESULTS_ZEROED_TO_THE_END,
    DIAGNOSTICS_ZEROED_TO_THE_END,
    RESULTS_CHANGED_BEHIND_THE_LAST,
    DIAGNOSTICS_CHANGED_BEHIND_THE_LAST,
    RECORD_OF_23_IN_RESULTS,
    RECORD_OF_23_IN_DIAGNOSTICS,
    TEN_WHERE_IT_JUST_FITS,
    TEN_AT_THE_NEXT_PLACE,
    LAST_WORDS_LEFT,
    READS_BOOK_OF_LENGTH_0,
    READS_RESULTS_OF_LENGTH_0,
    READS_DIAGNOSTICS_OF_LENGTH_0,
    NULL_RESULTS_REFUSED,
    REPLY_OF_THE_LAST_CALL,
    SHARED_BUFFER,
    ALIGNS_BOOK,
    ALIGNS_RESULTS,
    ALIGNS_DIAGNOSTICS,
    ALIGNS_REPLY,
    ONE_IN_A_MILLION,
    LEAK,
};

struct call {
    const uint8_t *book;
    size_t book_len;
    uint8_t *results;
    size_t results_len;
    uint8_t *diagnostics;
    size_t diagnostics_len;
    uint64_t *reply;
};

void __real_signal_book_lower(const uint8_t *, size_t, uint8_t *, size_t, uint8_t *, size_t, uint64_t *);
void __wrap_signal_book_lower(const uint8_t *, size_t, uint8_t *, size_t, uint8_t *, size_t, uint64_t *);

static void right(const struct call *c) {
    __real_signal_book_lower(c->book, c->book_len, c->results, c->results_len, c->diagnostics, c->diagnostics_len, c->reply);
}

/* The address of a spot: a spot behind a region is its end, one before it the byte before its first. */
static volatile uint8_t *spot_of(const struct call *c, int spot) {
    uint8_t *ends[SPOTS] = {(uint8_t *)(uintptr_t)c->book + c->book_len, (uint8_t *)(uintptr_t)c->book,
                            c->results + c->results_len, c->results, c->diagnostics + c->diagnostics_len, c->diagnostics,
                            (uint8_t *)(c->reply + 4), (uint8_t *)c->reply};
    return spot % 2 ? ends[spot] - 1 : ends[spot];
}

static void touch(const struct call *c, int spot, int manner) {
    volatile uint8_t *at = spot_of(c, spot);
    uintptr_t edge = (uintptr_t)at + spot % 2;
    if (manner == READ) (void)*at;
    if (manner == CHANGE) *at = FRINGE ^ 1;
    if (manner == REWRITE) *at = FRINGE;
    if (manner == CHANGE_UNGUARDED && edge % 4096) *at = FRINGE ^ 1;
}

static size_t whole(size_t len, size_t limit) {
    return (len < limit ? len : limit) / RECORD * RECORD;
}

/* The right call, but the last whole record of a slice is as it was if the book is refused by 10. */
static void last_not_zeroed(const struct call *c, uint8_t *slice, size_t used) {
    uint8_t last[RECORD];
    if (used) memcpy(last, slice + used - RECORD, RECORD);
    right(c);
    if (used && c->reply[0] == 10) memcpy(slice + used - RECORD, last, RECORD);
}

/* The right call, with one byte more for a slice whose length is one short of whole records. That byte lies in a copy. */
static void record_of_23(const struct call *c, uint8_t **slice, size_t *len) {
    static uint8_t copy[LONGEST + 1];
    uint8_t *lent = *slice;
    size_t short_len = *len;
    if (short_len % RECORD == RECORD - 1) {
        memcpy(copy, lent, short_len);
        *slice = copy;
        *len = short_len + 1;
    }
    right(c);
    if (*slice == copy) memcpy(lent, copy, short_len);
}

/* Lowers into memory of its own, which all threads share, and copies it out. */
static void through_shared_buffer(const struct call *c) {
    static uint8_t results[LONGEST], diagnostics[LONGEST];
    struct call own = *c;
    own.results = results;
    own.diagnostics = diagnostics;
    if (c->results_len) memcpy(results, c->results, c->results_len);
    if (c->diagnostics_len) memcpy(diagnostics, c->diagnostics, c->diagnostics_len);
    right(&own);
    sched_yield();
    if (c->results_len) memcpy(c->results, results, c->results_len);
    if (c->diagnostics_len) memcpy(c->diagnostics, diagnostics, c->diagnostics_len);
}

/* Every thousandth call answers what the call before it answered. */
static void with_a_past(const struct call *c) {
    static atomic_size_t calls;
    static uint64_t before[4];
    right(c);
    if (atomic_fetch_add(&calls, 1) % 1000 == 999) memcpy(c->reply, before, sizeof before);
    memcpy(before, c->reply, sizeof before);
}

static void one_in_a_million(const struct call *c) {
    static size_t calls;
    right(c);
    c->reply[1] += ++calls % 1000000 == 0;
}

/* The right call, and words 2 and 3 as they were if the book is refused. */
static void last_words_left(const struct call *c) {
    uint64_t words[2] = {c->reply[2], c->reply[3]};
    right(c);
    if (c->reply[0]) memcpy(c->reply + 2, words, sizeof words);
}

/* The right call, but a book that fills the results to their last byte is refused by 10. */
static void ten_where_it_just_fits(const struct call *c) {
    right(c);
    if (c->reply[0] || RECORD * c->reply[1] != c->results_len || !c->results_len) return;
    memset(c->results, 0, c->results_len);
    memcpy(c->reply, (uint64_t[4]){10, 0, 0, 0}, 32);
}

static void *aligned(const void *at) {
    return (void *)((uintptr_t)at & ~(uintptr_t)7);
}

/* What is wrong before the right call, or in it; whether the call is done. */
static int in_its_place(struct call *c) {
    static void *volatile leaked;
    switch (WRONG) {
    case LAST_RESULT_NOT_ZEROED: last_not_zeroed(c, c->results, whole(c->results_len, RESULTS_LIMIT)); return 1;
    case LAST_DIAGNOSTIC_NOT_ZEROED: last_not_zeroed(c, c->diagnostics, whole(c->diagnostics_len, DIAGNOSTICS_LIMIT)); return 1;
    case RECORD_OF_23_IN_RESULTS: record_of_23(c, &c->results, &c->results_len); return 1;
    case RECORD_OF_23_IN_DIAGNOSTICS: record_of_23(c, &c->diagnostics, &c->diagnostics_len); return 1;
    case SHARED_BUFFER: through_shared_buffer(c); return 1;
    case REPLY_OF_THE_LAST_CALL: with_a_past(c); return 1;
    case ONE_IN_A_MILLION: one_in_a_million(c); return 1;
    case LAST_WORDS_LEFT: last_words_left(c); return 1;
    case TEN_WHERE_IT_JUST_FITS: ten_where_it_just_fits(c); return 1;
    case ALIGNS_BOOK: c->book = aligned(c->book); return 0;
    case ALIGNS_RESULTS: c->results = aligned(c->results); return 0;
    case ALIGNS_DIAGNOSTICS: c->diagnostics = aligned(c->diagnostics); return 0;
    case ALIGNS_REPLY: c->reply = aligned(c->reply); return 0;
    case READS_BOOK_OF_LENGTH_0: if (!c->book_len) (void)*(const volatile uint8_t *)c->book; return 0;
    case READS_RESULTS_OF_LENGTH_0: if (!c->results_len) (void)*(volatile uint8_t *)c->results; return 0;
    case READS_DIAGNOSTICS_OF_LENGTH_0: if (!c->diagnostics_len) (void)*(volatile uint8_t *)c->diagnostics; return 0;
    case REWRITES_BOOK: if (c->book_len) *(volatile uint8_t *)(uintptr_t)c->book = *c->book; return 0;
    case LEAK: leaked = malloc(16); return leaked == 0;
    default: return 0;
    }
}

/* What is wrong behind the right call. */
static void afterwards(const struct call *c) {
    size_t results = c->reply[0] ? c->results_len : RECORD * c->reply[1];
    size_t diagnostics = c->reply[0] ? c->diagnostics_len : RECORD * c->reply[2];
    int ten = c->reply[0] == 10;
    if (WRONG < NOTHING) touch(c, WRONG / MANNERS, WRONG % MANNERS);
    if (WRONG == RESULTS_ZEROED_TO_THE_END && ten && c->results_len) memset(c->results, 0, c->results_len);
    if (WRONG == DIAGNOSTICS_ZEROED_TO_THE_END && ten && c->diagnostics_len) memset(c->diagnostics, 0, c->diagnostics_len);
    if (WRONG == RESULTS_CHANGED_BEHIND_THE_LAST && results < c->results_len) c->results[results] ^= 1;
    if (WRONG == DIAGNOSTICS_CHANGED_BEHIND_THE_LAST && diagnostics < c->diagnostics_len) c->diagnostics[diagnostics] ^= 1;
    if (WRONG == TEN_AT_THE_NEXT_PLACE && ten) c->reply[1]++;
    if (WRONG == NULL_RESULTS_REFUSED && !c->results) memcpy(c->reply, (uint64_t[4]){10, 0, 0, 0}, 32);
}

void __wrap_signal_book_lower(const uint8_t *book, size_t book_len, uint8_t *results, size_t results_len, uint8_t *diagnostics,
                              size_t diagnostics_len, uint64_t *reply) {
    struct call c = {book, book_len, results, results_len, diagnostics, diagnostics_len, reply};
    if (in_its_place(&c)) return;
    right(&c);
    afterwards(&c);
}
