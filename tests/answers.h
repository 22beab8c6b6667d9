/* The library's own header, and the list of answers (docs/ANSWERS.md): it is read from standard input, once, into memory that cannot be written
   afterwards. This file comes before every other one that is included. */
#ifndef ANSWERS_H
#define ANSWERS_H
#define _GNU_SOURCE
#include "../include/signal_book.h"
#include <stdio.h>
#include <stdlib.h>
#include <string.h>
#include <sys/mman.h>
#include <sys/stat.h>
#include <unistd.h>

/* Lengths in bytes: of a record, of the used limits, and the longest that the list has of a book and of either slice. */
enum { RECORD = SIGNAL_BOOK_RECORD, RESULTS_LIMIT = SIGNAL_BOOK_RESULTS_LIMIT, DIAGNOSTICS_LIMIT = SIGNAL_BOOK_DIAGNOSTICS_LIMIT };
enum { LONGEST_BOOK = 33280, LONGEST_RESULTS = 49200, LONGEST_DIAGNOSTICS = 6192, LONGEST = LONGEST_RESULTS };

/* What is put around a region that is lent, so that a byte written there shows. */
enum { FRINGE = 0xC3 };

/* A book with the lengths that are lent, the four words of the reply, and the bytes at the front of each slice that are not as lent at exit. */
struct answer {
    char name[25];
    const uint8_t *book, *results, *diagnostics;
    size_t book_len, results_len, diagnostics_len;
    size_t results_written, diagnostics_written;
    uint64_t reply[4];
};

struct list {
    struct answer *answers;
    size_t count;
};

/* Both slices as lent, and zero bytes; read_list fills the first two. */
static uint8_t lent_results[LONGEST], lent_diagnostics[LONGEST];
static const uint8_t zeros[LONGEST];

/* Ends the program where what it needs is not there. */
static inline _Noreturn void missing(const char *what) {
    fprintf(stderr, "%s\n", what);
    exit(2);
}

static inline void *memory(size_t size) {
    void *at = mmap(0, size, PROT_READ | PROT_WRITE, MAP_PRIVATE | MAP_ANONYMOUS, -1, 0);
    if (at == MAP_FAILED) missing("no memory");
    return at;
}

/* The whole of an open file that is no pipe. */
static inline uint8_t *whole_file(int file, size_t *size) {
    struct stat about;
    if (fstat(file, &about) || !S_ISREG(about.st_mode) || about.st_size == 0) missing("standard input is not a list of answers");
    uint8_t *bytes = memory(*size = (size_t)about.st_size);
    for (size_t got = 0; got < *size;) {
        ssize_t more = read(file, bytes + got, *size - got);
        if (more <= 0) missing("the list cannot be read to its end");
        got += (size_t)more;
    }
    return bytes;
}

/* The next n bytes of the list, of which *left are left. */
static inline const uint8_t *take(const uint8_t **at, size_t *left, size_t n) {
    const uint8_t *taken = *at;
    if (n > *left) missing("the list ends too early");
    *at += n;
    *left -= n;
    return taken;
}

static inline uint32_t number(const uint8_t *at) {
    return at[0] | at[1] << 8 | at[2] << 16 | (uint32_t)at[3] << 24;
}

static inline void read_answer(struct answer *a, const uint8_t **at, size_t *left) {
    const uint8_t *header = take(at, left, 64);
    memcpy(a->name, header, 24);
    a->book_len = number(header + 24);
    a->results_len = number(header + 28);
    a->diagnostics_len = number(header + 32);
    a->results_written = number(header + 56);
    a->diagnostics_written = number(header + 60);
    uint32_t cause = number(header + 36);
    if (cause > 10 || a->book_len > LONGEST_BOOK || a->results_len > LONGEST_RESULTS || a->diagnostics_len > LONGEST_DIAGNOSTICS ||
        a->results_written > a->results_len || a->diagnostics_written > a->diagnostics_len) {
        missing("the list has a cause or a length that no answer has");
    }
    a->book = take(at, left, a->book_len);
    a->results = cause ? zeros : take(at, left, a->results_written);
    a->diagnostics = cause ? zeros : take(at, left, a->diagnostics_written);
    a->reply[0] = cause;
    a->reply[1] = number(header + (cause ? 40 : 44));
    a->reply[2] = cause ? 0 : number(header + 48);
    a->reply[3] = cause ? 0 : number(header + 52);
}

static inline struct list read_list(void) {
    size_t size, left;
    uint8_t *bytes = whole_file(STDIN_FILENO, &size);
    const uint8_t *at = bytes;
    left = size;
    for (size_t i = 0; i < LONGEST; i++) {
        lent_results[i] = (uint8_t)(5 * i + 17);
        lent_diagnostics[i] = (uint8_t)(3 * i + 29);
    }
    const uint8_t *head = take(&at, &left, 16);
    if (memcmp(head, "answers\n", 8) || number(head + 8) == 0 || number(head + 8) > left / 64) missing("standard input is not a list of answers");
    struct list list = {memory(number(head + 8) * sizeof(struct answer)), number(head + 8)};
    for (size_t i = 0; i < list.count; i++) read_answer(list.answers + i, &at, &left);
    if (left) missing("the list goes on behind its last answer");
    if (mprotect(bytes, size, PROT_READ)) missing("the list cannot be made read-only");
    return list;
}

static inline const struct answer *answer_named(const struct list *list, const char *name) {
    for (size_t i = 0; i < list->count; i++) {
        if (strcmp(list->answers[i].name, name) == 0) return list->answers + i;
    }
    fprintf(stderr, "the list has no answer %s\n", name);
    exit(2);
}

/* Whether n bytes are `front` as far as `written` bytes go, and as lent behind them. */
static inline int as_told(const uint8_t *is, size_t n, const uint8_t *front, size_t written, const uint8_t *lent) {
    return memcmp(is, front, written) == 0 && memcmp(is + written, lent + written, n - written) == 0;
}
#endif
