/* Holds include/signal_book.h to the library: its lengths and limits, causes and their words, kinds, none and poison, and its reader of records. The
   list of answers (docs/ANSWERS.md) stands on standard input. Prints what was tried, or the first thing that is wrong, and then ends with 1. */
#include "answers.h"
#include <stdarg.h>

enum { KINDS = 256, CAUSES = 10, MESSAGES = 6, OF_A_CONSTANT = 5 };
static struct list list;
static uint8_t results[LONGEST_RESULTS], diagnostics[LONGEST_DIAGNOSTICS];
static uint64_t reply[4];

__attribute__((format(printf, 1, 2))) static _Noreturn void wrong(const char *form, ...) {
    va_list words;
    printf("header: wrong: ");
    va_start(words, form);
    vprintf(form, words);
    va_end(words);
    putchar('\n');
    exit(1);
}

/* Lowers the book of an answer into slices of the given lengths. */
static void lower(const struct answer *a, size_t results_len, size_t diagnostics_len) {
    memcpy(results, lent_results, sizeof results);
    memcpy(diagnostics, lent_diagnostics, sizeof diagnostics);
    memset(reply, FRINGE, sizeof reply);
    signal_book_lower(a->book, a->book_len, results, results_len, diagnostics, diagnostics_len, reply);
}

/* ---- the reader of records ---- */

/* Record 1 of a slice at an odd address, of the bytes E8 to FF. */
static void try_reader(void) {
    _Alignas(8) uint8_t bytes[96] = {0};
    for (int i = 0; i < 24; i++) bytes[1 + 24 + i] = (uint8_t)(0xE8 + i);
    struct signal_book_record r = signal_book_record_at(bytes + 1, 1);
    if (r.kind != 0xE8 || r.sub != 0xE9) wrong("the reader of records: kind or sub");
    if (r.a != 0xEBEA || r.b != 0xEDEC || r.c != 0xEFEE) wrong("the reader of records: a %04X, b %04X, c %04X", r.a, r.b, r.c);
    if (r.v != 0xF7F6F5F4F3F2F1F0) wrong("the reader of records: v %lX", r.v);
    if (r.span_offset != 0xFBFAF9F8 || r.span_length != 0xFFFEFDFC) wrong("the reader of records: span");
}

/* ---- lengths and limits ---- */

/* Books of zeros, of every length up to that of the longest slice: one that has whole blocks, and not too many, has a wrong check. */
static void try_lengths(void) {
    for (size_t len = 0; len <= LONGEST; len++) {
        int right = len != 0 && len <= SIGNAL_BOOK_LONGEST && len % SIGNAL_BOOK_BLOCK == 0;
        uint64_t cause = right ? SIGNAL_BOOK_CAUSE_CHECK : SIGNAL_BOOK_CAUSE_BOOK_LENGTH;
        signal_book_lower(zeros, len, 0, 0, 0, 0, reply);
        if (reply[0] != cause) wrong("a book of %zu zero bytes is refused by %lu, not by %lu", len, reply[0], cause);
    }
}

/* How far a slice goes that is not as lent. No last byte of a record is lent as 0. */
static size_t changed(const uint8_t *slice, const uint8_t *lent, size_t len) {
    while (len > 0 && slice[len - 1] == lent[len - 1]) len--;
    return len;
}

/* A book that is accepted or refused, lowered into slices longer than the limits, changes so many bytes of each. */
static void try_extent(const char *name, uint64_t cause, size_t of_results, size_t of_diagnostics) {
    lower(answer_named(&list, name), sizeof results, sizeof diagnostics);
    size_t r = changed(results, lent_results, sizeof results), d = changed(diagnostics, lent_diagnostics, sizeof diagnostics);
    if (reply[0] != cause) wrong("%s: the reply is %lu, not %lu", name, reply[0], cause);
    if (r != of_results) wrong("%s: %zu bytes of the results are written, not %zu", name, r, of_results);
    if (d != of_diagnostics) wrong("%s: %zu bytes of the diagnostics are written, not %zu", name, d, of_diagnostics);
}

static void try_limits(void) {
    try_extent("K1", 0, 4 * SIGNAL_BOOK_RECORD, 0);
    try_extent("K2", 0, 2 * SIGNAL_BOOK_RECORD, SIGNAL_BOOK_RECORD);
    try_extent("results-2048-of-49152", 0, SIGNAL_BOOK_RESULTS_LIMIT, 0);
    try_extent("told-256-of-6144", 0, 512 * SIGNAL_BOOK_RECORD, SIGNAL_BOOK_DIAGNOSTICS_LIMIT);
    try_extent("results-2049-of-49152", SIGNAL_BOOK_CAUSE_FULL, SIGNAL_BOOK_RESULTS_LIMIT, SIGNAL_BOOK_DIAGNOSTICS_LIMIT);
    try_extent("told-257-of-6144", SIGNAL_BOOK_CAUSE_FULL, SIGNAL_BOOK_RESULTS_LIMIT, SIGNAL_BOOK_DIAGNOSTICS_LIMIT);
    try_extent("resolving-65-newtype", SIGNAL_BOOK_CAUSE_TOO_DEEP, SIGNAL_BOOK_RESULTS_LIMIT, SIGNAL_BOOK_DIAGNOSTICS_LIMIT);
}

/* ---- causes ---- */

/* A book that each cause refuses, and a word that says it. */
static void try_causes(void) {
    static const struct { uint64_t cause; const char *name, *word; } refused[CAUSES] = {
        {SIGNAL_BOOK_CAUSE_BOOK_LENGTH, "65-blocks", "length"},
        {SIGNAL_BOOK_CAUSE_CHECK, "check-ffff-for-0000", "check"},
        {SIGNAL_BOOK_CAUSE_BLOCK, "3-unused-place", "must be zero"},
        {SIGNAL_BOOK_CAUSE_SHAPE, "4-kind-0", "unknown kind"},
        {SIGNAL_BOOK_CAUSE_CHILD, "5-record-1343", "child"},
        {SIGNAL_BOOK_CAUSE_FOLLOW, "field-before-variant", "may not stand"},
        {SIGNAL_BOOK_CAUSE_NAME, "name-again", "name"},
        {SIGNAL_BOOK_CAUSE_DEPTH, "depth-65-type", "tree"},
        {SIGNAL_BOOK_CAUSE_TOO_DEEP, "resolving-65-newtype", "resolve"},
        {SIGNAL_BOOK_CAUSE_FULL, "K1-results-95", "no room"},
    };
    for (int i = 0; i < CAUSES; i++) {
        const struct answer *a = answer_named(&list, refused[i].name);
        const char *words = signal_book_cause(refused[i].cause);
        lower(a, a->results_len, a->diagnostics_len);
        if (reply[0] != refused[i].cause) wrong("%s: the cause is %lu, not %lu", a->name, reply[0], refused[i].cause);
        if (reply[0] != (uint64_t)i + 1) wrong("%s: the cause is %lu, not %d", a->name, reply[0], i + 1);
        if (!strstr(words, refused[i].word)) wrong("the words of cause %d are: %s", i + 1, words);
    }
    if (strcmp(signal_book_cause(0), "no cause") || strcmp(signal_book_cause(CAUSES + 1), "no cause")) wrong("there are words for 0 or 11");
}

/* ---- the records of every accepted answer ---- */

/* A kind of the results: how many subs there are, and what a, b and c hold: t a type, k a constraint, o an operand, T and K the same or none,
   0 nothing, and * anything. */
static const struct shape { uint8_t kind, subs; const char *fields; } shapes[] = {
    {SIGNAL_BOOK_KIND_PRIMITIVE, 14, "000"}, {SIGNAL_BOOK_KIND_SUB_BYTE, 2, "*00"}, {SIGNAL_BOOK_KIND_SEMANTIC, 6, "000"},
    {SIGNAL_BOOK_KIND_NAMED, 1, "000"}, {SIGNAL_BOOK_KIND_ONE_CHILD, 10, "t00"}, {SIGNAL_BOOK_KIND_TWO_CHILDREN, 2, "tt0"},
    {SIGNAL_BOOK_KIND_INLINE_BITS, 1, "*00"}, {SIGNAL_BOOK_KIND_LOGIC, 3, "k*0"}, {SIGNAL_BOOK_KIND_COMPARISON, 6, "o0*"},
    {SIGNAL_BOOK_KIND_RANGE, 2, "oo*"}, {SIGNAL_BOOK_KIND_OPERAND, 6, "*00"}, {SIGNAL_BOOK_KIND_ALIAS, 1, "*t0"},
    {SIGNAL_BOOK_KIND_CONSTANT, 2, "*t0"}, {SIGNAL_BOOK_KIND_MESSAGE, 1, "*00"}, {SIGNAL_BOOK_KIND_UNION, 1, "*00"},
    {SIGNAL_BOOK_KIND_VARIANT, 1, "*00"}, {SIGNAL_BOOK_KIND_FIELD, 1, "*tK"}, {SIGNAL_BOOK_KIND_ENCODING, 3, "**0"},
    {SIGNAL_BOOK_KIND_TOMBSTONE, 2, "**T"}, {SIGNAL_BOOK_KIND_NEWTYPE, 1, "*t0"},
};
enum { SHAPES = sizeof shapes / sizeof *shapes };

/* Which letter a record is that another one names. */
static char group_of(uint8_t kind) {
    switch (kind) {
    case SIGNAL_BOOK_KIND_LOGIC:
    case SIGNAL_BOOK_KIND_COMPARISON:
    case SIGNAL_BOOK_KIND_RANGE: return 'k';
    case SIGNAL_BOOK_KIND_OPERAND: return 'o';
    default: return kind < SIGNAL_BOOK_KIND_LOGIC ? 't' : '*';
    }
}

/* Whether a field of result `number` holds what its letter says. */
static int holds(char letter, uint16_t field, size_t number) {
    if (letter == '*') return 1;
    if (letter == '0') return field == 0;
    if ((letter == 'T' || letter == 'K') && field == SIGNAL_BOOK_NONE) return 1;
    return field < number && group_of(signal_book_record_at(results, field).kind) == (letter | 0x20);
}

static void try_shape(const char *name, size_t number, const struct signal_book_record *r) {
    const struct shape *s = shapes;
    while (s < shapes + SHAPES && s->kind != r->kind) s++;
    if (s == shapes + SHAPES) wrong("%s: result %zu has kind %d, which the header does not name", name, number, r->kind);
    if (r->sub >= s->subs) wrong("%s: result %zu of kind %d has sub %d", name, number, r->kind, r->sub);
    if (!holds(s->fields[0], r->a, number) || !holds(s->fields[1], r->b, number) || !holds(s->fields[2], r->c, number)) {
        wrong("%s: result %zu of kind %d has a %d, b %d, c %d", name, number, r->kind, r->a, r->b, r->c);
    }
    if (r->kind == SIGNAL_BOOK_KIND_NAMED && r->v != SIGNAL_BOOK_POISON && r->v > UINT16_MAX) wrong("%s: type number %lu", name, r->v);
}

/* The records of a book, by kind. */
static void count_book(const struct answer *a, size_t counts[KINDS]) {
    for (const uint8_t *block = a->book; block < a->book + a->book_len; block += SIGNAL_BOOK_BLOCK) {
        for (size_t i = 0; i < block[2]; i++) counts[signal_book_record_at(block + 4, i).kind]++;
    }
}

/* What is written once for each record of the book that has the other kind. */
static void compare_counts(const char *name, const size_t written[KINDS], const size_t in_book[KINDS]) {
    static const uint8_t pairs[][2] = {
        {SIGNAL_BOOK_KIND_MESSAGE, 20}, {SIGNAL_BOOK_KIND_UNION, 21}, {SIGNAL_BOOK_KIND_NEWTYPE, 22}, {SIGNAL_BOOK_KIND_FIELD, 31},
        {SIGNAL_BOOK_KIND_ENCODING, 31}, {SIGNAL_BOOK_KIND_TOMBSTONE, 32}, {SIGNAL_BOOK_KIND_VARIANT, 33},
    };
    for (size_t i = 0; i < sizeof pairs / sizeof *pairs; i++) {
        size_t is = written[pairs[i][0]], should = in_book[pairs[i][1]];
        if (is != should) wrong("%s: %zu results of kind %d for %zu records of kind %d", name, is, pairs[i][0], should, pairs[i][1]);
    }
}

/* How many of the diagnostics are of a type, for which there must be poison; the other message is that of a constant. */
static size_t try_diagnostics(const char *name) {
    static const uint64_t classes[MESSAGES] = {0, 0, 0, 1, 0, 2};
    size_t of_types = 0;
    for (size_t i = 0; i < reply[2]; i++) {
        struct signal_book_record r = signal_book_record_at(diagnostics, i);
        int right = r.kind == SIGNAL_BOOK_KIND_DIAGNOSTIC && r.sub < MESSAGES && r.v == classes[r.sub] && (r.sub == 2 || r.b == 0) && r.c == 0;
        if (!right) wrong("%s: diagnostic %zu has kind %d, sub %d, b %d, c %d, v %lu", name, i, r.kind, r.sub, r.b, r.c, r.v);
        of_types += r.sub != OF_A_CONSTANT;
    }
    return of_types;
}

/* The records that a call has left: their kinds are added to those of all answers. */
static void try_records(const struct answer *a, size_t all[KINDS]) {
    size_t written[KINDS] = {0}, in_book[KINDS] = {0}, stored = 0, poison = 0, of_types = try_diagnostics(a->name);
    for (size_t i = 0; i < reply[1]; i++) {
        struct signal_book_record r = signal_book_record_at(results, i);
        try_shape(a->name, i, &r);
        written[r.kind]++;
        all[r.kind]++;
        stored += r.kind == SIGNAL_BOOK_KIND_CONSTANT && r.sub == 1;
        poison += r.kind == SIGNAL_BOOK_KIND_NAMED && r.v == SIGNAL_BOOK_POISON;
    }
    count_book(a, in_book);
    compare_counts(a->name, written, in_book);
    if (stored != reply[3]) wrong("%s: %zu constants are stored, the reply says %lu", a->name, stored, reply[3]);
    if (poison < of_types || (of_types == 0 && poison)) wrong("%s: %zu times poison, %zu diagnostics of types", a->name, poison, of_types);
}

static void try_answers(void) {
    size_t all[KINDS] = {0}, accepted = 0, records = 0;
    for (const struct answer *a = list.answers; a < list.answers + list.count; a++) {
        lower(a, a->results_len, a->diagnostics_len);
        if (memcmp(reply, a->reply, sizeof reply)) wrong("%s: the reply is not as the list has it", a->name);
        if (reply[0]) continue;
        try_records(a, all);
        accepted++;
        records += reply[1] + reply[2];
    }
    for (int i = 0; i < SHAPES; i++) {
        if (all[shapes[i].kind] == 0) wrong("no answer has a result of kind %d", shapes[i].kind);
    }
    printf("books of 0 to %d bytes, %d causes, and %zu records of %zu accepted books read by it\n", LONGEST, CAUSES, records, accepted);
}

int main(void) {
    list = read_list();
    try_reader();
    try_lengths();
    try_limits();
    try_causes();
    try_answers();
    return 0;
}
