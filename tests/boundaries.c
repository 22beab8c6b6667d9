/* Calls signal_book_lower at the boundaries of what it may touch, and compares the reply and every byte. The list of answers (docs/ANSWERS.md)
   stands on standard input, books/k1.book is the first argument, the second is the number of a group, or there is none: then all are tried. Prints
   a line for each group, and ends with 1 at the first thing that is wrong, which it says. */
#include "answers.h"
#include <fcntl.h>
#include <pthread.h>
#include <setjmp.h>
#include <signal.h>
#include <stdarg.h>
#include <stdatomic.h>
#include <ucontext.h>

enum { PAGE = 4096, REPLY = 4 * sizeof(uint64_t) };
enum { BOOK, RESULTS, DIAGNOSTICS, WORDS, REGIONS };
static const char *const region_names[REGIONS] = {"the book", "the results", "the diagnostics", "the reply"};

/* What is handed over as a pointer and a length: `len` bytes at `at`, amid `room` bytes from `from` that can be touched without a fault. */
struct region {
    uint8_t *from, *at;
    size_t room, len;
};

/* Pages that a region can be placed in, between two that cannot be touched. */
struct arena {
    uint8_t *base;
    size_t pages;
};

static struct list list;
static int group;

/* Calls that are under way, and how many were begun while another one was. */
static atomic_int under_way;
static atomic_size_t together;

/* The first wrong thing ends the program; with two threads the second one waits here for the end. */
__attribute__((format(printf, 1, 2))) static _Noreturn void wrong(const char *form, ...) {
    static pthread_mutex_t once = PTHREAD_MUTEX_INITIALIZER;
    va_list words;
    pthread_mutex_lock(&once);
    printf("group %d: wrong: ", group);
    va_start(words, form);
    vprintf(form, words);
    va_end(words);
    putchar('\n');
    fflush(stdout);
    _exit(1);
}

/* ---- faults: a thread comes back to where it called from, with the address ---- */

static _Thread_local sigjmp_buf before_call;
static _Thread_local const uint8_t *fault_at;
static _Thread_local int fault_writes;
static _Thread_local volatile sig_atomic_t calling;

static void on_fault(int which, siginfo_t *info, void *context) {
    if (!calling) {
        signal(which, SIG_DFL);
        return;
    }
    fault_at = info->si_addr;
    fault_writes = (((ucontext_t *)context)->uc_mcontext.gregs[REG_ERR] & 2) != 0;
    siglongjmp(before_call, 1);
}

static void catch_faults(void) {
    struct sigaction action = {.sa_sigaction = on_fault, .sa_flags = SA_SIGINFO | SA_NODEFER};
    sigemptyset(&action.sa_mask);
    if (sigaction(SIGSEGV, &action, 0) || sigaction(SIGBUS, &action, 0)) missing("faults cannot be caught");
}

/* How far an address lies outside a region. */
static size_t distance(const struct region *r, const uint8_t *address) {
    if (address < r->at) return (size_t)(r->at - address);
    return address < r->at + r->len ? 0 : (size_t)(address - (r->at + r->len)) + 1;
}

static _Noreturn void say_fault(const struct region at[REGIONS], const char *name, const char *how) {
    const char *what = fault_writes ? "a write" : "a read";
    int nearest = 0;
    for (int i = 1; i < REGIONS; i++) {
        if (distance(at + i, fault_at) < distance(at + nearest, fault_at)) nearest = i;
    }
    size_t off = distance(at + nearest, fault_at);
    if ((uintptr_t)fault_at < PAGE) wrong("%s, %s: %s through a null pointer", name, how, what);
    if (off > 2 * PAGE) wrong("%s, %s: %s at address %p, which is in no region lent", name, how, what, (void *)(uintptr_t)fault_at);
    if (off == 0) wrong("%s, %s: %s at byte %zu of %s", name, how, what, (size_t)(fault_at - at[nearest].at), region_names[nearest]);
    wrong("%s, %s: %s %zu %s %s", name, how, what, off, fault_at < at[nearest].at ? "before" : "behind", region_names[nearest]);
}

/* ---- one call: everything is laid out afresh, and compared afterwards ---- */

static void lay(const struct region *r, const uint8_t *bytes) {
    if (r->room) memset(r->from, FRINGE, r->room);
    if (r->len) memcpy(r->at, bytes, r->len);
}

/* The first byte of a stretch that is no longer as lay has left it, or the end. */
static const uint8_t *first_written(const uint8_t *at, const uint8_t *end) {
    while (at < end && *at == FRINGE) at++;
    return at;
}

/* What should stand in a region at exit: `front` as far as `written` bytes go, and as lent behind them. */
struct content {
    const uint8_t *front;
    size_t written;
    const uint8_t *lent;
};

/* A region holds what it should, and what lies around it is as it was. */
static void compare(const struct region *r, const char *which, struct content should, const char *name, const char *how) {
    const uint8_t *end = r->at + r->len, *last = r->from + r->room;
    const uint8_t *before = first_written(r->from, r->at), *behind = first_written(end, last);
    size_t i = 0;
    if (before < r->at) wrong("%s, %s: the byte %zu before %s is written", name, how, (size_t)(r->at - before), which);
    if (behind < last) wrong("%s, %s: the byte %zu behind %s is written", name, how, (size_t)(behind - end) + 1, which);
    if (r->len == 0 || as_told(r->at, r->len, should.front, should.written, should.lent)) return;
    while (r->at[i] == (i < should.written ? should.front : should.lent)[i]) i++;
    wrong("%s, %s: byte %zu of %zu of %s is %02x, not %02x", name, how, i, r->len, which, r->at[i],
          (i < should.written ? should.front : should.lent)[i]);
}

/* Lowers a book that lies in its region already, into the other regions, and compares all that the answer says of them. */
static void lower(const struct answer *a, const struct region at[REGIONS], const char *how) {
    uint64_t reply[4];
    lay(at + RESULTS, lent_results);
    lay(at + DIAGNOSTICS, lent_diagnostics);
    lay(at + WORDS, lent_results);
    if (sigsetjmp(before_call, 0)) {
        calling = 0;
        say_fault(at, a->name, how);
    }
    calling = 1;
    if (atomic_fetch_add(&under_way, 1)) atomic_fetch_add(&together, 1);
    signal_book_lower(at[BOOK].at, at[BOOK].len, at[RESULTS].at, at[RESULTS].len, at[DIAGNOSTICS].at, at[DIAGNOSTICS].len,
                      (uint64_t *)(void *)at[WORDS].at);
    atomic_fetch_sub(&under_way, 1);
    calling = 0;
    memcpy(reply, at[WORDS].at, REPLY);
    if (memcmp(reply, a->reply, REPLY)) {
        wrong("%s, %s: the reply is %lu %lu %lu %lu, not %lu %lu %lu %lu", a->name, how, reply[0], reply[1], reply[2], reply[3],
              a->reply[0], a->reply[1], a->reply[2], a->reply[3]);
    }
    struct content contents[REGIONS] = {{a->book, a->book_len, zeros},
                                        {a->results, a->results_written, lent_results},
                                        {a->diagnostics, a->diagnostics_written, lent_diagnostics},
                                        {(const uint8_t *)a->reply, REPLY, zeros}};
    for (int i = 0; i < REGIONS; i++) compare(at + i, region_names[i], contents[i], a->name, how);
}

/* ---- places ---- */

static struct arena make_arena(size_t len) {
    struct arena arena = {0, (len + PAGE - 1) / PAGE};
    arena.base = memory((arena.pages + 2) * PAGE);
    if (mprotect(arena.base, PAGE, PROT_NONE) || mprotect(arena.base + (arena.pages + 1) * PAGE, PAGE, PROT_NONE)) missing("no guard pages");
    return arena;
}

/* An arena for each region, longer than the longest by a page. */
static void make_arenas(struct arena arenas[REGIONS]) {
    arenas[BOOK] = make_arena(LONGEST_BOOK + PAGE);
    arenas[RESULTS] = make_arena(LONGEST + PAGE);
    arenas[DIAGNOSTICS] = make_arena(LONGEST + PAGE);
    arenas[WORDS] = make_arena(REPLY + PAGE);
}

/* A region `shift` bytes behind the 64th byte of its arena, with the 64 bytes before it and the 64 behind it looked at. */
static struct region amid(const struct arena *arena, size_t len, size_t shift) {
    uint8_t *at = arena->base + PAGE + 64 + shift;
    return (struct region){at - 64, at, len + 128, len};
}

/* The results, the diagnostics and the reply of an answer in their arenas; the book where the list has it, which is read-only memory. */
static void place(const struct answer *a, const struct arena arenas[REGIONS], struct region at[REGIONS]) {
    uint8_t *book = (uint8_t *)(uintptr_t)a->book;
    at[BOOK] = (struct region){book, book, 0, a->book_len};
    at[RESULTS] = amid(arenas + RESULTS, a->results_len, 0);
    at[DIAGNOSTICS] = amid(arenas + DIAGNOSTICS, a->diagnostics_len, 0);
    at[WORDS] = amid(arenas + WORDS, REPLY, 0);
}

/* ---- books whose lowering is known by hand ---- */

/* What a book writes, in order: for each of `turns` turns, `times` times the records of `what`, R for a result and D for a diagnostic, while the
   record `place` of the book is lowered; `step` is added to the place with each turn. */
struct stretch {
    unsigned turns, place, step, times;
    const char *what;
};

/* A book, its three counts, and what it writes. The order of the format: plain aliases; constants, "always the earliest reached one whose declared
   references are done"; bodies. A type's records come before the record that refers to them, a diagnostic of a type before its poison. */
struct known {
    const char *name;
    uint64_t counts[3];
    struct stretch stretches[3];
};

static const struct known knowns[] = {
    /* N1 is record 2, and writes its type u8 and its 41; N2 is record 7, and does the same. */
    {"K1", {4, 0, 2}, {{1, 2, 0, 1, "RR"}, {1, 7, 0, 1, "RR"}}},
    /* N1, record 2, refers to N2, record 7, which comes first. Each has an unknown type (message 1, poison) and no value (message 5, the 41). */
    {"told-by-two-constants", {4, 4, 0}, {{1, 7, 0, 1, "DRDR"}, {1, 2, 0, 1, "DRDR"}}},
    /* An alias, record 61, of 61 records; 31 newtypes, each an optional of it: 61 copied, the optional, the 48; a newtype of 32 records. */
    {"results-2048-of-49152", {2048, 0, 0}, {{1, 61, 0, 62, "R"}, {31, 64, 3, 63, "R"}, {1, 187, 0, 33, "R"}}},
    /* 256 newtypes, each behind its own type, which is unknown: message 1, poison, the 48. */
    {"told-256-of-6144", {512, 256, 0}, {{256, 1, 2, 1, "DRR"}}},
    /* Two constants on a ring: both silent. */
    {"K7", {0, 0, 0}, {{0}}},
};
enum { KNOWNS = sizeof knowns / sizeof *knowns };

/* The four records of K1, in the layout of docs/FORMAT.md. */
static const uint8_t k1_results[4 * RECORD] = {
    1, 1, 0, 0, 0, 0, 0, 0, 0, 0, 0, 0, 0, 0, 0, 0, 0, 0, 0, 0, 0, 0, 0, 0,
    41, 1, 1, 0, 0, 0, 0, 0, 6, 0, 0, 0, 0, 0, 0, 0, 120, 0, 0, 0, 3, 0, 0, 0,
    1, 1, 0, 0, 0, 0, 0, 0, 0, 0, 0, 0, 0, 0, 0, 0, 0, 0, 0, 0, 0, 0, 0, 0,
    41, 1, 2, 0, 2, 0, 0, 0, 42, 0, 0, 0, 0, 0, 0, 0, 170, 0, 0, 0, 8, 0, 0, 0,
};

/* The place of the first record of a stretch that finds no room, or -1. What is left of either is counted down. */
static long no_room(const struct stretch *s, size_t *results, size_t *diagnostics) {
    size_t length = strlen(s->what), each = s->times * length;
    for (size_t i = 0; i < s->turns * each; i++) {
        size_t *left = s->what[i % length] == 'R' ? results : diagnostics;
        if (*left == 0) return (long)(s->place + i / each * s->step);
        --*left;
    }
    return -1;
}

static size_t least(size_t a, size_t b) {
    return a < b ? a : b;
}

/* The answer for a book and two lengths, by the law of lent slices: accepted if both hold the records, which are then those of `full`; else 10
   at the record whose result or diagnostic finds no room first, and zero as far as the whole records of the used limits go. */
static struct answer by_hand(const struct known *k, const struct answer *full, size_t results_len, size_t diagnostics_len) {
    size_t results = least(results_len, RESULTS_LIMIT) / RECORD, diagnostics = least(diagnostics_len, DIAGNOSTICS_LIMIT) / RECORD;
    struct answer a = *full;
    long at = -1;
    a.results_len = results_len;
    a.diagnostics_len = diagnostics_len;
    a.results_written = results * RECORD;
    a.diagnostics_written = diagnostics * RECORD;
    a.results = a.diagnostics = zeros;
    for (int i = 0; i < 3 && at < 0 && k->stretches[i].turns; i++) at = no_room(k->stretches + i, &results, &diagnostics);
    memcpy(a.reply, (uint64_t[4]){at < 0 ? 0 : 10, (uint64_t)at, 0, 0}, REPLY);
    if (at >= 0) return a;
    memcpy(a.reply + 1, k->counts, sizeof k->counts);
    a.results = full->results;
    a.diagnostics = full->diagnostics;
    a.results_written = k->counts[0] * RECORD;
    a.diagnostics_written = k->counts[1] * RECORD;
    return a;
}

/* books/k1.book, with its records by hand. */
static struct answer read_k1(const char *path) {
    uint8_t *book = memory(PAGE);
    int file = open(path, O_RDONLY);
    if (file < 0 || read(file, book, PAGE) != 512 || close(file)) missing("books/k1.book is not there, or is not one block");
    if (mprotect(book, PAGE, PROT_READ)) missing("no read-only pages");
    return (struct answer){"K1", book, k1_results, zeros, 512, 0, 0, sizeof k1_results, 0, {0}};
}

/* A known book with its records: those of K1 by hand, all others as the list has them. */
static struct answer full_answer(const struct known *k, const struct answer *k1) {
    struct answer a = strcmp(k->name, "K1") == 0 ? *k1 : *answer_named(&list, k->name);
    if (a.results_written != RECORD * k->counts[0] || a.diagnostics_written != RECORD * k->counts[1]) {
        wrong("%s: the list has other counts than those known by hand", a.name);
    }
    return a;
}

/* ---- 1: lengths ---- */

/* Lengths that are tried, with those at the edge of n records of the book's own, each once. */
static size_t with_own(const size_t *lengths, size_t count, size_t n, size_t *all) {
    memcpy(all, lengths, count * sizeof *all);
    for (size_t own = n ? RECORD * n - 1 : 0; own <= RECORD * n + 1; own++) {
        size_t i = 0;
        while (i < count && all[i] != own) i++;
        if (i == count) all[count++] = own;
    }
    return count;
}

static void try_lengths(const struct answer *k1, const struct arena arenas[REGIONS]) {
    static const size_t some_results[] = {0, 23, 24, 47, 48, 49151, 49152, 49153};
    static const size_t some_diagnostics[] = {0, 23, 24, 47, 6143, 6144, 49151};
    size_t results[11], diagnostics[10], calls = 0, accepted = 0;
    struct region at[REGIONS];
    char how[64];
    for (const struct known *k = knowns; k < knowns + KNOWNS; k++) {
        struct answer full = full_answer(k, k1);
        size_t r = with_own(some_results, 8, k->counts[0], results), d = with_own(some_diagnostics, 7, k->counts[1], diagnostics);
        for (size_t i = 0; i < r * d; i++) {
            struct answer a = by_hand(k, &full, results[i / d], diagnostics[i % d]);
            snprintf(how, sizeof how, "lent %zu and %zu bytes", a.results_len, a.diagnostics_len);
            place(&a, arenas, at);
            lower(&a, at, how);
            calls++;
            accepted += a.reply[0] == 0;
        }
    }
    if (accepted == 0 || accepted == calls) wrong("no length is too short, or every one is");
    printf("1 lengths: %d books, %zu pairs of lengths from 0 to 49153: %zu accepted, %zu refused by 10 at the place known by hand\n", KNOWNS,
           calls, accepted, calls - accepted);
}

/* ---- 2: null pointers ---- */

static void try_nulls(const struct answer *k1, const struct arena arenas[REGIONS]) {
    struct region at[REGIONS];
    size_t calls = 0;
    char how[64];
    for (int i = 0; i < 8 * KNOWNS; i++) {
        const struct known *k = knowns + i / 8;
        struct answer full = full_answer(k, k1);
        int none = i % 8;
        struct answer a = by_hand(k, &full, none & 2 ? 0 : RESULTS_LIMIT, none & 4 ? 0 : DIAGNOSTICS_LIMIT);
        if (none & 1) {
            a.book_len = a.results_written = a.diagnostics_written = 0;
            memcpy(a.reply, (uint64_t[4]){1, 0, 0, 0}, REPLY);
        }
        place(&a, arenas, at);
        for (int which = BOOK; which <= DIAGNOSTICS; which++) {
            if (none & 1 << which) at[which] = (struct region){0, 0, 0, 0};
        }
        snprintf(how, sizeof how, "null for%s%s%s", none & 1 ? " book" : "", none & 2 ? " results" : "", none & 4 ? " diagnostics" : "");
        lower(&a, at, none ? how : "no null");
        calls += none != 0;
    }
    printf("2 null pointers: %d books, %zu calls with null and length 0 for book, results or diagnostics, or several of them\n", KNOWNS, calls);
}

/* ---- 3: guard pages ---- */

/* A region at the end of its arena, so that the byte behind it cannot be touched, or at its beginning, so that the byte before it cannot. No page
   can be touched that has no byte of it. */
static struct region against(const struct arena *arena, size_t len, int behind) {
    size_t room = (len + PAGE - 1) / PAGE * PAGE;
    uint8_t *end = arena->base + (arena->pages + 1) * PAGE;
    uint8_t *from = behind ? end - room : arena->base + PAGE;
    int closed = mprotect(arena->base, (arena->pages + 2) * PAGE, PROT_NONE);
    if (closed || (room && mprotect(from, room, PROT_READ | PROT_WRITE))) missing("no guard pages");
    return (struct region){from, behind ? end - len : from, room, len};
}

static void guarded(const struct answer *a, const struct arena arenas[REGIONS], int behind) {
    struct region at[REGIONS];
    at[BOOK] = against(arenas + BOOK, a->book_len, behind);
    at[RESULTS] = against(arenas + RESULTS, a->results_len, behind);
    at[DIAGNOSTICS] = against(arenas + DIAGNOSTICS, a->diagnostics_len, behind);
    at[WORDS] = against(arenas + WORDS, REPLY, behind);
    lay(at + BOOK, a->book);
    if (at[BOOK].room && mprotect(at[BOOK].from, at[BOOK].room, PROT_READ)) missing("no read-only pages");
    lower(a, at, behind ? "guard pages behind" : "guard pages before");
}

static void try_guards(const struct arena arenas[REGIONS]) {
    size_t accepted = 0, refused = 0, longer = 0;
    for (size_t i = 0; i < list.count; i++) {
        const struct answer *a = list.answers + i;
        guarded(a, arenas, 1);
        guarded(a, arenas, 0);
        accepted += a->book_len == 32768 && a->reply[0] == 0;
        refused += a->book_len == 32768 && a->reply[0] != 0;
        longer += a->book_len > 32768;
    }
    for (int i = 0; i < REGIONS; i++) {
        if (mprotect(arenas[i].base + PAGE, arenas[i].pages * PAGE, PROT_READ | PROT_WRITE)) missing("no pages back");
    }
    if (!accepted || !refused || !longer) wrong("the list has no accepted, no refused or no longer book of 32768 bytes");
    printf("3 guard pages: %zu answers, each once with guard pages behind and once before; "
           "books of 32768 bytes: %zu accepted, %zu refused; longer: %zu\n", list.count, accepted, refused, longer);
}

/* ---- 4: two threads ---- */

enum { ROUNDS = 40 };
static pthread_barrier_t start;

/* The whole list ROUNDS times, forwards if `backwards` is null. */
static void *whole_list(void *backwards) {
    struct arena arenas[REGIONS];
    struct region at[REGIONS];
    make_arenas(arenas);
    pthread_barrier_wait(&start);
    for (size_t i = 0; i < ROUNDS * list.count; i++) {
        size_t n = i % list.count;
        const struct answer *a = list.answers + (backwards ? list.count - 1 - n : n);
        place(a, arenas, at);
        lower(a, at, backwards ? "the thread that goes backwards" : "the thread that goes forwards");
    }
    return 0;
}

static void try_threads(void) {
    pthread_t forwards, backwards;
    pthread_barrier_init(&start, 0, 2);
    if (pthread_create(&forwards, 0, whole_list, 0) || pthread_create(&backwards, 0, whole_list, &start)) missing("no threads");
    pthread_join(forwards, 0);
    pthread_join(backwards, 0);
    printf("4 two threads: %zu books, the list %d times by each in opposite directions; %zu calls begun while the other thread was in one\n",
           2 * ROUNDS * list.count, ROUNDS, (size_t)together);
}

/* ---- 5: alignment ---- */

/* A book at each of the 8 shifts of each pointer: all 4096 together for a short book, else one pointer shifted at a time. */
static size_t shifted(const struct answer *a, const struct arena arenas[REGIONS]) {
    struct region at[REGIONS];
    size_t lens[REGIONS] = {a->book_len, a->results_len, a->diagnostics_len, REPLY}, calls = 0;
    char how[64];
    for (size_t shifts = 0; shifts < 4096; shifts++) {
        size_t by[REGIONS] = {shifts & 7, shifts >> 3 & 7, shifts >> 6 & 7, shifts >> 9};
        int others = (by[0] != 0) + (by[1] != 0) + (by[2] != 0) + (by[3] != 0);
        if (a->book_len > 1024 && others > 1) continue;
        for (int i = 0; i < REGIONS; i++) at[i] = amid(arenas + i, lens[i], by[i]);
        lay(at + BOOK, a->book);
        snprintf(how, sizeof how, "shifts %zu %zu %zu %zu", by[0], by[1], by[2], by[3]);
        lower(a, at, how);
        calls++;
    }
    return calls;
}

static void try_shifts(const struct arena arenas[REGIONS]) {
    static const char *const names[] = {"K1", "told-by-two-constants", "K10", "K2-24-24", "refused-short", "64-blocks", "5-record-1343"};
    size_t calls = 0, count = sizeof names / sizeof *names;
    for (size_t i = 0; i < count; i++) calls += shifted(answer_named(&list, names[i]), arenas);
    printf("5 alignment: %zu books, %zu calls over all 8 shifts of each of the four pointers\n", count, calls);
}

int main(int argc, char **argv) {
    struct arena arenas[REGIONS];
    if (argc < 2 || argc > 3) missing("use: boundaries books/k1.book [GROUP] <crates/replay/stdin");
    int only = argc > 2 ? atoi(argv[2]) : 0;
    list = read_list();
    struct answer k1 = read_k1(argv[1]);
    make_arenas(arenas);
    catch_faults();
    for (group = 1; group <= 5; group++) {
        if (only && only != group) continue;
        if (group == 1) try_lengths(&k1, arenas);
        if (group == 2) try_nulls(&k1, arenas);
        if (group == 3) try_guards(arenas);
        if (group == 4) try_threads();
        if (group == 5) try_shifts(arenas);
        fflush(stdout);
    }
    return 0;
}
