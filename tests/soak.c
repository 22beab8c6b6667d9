/* Lowers as many books of a list of answers (docs/ANSWERS.md), which stands on standard input, as the first argument says, one behind the other in
   one process and into the same two slices, and compares each reply and every byte. The second argument is the seed of the order. All memory is
   there before the first call; that it stays as it is shows by what is resident. Ends with 1 at the first answer that is wrong, or if memory grew. */
#include "answers.h"
#include <fcntl.h>
#include <sys/resource.h>
#include <time.h>

/* Memory is compared with what it was after WARM books; it may differ by ALLOWED KiB, two pages. */
enum { CAUSES = 11, WARM = 100000, SAID = 1000000, ALLOWED = 8 };
static uint8_t results[LONGEST_RESULTS], diagnostics[LONGEST_DIAGNOSTICS];
static uint64_t by_cause[CAUSES];

/* splitmix64: the next of a row of numbers that the seed determines. */
static uint64_t next(uint64_t *state) {
    uint64_t z = *state += 0x9E3779B97F4A7C15;
    z = (z ^ z >> 30) * 0xBF58476D1CE4E5B9;
    z = (z ^ z >> 27) * 0x94D049BB133111EB;
    return z ^ z >> 31;
}

static double seconds(void) {
    struct timespec now;
    clock_gettime(CLOCK_MONOTONIC, &now);
    return (double)now.tv_sec + (double)now.tv_nsec / 1e9;
}

/* What of this process is in memory, in KiB: counted from its page tables, where the number in /proc/self/status may be off by some pages. */
static long resident(void) {
    char text[4096] = "";
    int file = open("/proc/self/smaps_rollup", O_RDONLY);
    if (file < 0 || read(file, text, sizeof text - 1) <= 0 || close(file)) missing("/proc/self/smaps_rollup cannot be read");
    const char *line = strstr(text, "\nRss:");
    if (!line) missing("/proc/self/smaps_rollup does not say what is resident");
    return strtol(line + 5, 0, 10);
}

/* The most that was ever in memory, in KiB, by the kernel's own count: it may lag behind by some pages, so it is printed and not judged. */
static long most_resident(void) {
    struct rusage usage;
    getrusage(RUSAGE_SELF, &usage);
    return usage.ru_maxrss;
}

/* Both slices are laid out whole, also behind what is lent of them, and compared whole. */
static int right(const struct answer *a) {
    uint64_t reply[4];
    memcpy(results, lent_results, sizeof results);
    memcpy(diagnostics, lent_diagnostics, sizeof diagnostics);
    memset(reply, FRINGE, sizeof reply);
    signal_book_lower(a->book, a->book_len, results, a->results_len, diagnostics, a->diagnostics_len, reply);
    return memcmp(reply, a->reply, sizeof reply) == 0 &&
           as_told(results, sizeof results, a->results, a->results_written, lent_results) &&
           as_told(diagnostics, sizeof diagnostics, a->diagnostics, a->diagnostics_written, lent_diagnostics);
}

static void say_progress(uint64_t books, double since) {
    printf("%lu books, %.1f s, resident %ld KiB, ru_maxrss %ld KiB\n", books, seconds() - since, resident(), most_resident());
    fflush(stdout);
}

/* Lowers books up to the given number, and goes on from the state of the order. */
static void soak(const struct list *list, uint64_t from, uint64_t to, uint64_t *order, double since) {
    for (uint64_t n = from; n < to; n++) {
        const struct answer *a = list->answers + ((next(order) >> 32) * list->count >> 32);
        if (!right(a)) {
            printf("wrong: book %lu, %s: the reply or a byte is not as the list has it\n", n + 1, a->name);
            exit(1);
        }
        by_cause[a->reply[0]]++;
        if ((n + 1) % SAID == 0) say_progress(n + 1, since);
    }
}

static void say_all(uint64_t books, double took) {
    printf("%lu books: %lu accepted, %lu refused (by cause", books, by_cause[0], books - by_cause[0]);
    for (int cause = 1; cause < CAUSES; cause++) printf("%s %d: %lu", cause == 1 ? "" : ",", cause, by_cause[cause]);
    printf("), all as the list has them; %.1f s, %.0f books a second\n", took, (double)books / took);
}

static int constant(uint64_t warm, long before, long now) {
    int is = labs(now - before) <= ALLOWED;
    const char *verdict = is ? "" : "wrong: memory is not constant: ";
    printf("%sresident %ld KiB after %lu books, %ld KiB at the end; ru_maxrss %ld KiB\n", verdict, before, warm, now, most_resident());
    return is;
}

int main(int argc, char **argv) {
    if (argc != 3) missing("use: soak BOOKS SEED <crates/replay/stdin");
    uint64_t books = strtoull(argv[1], 0, 10), order = strtoull(argv[2], 0, 10);
    struct list list = read_list();
    uint64_t warm = books / 2 < WARM ? books / 2 : WARM;
    printf("%lu books of %zu answers, seed %lu\n", books, list.count, order);
    if (warm == 0) missing("at least 2 books are wanted");
    double since = seconds();
    soak(&list, 0, warm, &order, since);
    say_progress(warm, since);
    long before = resident();
    soak(&list, warm, books, &order, since);
    long now = resident();
    say_all(books, seconds() - since);
    return !constant(warm, before, now);
}
