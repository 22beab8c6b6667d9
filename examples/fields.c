/* fields BOOK..: lowers the signal book in each file, and prints a line with the file's name and the reply; for an accepted book also its messages
   with their fields, then the constants and the diagnostics. Names are numbers in a book: N17 is name 17. Unions, newtypes, aliases, constraints
   and tombstones are left out. Exits with 0 if every book is accepted, with 1 if one is refused or cannot be read, and with 2 if none is named.

   tools/staticlib lower
   cc -std=c99 -O2 -Iinclude -o fields examples/fields.c target/staticlib/liblower.a */
#include "signal_book.h"
#include <inttypes.h>
#include <stdio.h>
#include <string.h>

/* One byte more than the longest book has: so a file that is too long is never read past this room, and has a length that the library refuses. */
enum { BOOK_ROOM = SIGNAL_BOOK_LONGEST + 1 };

/* What a call leaves; both slices are as long as any book can fill. */
struct lowered {
    uint64_t reply[4];
    uint8_t results[SIGNAL_BOOK_RESULTS_LIMIT];
    uint8_t diagnostics[SIGNAL_BOOK_DIAGNOSTICS_LIMIT];
};

/* ---- types: a tree of result records ---- */

static void print_type(const uint8_t *results, size_t number);

static void print_one_child(const uint8_t *results, const struct signal_book_record *r) {
    static const char *const words[10] = {"optional", "array of", "array of size", "set of", "vec2 of",
                                          "vec3 of", "vec4 of", "quat of", "mat3 of", "mat4 of"};
    printf("%s ", words[r->sub]);
    if (r->sub == 2) printf("%" PRIu64 " of ", r->v);
    print_type(results, r->a);
}

static void print_two_children(const uint8_t *results, const struct signal_book_record *r) {
    printf("%s of ", r->sub == 0 ? "map" : "result");
    print_type(results, r->a);
    printf(" %s ", r->sub == 0 ? "to" : "or");
    print_type(results, r->b);
}

/* A child's number is always below its parent's, so this comes to an end; a tree has 2,048 records at most. */
static void print_type(const uint8_t *results, size_t number) {
    static const char *const primitives[14] = {"bool", "u8", "u16", "u32", "u64", "i8", "i16",
                                               "i32", "i64", "f32", "f64", "fixed32", "fixed64", "void"};
    static const char *const semantics[6] = {"string", "bytes", "rgb", "uuid", "timestamp", "hash"};
    struct signal_book_record r = signal_book_record_at(results, number);
    switch (r.kind) {
    case SIGNAL_BOOK_KIND_PRIMITIVE: printf("%s", primitives[r.sub]); break;
    case SIGNAL_BOOK_KIND_SUB_BYTE: printf("%s of %u bits", r.sub == 0 ? "unsigned" : "signed", (unsigned)r.a); break;
    case SIGNAL_BOOK_KIND_SEMANTIC: printf("%s", semantics[r.sub]); break;
    case SIGNAL_BOOK_KIND_NAMED:
        if (r.v == SIGNAL_BOOK_POISON) printf("unknown type");
        else printf("type %" PRIu64, r.v);
        break;
    case SIGNAL_BOOK_KIND_ONE_CHILD: print_one_child(results, &r); break;
    case SIGNAL_BOOK_KIND_TWO_CHILDREN: print_two_children(results, &r); break;
    case SIGNAL_BOOK_KIND_INLINE_BITS: printf("bits of list %u", (unsigned)r.a); break;
    }
}

/* ---- messages and their fields ---- */

static void print_encoding(const struct signal_book_record *r) {
    static const char *const bases[3] = {"default", "varint", "zigzag"};
    if (r->a == 1 && r->sub == 0) printf("delta");
    else printf("%s%s", r->a == 1 ? "delta over " : "", bases[r->sub]);
    if (r->b == 1) printf(", limit %" PRIu64, r->v);
}

/* A field's encoding is always the record behind it. */
static void print_field(const uint8_t *results, size_t number) {
    struct signal_book_record field = signal_book_record_at(results, number);
    struct signal_book_record encoding = signal_book_record_at(results, number + 1);
    printf("    field N%u, ordinal %" PRIu64 ": ", (unsigned)field.a, field.v);
    print_type(results, field.b);
    printf(", ");
    print_encoding(&encoding);
    putchar('\n');
}

/* A message goes up to the next message, union or newtype; the fields of a union's variants are none of its own. */
static void print_messages(const uint8_t *results, size_t count) {
    int in_message = 0;
    for (size_t i = 0; i < count; i++) {
        struct signal_book_record r = signal_book_record_at(results, i);
        if (r.kind == SIGNAL_BOOK_KIND_MESSAGE) {
            in_message = 1;
            printf("  message N%u\n", (unsigned)r.a);
        }
        if (r.kind == SIGNAL_BOOK_KIND_UNION || r.kind == SIGNAL_BOOK_KIND_NEWTYPE) in_message = 0;
        if (r.kind == SIGNAL_BOOK_KIND_FIELD && in_message) print_field(results, i);
    }
}

/* ---- constants and diagnostics ---- */

/* A value is the 64 bits of an i64. */
static void print_value(uint64_t bits) {
    if (bits >> 63) printf("-%" PRIu64, 0 - bits);
    else printf("%" PRIu64, bits);
}

static void print_constants(const uint8_t *results, size_t count) {
    for (size_t i = 0; i < count; i++) {
        struct signal_book_record r = signal_book_record_at(results, i);
        if (r.kind != SIGNAL_BOOK_KIND_CONSTANT) continue;
        printf("  constant N%u: ", (unsigned)r.a);
        if (r.sub == 1) print_value(r.v);
        else printf("no value");
        putchar('\n');
    }
}

static void print_diagnostics(const uint8_t *diagnostics, size_t count) {
    static const char *const words[6] = {"an ambiguous name", "an unknown name", "unknown in its namespace",
                                         "used as a generic one, which it is not", "an unknown generic", "a constant without a value"};
    for (size_t i = 0; i < count; i++) {
        struct signal_book_record r = signal_book_record_at(diagnostics, i);
        printf("  diagnostic %u: N%u", (unsigned)r.sub, (unsigned)r.a);
        if (r.sub == 2) printf(".N%u", (unsigned)r.b);
        printf(", %s, at %" PRIu32 ", length %" PRIu32 "\n", words[r.sub], r.span_offset, r.span_length);
    }
}

/* ---- books ---- */

/* What the place of a refusal counts. */
static const char *place_of(uint64_t cause) {
    if (cause == SIGNAL_BOOK_CAUSE_BOOK_LENGTH) return "place";
    return cause == SIGNAL_BOOK_CAUSE_CHECK || cause == SIGNAL_BOOK_CAUSE_BLOCK ? "block" : "record";
}

static void print_lowered(const char *name, const struct lowered *l) {
    const uint64_t *reply = l->reply;
    if (reply[0] != 0) {
        printf("%s: refused by cause %" PRIu64 " at %s %" PRIu64 ": %s\n", name, reply[0], place_of(reply[0]), reply[1],
               signal_book_cause(reply[0]));
        return;
    }
    printf("%s: accepted, %" PRIu64 " results, %" PRIu64 " diagnostics, %" PRIu64 " stored constants\n", name, reply[1], reply[2], reply[3]);
    print_messages(l->results, (size_t)reply[1]);
    print_constants(l->results, (size_t)reply[1]);
    print_diagnostics(l->diagnostics, (size_t)reply[2]);
}

/* Reads a file as far as there is room; whether it can be read. */
static int read_book(const char *path, uint8_t book[BOOK_ROOM], size_t *len) {
    FILE *file = fopen(path, "rb");
    if (!file) return 0;
    *len = fread(book, 1, BOOK_ROOM, file);
    int failed = ferror(file);
    fclose(file);
    return !failed;
}

/* Whether the book is accepted. */
static int fields(const char *path) {
    static uint8_t book[BOOK_ROOM];
    static struct lowered l;
    const char *slash = strrchr(path, '/');
    size_t len;
    if (!read_book(path, book, &len)) {
        fprintf(stderr, "fields: %s cannot be read\n", path);
        return 0;
    }
    signal_book_lower(book, len, l.results, sizeof l.results, l.diagnostics, sizeof l.diagnostics, l.reply);
    print_lowered(slash ? slash + 1 : path, &l);
    return l.reply[0] == 0;
}

int main(int argc, char **argv) {
    int status = 0;
    if (argc < 2) {
        fprintf(stderr, "use: fields BOOK..\n");
        return 2;
    }
    for (int i = 1; i < argc; i++) {
        if (!fields(argv[i])) status = 1;
    }
    if (fflush(stdout) != 0) status = 1;
    return status;
}
