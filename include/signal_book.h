/* Lowers a signal book: the one function of liblower.a, the numbers that it answers with, and a reader for its records. For C99 and later, and C++.
   docs/FORMAT.md is the format; examples/fields.c is a program that uses all of this.

   tools/staticlib lower                                                  proves the library and writes target/staticlib/liblower.a, for x86-64
   cc -std=c99 -O2 -Iinclude -o NAME NAME.c target/staticlib/liblower.a   links a program with it; it calls memset alone */
#ifndef SIGNAL_BOOK_H
#define SIGNAL_BOOK_H
#include <stddef.h>
#include <stdint.h>

#ifdef __cplusplus
extern "C" {
#endif

enum {
    SIGNAL_BOOK_RECORD = 24,              /* bytes of a record, in a book as in the slices */
    SIGNAL_BOOK_BLOCK = 512,              /* bytes of a block; a book is a row of blocks */
    SIGNAL_BOOK_LONGEST = 32768,          /* bytes of the longest book that is not refused by its length: 64 blocks */
    SIGNAL_BOOK_RESULTS_LIMIT = 49152,    /* bytes of results that are used at most: 2,048 records */
    SIGNAL_BOOK_DIAGNOSTICS_LIMIT = 6144, /* bytes of diagnostics that are used at most: 256 records */
    SIGNAL_BOOK_NONE = 65535              /* in a field that may be none */
};
#define SIGNAL_BOOK_POISON 4294967295u    /* the type number, v of a named type, that stands for one that could not be told */

/* Lowers a book. It answers for every sequence of bytes and every two slices, and always returns.

   book, book_len                 the book. Every byte may be read, none is written.
   results, results_len           lent for the results, in bytes: SIGNAL_BOOK_RESULTS_LIMIT is as much as a book can fill.
   diagnostics, diagnostics_len   lent for the diagnostics, in bytes: SIGNAL_BOOK_DIAGNOSTICS_LIMIT is as much as a book can fill.
   reply                          four words. All are written; they need not be set before.

                       reply[0]                 reply[1]             reply[2]                 reply[3]
   accepted            0                        count of results     count of diagnostics     count of stored constants
   refused             number of the cause      the place            0                        0

   The place is 0 for cause 1, the number of a block for 2 and 3, the number of a record of the book for 4 to 10. An accepted book can have
   diagnostics: then some of its types or constants could not be told.

                       what the two slices hold afterwards
   accepted            at the front SIGNAL_BOOK_RECORD bytes for each record counted; all bytes behind them are as lent
   causes 1 to 8       all bytes are as lent
   causes 9 and 10     zero bytes up to the used limit of each slice; all bytes behind it are as lent

   The used limit of a slice is as many whole records as it holds, and at most the limit above. A shorter slice is allowed and gives cause 10
   sooner; of a longer one the rest is never touched. What the slices hold before the call does not matter.

   What the caller has to see to. The library cannot check it, and nothing is promised otherwise.
   - Each pointer is valid for its length: the book for reading, the slices and the reply for reading and writing. It may be null only with
     length 0, the reply never. Book and slices can have any alignment; reply has that of uint64_t, 8, as in every C program.
   - No two of book, results, diagnostics and reply have a byte in common.
   - While the call is under way nobody writes to the book, and nobody else touches the slices or the reply.
   - There is stack: a call takes at most 158,000 bytes (measured, tools/stack), so 256 KiB is plenty. Mind threads that are given less.

   Nothing is kept: no pointer, no state; nothing is allocated, and nothing else is read or written. So it may be called from several threads at
   once, each with slices and a reply of its own; they may share a book. */
void signal_book_lower(const uint8_t *book, size_t book_len, uint8_t *results, size_t results_len,
                       uint8_t *diagnostics, size_t diagnostics_len, uint64_t reply[4]);

/* The causes, in reply[0]; docs/FORMAT.md, section 4. */
enum {
    SIGNAL_BOOK_CAUSE_BOOK_LENGTH = 1,
    SIGNAL_BOOK_CAUSE_CHECK = 2,
    SIGNAL_BOOK_CAUSE_BLOCK = 3,
    SIGNAL_BOOK_CAUSE_SHAPE = 4,
    SIGNAL_BOOK_CAUSE_CHILD = 5,
    SIGNAL_BOOK_CAUSE_FOLLOW = 6,
    SIGNAL_BOOK_CAUSE_NAME = 7,
    SIGNAL_BOOK_CAUSE_DEPTH = 8,
    SIGNAL_BOOK_CAUSE_TOO_DEEP = 9,
    SIGNAL_BOOK_CAUSE_FULL = 10
};

/* A cause in plain words. There is no null: any other number gives "no cause". */
static inline const char *signal_book_cause(uint64_t number) {
    switch (number) {
    case SIGNAL_BOOK_CAUSE_BOOK_LENGTH: return "the length is 0, above 32768 bytes, or no multiple of 512";
    case SIGNAL_BOOK_CAUSE_CHECK: return "the check of the block is wrong, so its bytes are not those that were written";
    case SIGNAL_BOOK_CAUSE_BLOCK: return "the block has a wrong number, count of records or wildcard byte, or bytes that must be zero and are not";
    case SIGNAL_BOOK_CAUSE_SHAPE: return "the record has an unknown kind, or a sub or a field outside its values";
    case SIGNAL_BOOK_CAUSE_CHILD: return "a child of the record does not stand before it, is of another group, or is used before";
    case SIGNAL_BOOK_CAUSE_FOLLOW: return "the record may not stand behind the one before it, or in this declaration";
    case SIGNAL_BOOK_CAUSE_NAME: return "the name is declared already";
    case SIGNAL_BOOK_CAUSE_DEPTH: return "the tree is deeper than 64 records";
    case SIGNAL_BOOK_CAUSE_TOO_DEEP: return "a type takes more than 64 steps to resolve";
    case SIGNAL_BOOK_CAUSE_FULL: return "there is no room for one more result or diagnostic";
    default: return "no cause";
    }
}

/* The kinds of records in the results, and what their fields are; docs/FORMAT.md, section 6. A type, constraint or operand is the number of the
   result record that has it, which is below the number of the record that names it. Names and strings are numbers. What is not told is 0. */
enum {
    /* types */
    SIGNAL_BOOK_KIND_PRIMITIVE = 1,    /* sub 0 to 13: bool, u8, u16, u32, u64, i8, i16, i32, i64, f32, f64, fixed32, fixed64, void */
    SIGNAL_BOOK_KIND_SUB_BYTE = 2,     /* sub 0 unsigned, 1 signed; a bits */
    SIGNAL_BOOK_KIND_SEMANTIC = 3,     /* sub 0 to 5: string, bytes, rgb, uuid, timestamp, hash */
    SIGNAL_BOOK_KIND_NAMED = 4,        /* v type number, or SIGNAL_BOOK_POISON. A type number is never the number of a record */
    SIGNAL_BOOK_KIND_ONE_CHILD = 7,    /* a type; sub 0 to 9: optional, array, fixed array (v size), set, vec2, vec3, vec4, quat, mat3, mat4 */
    SIGNAL_BOOK_KIND_TWO_CHILDREN = 8, /* sub 0 map, 1 result; a type of the key or ok, b type of the value or err */
    SIGNAL_BOOK_KIND_INLINE_BITS = 9,  /* a list number */
    /* constraints and their operands */
    SIGNAL_BOOK_KIND_LOGIC = 13,       /* sub 0 and, 1 or, 2 not; a constraint, b constraint for 0 and 1 */
    SIGNAL_BOOK_KIND_COMPARISON = 14,  /* sub 0 to 5: =, not =, <, >, at most, at least; a operand; c 1 for the length */
    SIGNAL_BOOK_KIND_RANGE = 15,       /* sub 0 with the high end, 1 without it; a operand (low), b operand (high); c 1 for the length */
    SIGNAL_BOOK_KIND_OPERAND = 16,     /* sub 0 int, 1 float, 3 bool: v bits; sub 2: a string; sub 5: a name of a constant */
    /* what is declared; the span is that of the record of the book, of all kinds above it is 0 */
    SIGNAL_BOOK_KIND_ALIAS = 40,       /* a name, b type */
    SIGNAL_BOOK_KIND_CONSTANT = 41,    /* sub 1 stored, 0 without a value; a name, b type; v the 64 bits of the value, an i64 */
    SIGNAL_BOOK_KIND_MESSAGE = 42,     /* a name; its fields and tombstones come behind it, up to the next message, union or newtype */
    SIGNAL_BOOK_KIND_UNION = 43,       /* a name; its variants and tombstones come behind it, in the same way */
    SIGNAL_BOOK_KIND_VARIANT = 44,     /* a name; v ordinal; its fields and tombstones come behind it */
    SIGNAL_BOOK_KIND_FIELD = 45,       /* a name, b type, c constraint or none; v ordinal; the next record is its encoding */
    SIGNAL_BOOK_KIND_ENCODING = 46,    /* sub 0 default, 1 varint, 2 zigzag; a 1 for delta over it; b 1 for a limit, v the limit; span 0 */
    SIGNAL_BOOK_KIND_TOMBSTONE = 47,   /* sub 1 of the union itself, else 0; a reason or none, b since or none, c type or none; v ordinal */
    SIGNAL_BOOK_KIND_NEWTYPE = 48,     /* a name, b type */
    /* the one kind in the diagnostics. sub 0: name a is ambiguous; 1: name a is unknown; 2: name b in the namespace a is unknown; 3: a is not
       generic; 4: generic a is unknown; 5: constant a has no value. v class; the span is that of the type, for 5 of the expression */
    SIGNAL_BOOK_KIND_DIAGNOSTIC = 50
};

struct signal_book_record {
    uint8_t kind, sub;
    uint16_t a, b, c;
    uint64_t v;
    uint32_t span_offset, span_length;
};

/* The number in some bytes, least significant first; for signal_book_record_at. */
static inline uint64_t signal_book_number(const uint8_t *at, int bytes) {
    uint64_t number = 0;
    while (bytes-- > 0) number = number << 8 | at[bytes];
    return number;
}

/* Record `number`, from 0, of the results or the diagnostics of an accepted book; on any machine, at any alignment. The caller has to see to it
   that the number is below the count in the reply: behind it, and after a refusal, there are no records. */
static inline struct signal_book_record signal_book_record_at(const uint8_t *slice, size_t number) {
    const uint8_t *at = slice + SIGNAL_BOOK_RECORD * number;
    struct signal_book_record r;
    r.kind = at[0];
    r.sub = at[1];
    r.a = (uint16_t)signal_book_number(at + 2, 2);
    r.b = (uint16_t)signal_book_number(at + 4, 2);
    r.c = (uint16_t)signal_book_number(at + 6, 2);
    r.v = signal_book_number(at + 8, 8);
    r.span_offset = (uint32_t)signal_book_number(at + 16, 4);
    r.span_length = (uint32_t)signal_book_number(at + 20, 4);
    return r;
}

#ifdef __cplusplus
}
#endif
#endif
