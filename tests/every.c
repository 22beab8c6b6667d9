/* Writes a book to standard output for examples/fields.c: a field of every type that results can have, one of every encoding, one for every message
   that a type can give; constants with and without a value; and a union and a newtype, whose fields and types are no message's. The span of each
   record is its number and its kind. What lowering it gives is in examples/fields.txt, by hand. */
#include "../include/signal_book.h"
#include <stdio.h>

enum { PLACES = 21, BLOCKS = 8, FIRST_NAME = 100 };
static uint8_t book[BLOCKS * SIGNAL_BOOK_BLOCK];
static uint16_t records, ordinal;

static void put_bytes(uint8_t *at, uint64_t number, int bytes) {
    for (int i = 0; i < bytes; i++) at[i] = (uint8_t)(number >> 8 * i);
}

/* Puts a record behind the last one, and gives its number. There is room for 168. */
static uint16_t put(uint8_t kind, uint8_t sub, uint16_t a, uint16_t b, uint16_t c, uint64_t v) {
    uint8_t *block = book + SIGNAL_BOOK_BLOCK * (records / PLACES), *at = block + 4 + SIGNAL_BOOK_RECORD * (records % PLACES);
    put_bytes(block, records / PLACES, 2);
    block[2]++;
    at[0] = kind;
    at[1] = sub;
    put_bytes(at + 2, a, 2);
    put_bytes(at + 4, b, 2);
    put_bytes(at + 6, c, 2);
    put_bytes(at + 8, v, 8);
    put_bytes(at + 16, records, 4);
    put_bytes(at + 20, kind, 4);
    return records++;
}

/* The sum of a block's first 255 words with its carries added back, inverted, is its last word; words are high byte first here. */
static void put_check(uint8_t *block) {
    uint32_t sum = 0;
    for (int i = 0; i < SIGNAL_BOOK_BLOCK - 2; i += 2) sum += (uint32_t)block[i] << 8 | block[i + 1];
    while (sum > 0xFFFF) sum = (sum & 0xFFFF) + (sum >> 16);
    block[SIGNAL_BOOK_BLOCK - 2] = (uint8_t)(~sum >> 8);
    block[SIGNAL_BOOK_BLOCK - 1] = (uint8_t)~sum;
}

static uint16_t type(uint8_t kind, uint8_t sub, uint16_t a) {
    return put(kind, sub, a, 0, 0, 0);
}

static void message(uint16_t name) {
    put(20, 0, name, 0, 0, 0);
    ordinal = 0;
}

static void field(uint16_t of_type) {
    put(31, 0, FIRST_NAME + ordinal, of_type, SIGNAL_BOOK_NONE, ordinal);
    ordinal++;
}

static void constant(uint16_t name, uint8_t literal, uint64_t value) {
    uint16_t expression = put(10, literal, 0, 0, 0, value);
    put(24, 0, name, type(1, 8, 0), expression, 0);
}

static void every_type(void) {
    for (uint8_t sub = 0; sub < 14; sub++) field(type(1, sub, 0));
    for (uint8_t sub = 0; sub < 2; sub++) field(type(2, sub, 3 + sub));
    for (uint8_t sub = 0; sub < 6; sub++) field(type(3, sub, 0));
    field(type(4, 0, 13));
    field(type(9, 0, 7));
    for (uint8_t sub = 0; sub < 10; sub++) field(put(7, sub, type(1, 1, 0), 0, 0, sub == 2 ? 5 : 0));
    for (uint8_t sub = 0; sub < 2; sub++) {
        uint16_t left = type(1, 1, 0), right = type(3, 0, 0);
        field(put(8, sub, left, right, 0, 0));
    }
}

static void every_encoding(void) {
    for (int i = 0; i < 12; i++) {
        field(type(1, 1, 0));
        if (i / 4 != 0) put(34, (uint8_t)(i / 4 - 1), 0, 0, 0, 0);
        if (i & 2) put(34, 2, 0, 0, 0, 0);
        if (i & 1) put(34, 3, 0, 0, 0, 0);
        if (i & 1) put(35, 0, SIGNAL_BOOK_NONE, 0, 0, 1000 + (uint64_t)i);
    }
}

static void every_message_of_a_type(void) {
    field(type(4, 0, 90));
    field(type(4, 0, 91));
    field(put(5, 0, 92, 93, 0, 0));
    field(put(6, 0, 10, type(1, 1, 0), 0, 0));
    field(put(6, 0, 94, type(1, 1, 0), 0, 0));
}

int main(void) {
    put(25, 0, 90, 0, 0, 0);
    constant(1, 0, (uint64_t)-5);
    constant(2, 4, 1);
    constant(3, 3, (uint64_t)1 << 63);
    message(10);
    every_type();
    message(11);
    every_encoding();
    message(12);
    every_message_of_a_type();
    put(21, 0, 13, 0, 0, 0);
    put(33, 0, 14, 0, 0, 0);
    field(type(1, 1, 0));
    put(22, 0, 16, type(1, 1, 0), 0, 0);
    for (int i = 0; i < BLOCKS; i++) put_check(book + SIGNAL_BOOK_BLOCK * i);
    return fwrite(book, 1, sizeof book, stdout) != sizeof book || fflush(stdout) != 0;
}
