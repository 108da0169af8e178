/*
 * The words of a line, each behind one space, and the numbers that they are.
 */
#ifndef WORDS_H
#define WORDS_H

#include "powerlink_cn.h"
#include <stdbool.h>

/* What is left of a line: nothing, or words, each behind its space. Once a word could not be read,
   failed stays set, and what is read behind it counts for nothing. */
struct words {
    const char *rest;
    size_t left;
    bool failed;
};

/* A part of a line. */
struct text {
    const char *at;
    size_t length;
};

/* The name of a number, as the library has it. */
typedef struct plcn_text (*name_of)(uint32_t number);

bool is(struct text text, const char *wanted);

/* How many characters stand before the first space. */
size_t word_length(const char *at, size_t left);

/* The next word; empty where there is none. */
struct text word(struct words *words);

/* Whether the next word is this one, which is read then. */
bool take(struct words *words, const char *wanted);

/* The value of a hexadecimal digit of either case; 16 where it is none. */
unsigned digit(char c);

/* The number that a word is, decimal or hexadecimal behind 0x, of at most so much. */
bool number_of(struct text word, uint64_t most, uint64_t *number);

/* The next word as a number: of at most so much, of so many bits, or by its name too. */
uint64_t up_to(struct words *words, uint64_t most);
uint64_t bits64(struct words *words);
uint32_t bits32(struct words *words);
uint16_t bits16(struct words *words);
uint8_t bits8(struct words *words);
uint64_t numeral(struct words *words, name_of name);

/* The next word as a value of 32 bits, or `-`, a missing one. */
struct plcn_value object(struct words *words);

#endif
