/* concurrent_words.h: the words that concurrent.c stores, and what it reads from
 * one: who made it (8 bits), a check (16 bits), a number (40 bits).
 */
#ifndef CONCURRENT_WORDS_H
#define CONCURRENT_WORDS_H

#include <stdbool.h>
#include <stdint.h>

enum author { BY_PARENT = 1, BY_CHILD, BY_DEVICE };

/* Told of a page that isn't mapped; no author makes it. */
static const uint64_t missing_word = UINT64_MAX;

static inline uint64_t make_word(enum author author, uint64_t number) {
    uint64_t check = (number * 0x9e3779b97f4a7c15) >> 48;
    return (uint64_t)author << 56 | check << 40 | number;
}

/* The check tells a word that was put together from two stores. */
static inline bool read_word(uint64_t word, enum author author, uint64_t *number) {
    *number = word & (((uint64_t)1 << 40) - 1);
    return word == make_word(author, *number);
}

#endif
