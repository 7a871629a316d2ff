/* The group rules and the code written again, bit by bit and symbol by symbol, for the client to compare with. */
#ifndef MODEL_H
#define MODEL_H

#include "dartzulia.h"

/* The group of four block records with kinds of 0 to 3. */
void model_write(const uint8_t records[DARTZULIA_RECORDS_BYTES], uint8_t group[DARTZULIA_GROUP_BYTES]);

/* The four block records that a group is read back as. */
void model_read(const uint8_t group[DARTZULIA_GROUP_BYTES], uint8_t records[DARTZULIA_RECORDS_BYTES]);

/* 1 if the group of four block records with kinds of 0 to 3 is sound, else 0. */
int model_is_sound(const uint8_t records[DARTZULIA_RECORDS_BYTES]);

/* Symbol i of a message or a word. */
unsigned symbol(const uint8_t *word, size_t i);
void set_symbol(uint8_t *word, size_t i, unsigned value);

/* 1 if the word of symbols below 1,024 is zero at the first thirty powers of alpha, else 0. */
int model_is_codeword(const uint8_t word[DARTZULIA_WORD_BYTES]);

/* In how many symbols two words differ. */
size_t model_distance(const uint8_t v[DARTZULIA_WORD_BYTES], const uint8_t w[DARTZULIA_WORD_BYTES]);

#endif
