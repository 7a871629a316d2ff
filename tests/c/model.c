/* Bits stand one a byte in the order sent, so that each rule is one loop. */
#include "model.h"

#include <string.h>

enum { GROUP_BITS = 257, PAYLOAD_BITS = 256, NO_BLOCK = 4 };

static const uint8_t types[11] = {0x1e, 0x78, 0x4b, 0x87, 0x99, 0xaa, 0xb4, 0xcc, 0xd2, 0xe1, 0xff};

static unsigned bit(const uint8_t *octets, size_t i)
{
    return ((unsigned)octets[i / 8] >> (i % 8)) & 1u;
}

static void set_bit(uint8_t *octets, size_t i, unsigned value)
{
    unsigned mask = 1u << (i % 8);
    octets[i / 8] = (uint8_t)((octets[i / 8] & ~mask) | (value ? mask : 0u));
}

static unsigned payload_bit(const uint8_t *records, size_t i)
{
    return bit(records + 9 * (i / 64) + 1, i % 64);
}

/* The first control block of four, or NO_BLOCK. */
static size_t first_control(const uint8_t *records)
{
    for (size_t i = 0; i < 4; i++) {
        if (records[9 * i] == 1) {
            return i;
        }
    }
    return NO_BLOCK;
}

static int has_bad_header(const uint8_t *records)
{
    for (size_t i = 0; i < 4; i++) {
        if (records[9 * i] == 0 || records[9 * i] == 3) {
            return 1;
        }
    }
    return 0;
}

void model_write(const uint8_t records[DARTZULIA_RECORDS_BYTES], uint8_t group[DARTZULIA_GROUP_BYTES])
{
    uint8_t sent[GROUP_BITS];
    size_t n = 0, control = first_control(records), left_out = PAYLOAD_BITS;

    if (has_bad_header(records)) {
        sent[n++] = 0;
        for (int i = 0; i < 4; i++) {
            sent[n++] = 1;
        }
        left_out = 4;
    } else if (control == NO_BLOCK) {
        sent[n++] = 1;
    } else {
        sent[n++] = 0;
        for (size_t i = 0; i < 4; i++) {
            sent[n++] = records[9 * i] == 2;
        }
        left_out = 64 * control + 4;
    }
    for (size_t i = 0; i < PAYLOAD_BITS; i++) {
        if (i < left_out || i >= left_out + 4) {
            sent[n++] = (uint8_t)payload_bit(records, i);
        }
    }
    memset(group, 0, DARTZULIA_GROUP_BYTES);
    group[0] = sent[0];
    for (size_t i = 1; i < GROUP_BITS; i++) {
        set_bit(group + 1, i - 1, sent[i]);
    }
}

void model_read(const uint8_t group[DARTZULIA_GROUP_BYTES], uint8_t records[DARTZULIA_RECORDS_BYTES])
{
    static const uint8_t bad[4] = {0, 3, 0, 3};
    size_t next = 0, left_out = PAYLOAD_BITS, flag = 0;

    memset(records, 0, DARTZULIA_RECORDS_BYTES);
    if (group[0] & 1) {
        for (size_t i = 0; i < 4; i++) {
            records[9 * i] = 2;
        }
    } else {
        while (flag < 4 && bit(group + 1, flag)) {
            flag++;
        }
        for (size_t i = 0; i < 4; i++) {
            records[9 * i] = flag == 4 ? bad[i] : bit(group + 1, i) ? 2 : 1;
        }
        left_out = flag == 4 ? 4 : 64 * flag + 4;
        next = 4;
    }
    for (size_t i = 0; i < PAYLOAD_BITS; i++) {
        if (i < left_out || i >= left_out + 4) {
            set_bit(records + 9 * (i / 64) + 1, i % 64, bit(group + 1, next++));
        }
    }
    if (!(group[0] & 1) && flag < 4) {
        uint8_t *control = records + 9 * flag;
        for (size_t i = 0; i < sizeof types; i++) {
            if ((types[i] & 15) == (control[1] & 15)) {
                control[1] = types[i];
                return;
            }
        }
        control[0] = 3;
    }
}

int model_is_sound(const uint8_t records[DARTZULIA_RECORDS_BYTES])
{
    size_t control = first_control(records);

    if (has_bad_header(records)) {
        return 0;
    }
    return control == NO_BLOCK || memchr(types, records[9 * control + 1], sizeof types) != NULL;
}

unsigned symbol(const uint8_t *word, size_t i)
{
    return word[2 * i] + 256u * word[2 * i + 1];
}

void set_symbol(uint8_t *word, size_t i, unsigned value)
{
    word[2 * i] = (uint8_t)(value & 0xff);
    word[2 * i + 1] = (uint8_t)(value >> 8);
}

/* A product modulo x^10 + x^3 + 1, by shifts. */
static unsigned product(unsigned a, unsigned b)
{
    unsigned sum = 0;

    for (int i = 9; i >= 0; i--) {
        sum <<= 1;
        if (sum & 0x400) {
            sum ^= 0x409;
        }
        if ((b >> i) & 1) {
            sum ^= a;
        }
    }
    return sum;
}

int model_is_codeword(const uint8_t word[DARTZULIA_WORD_BYTES])
{
    unsigned root = 1;

    for (int k = 0; k < 30; k++) {
        unsigned value = 0;
        for (size_t i = 0; i < DARTZULIA_WORD_SYMBOLS; i++) {
            value = product(value, root) ^ symbol(word, i);
        }
        if (value != 0) {
            return 0;
        }
        root = product(root, 2);
    }
    return 1;
}

size_t model_distance(const uint8_t v[DARTZULIA_WORD_BYTES], const uint8_t w[DARTZULIA_WORD_BYTES])
{
    size_t n = 0;

    for (size_t i = 0; i < DARTZULIA_WORD_SYMBOLS; i++) {
        n += symbol(v, i) != symbol(w, i);
    }
    return n;
}
