/* The header alone, included twice, in the oldest C and the oldest C++ that it serves: every name is used once. */
#include "dartzulia.h"
#include "dartzulia.h"

#include <stdio.h>

#if DARTZULIA_RECORDS != DARTZULIA_RECORDS_BYTES || DARTZULIA_RECORDS_BYTES != 4 * DARTZULIA_RECORD_BYTES \
    || DARTZULIA_GROUP != DARTZULIA_GROUP_BYTES || DARTZULIA_GROUP_BYTES != 33 \
    || DARTZULIA_MESSAGE != DARTZULIA_MESSAGE_BYTES || DARTZULIA_MESSAGE_BYTES != 2 * DARTZULIA_MESSAGE_SYMBOLS \
    || DARTZULIA_WORD != DARTZULIA_WORD_BYTES || DARTZULIA_WORD_BYTES != 2 * DARTZULIA_WORD_SYMBOLS \
    || DARTZULIA_WORD_SYMBOLS - DARTZULIA_MESSAGE_SYMBOLS != 2 * DARTZULIA_REACH_SYMBOLS
#error "a size does not fit the others"
#endif

int main(void)
{
    static uint8_t records[DARTZULIA_RECORDS_BYTES], group[DARTZULIA_GROUP_BYTES];
    static uint8_t message[DARTZULIA_MESSAGE_BYTES], word[DARTZULIA_WORD_BYTES];
    uint8_t sound = 7;
    size_t changed = 99, place = 99;
    uint32_t answer = DARTZULIA_ACCEPTED;

    if (dartzulia_version() != DARTZULIA_VERSION_NUMBER) {
        printf("header %s, library %lu\n", DARTZULIA_VERSION, (unsigned long)dartzulia_version());
        return 1;
    }
    records[0] = DARTZULIA_KIND_BAD_ZEROS;
    records[9] = DARTZULIA_KIND_CONTROL;
    records[18] = DARTZULIA_KIND_DATA;
    records[27] = DARTZULIA_KIND_BAD_ONES;
    answer |= dartzulia_write_group(records, sizeof records, group, sizeof group, &place);
    answer |= dartzulia_read_group(group, sizeof group, records, sizeof records, &place);
    answer |= dartzulia_is_sound(records, sizeof records, &sound, &place);
    answer |= dartzulia_encode(message, sizeof message, word, sizeof word, &place);
    answer |= dartzulia_correct(word, sizeof word, &changed, &place);
    answer |= dartzulia_watch(word, sizeof word, &changed, &place);
    if (answer != DARTZULIA_ACCEPTED || sound != 0 || changed != 0 || place != 0) {
        printf("%s\n", dartzulia_answer_text(answer));
        return 1;
    }
    return 0;
}
