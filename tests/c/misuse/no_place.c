/* -Wnonnull: no place. */
#include "dartzulia.h"

uint32_t misuse(uint8_t word[DARTZULIA_WORD_BYTES])
{
    size_t changed = 0;
    return dartzulia_watch(word, DARTZULIA_WORD_BYTES, &changed, NULL);
}
