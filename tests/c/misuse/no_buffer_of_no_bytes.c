/* -Wnonnull: no buffer, although none of it is to be read. */
#include "dartzulia.h"

uint32_t misuse(uint8_t *sound, size_t *place)
{
    return dartzulia_is_sound(NULL, 0, sound, place);
}
