/* -Wrestrict: a group read back into the buffer that it stands in. */
#include "dartzulia.h"

uint32_t misuse(uint8_t buffer[DARTZULIA_RECORDS_BYTES], size_t *place)
{
    return dartzulia_read_group(buffer, DARTZULIA_GROUP_BYTES, buffer, DARTZULIA_RECORDS_BYTES, place);
}
