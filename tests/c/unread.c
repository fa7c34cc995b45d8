/*
 * Calls whose answers are not read, to see that the compiler warns of each. Not
 * meant to be run.
 */

#include "rangqoda.h"

void unread(uint8_t *bytes, uint16_t *table, uint64_t *number, uint32_t *state, uint32_t *counts, size_t *used);

void unread(uint8_t *bytes, uint16_t *table, uint64_t *number, uint32_t *state, uint32_t *counts, size_t *used)
{
    rangqoda_remainder(RANGQODA_CRC_16_XMODEM, bytes, 3, number);
    rangqoda_seal(RANGQODA_CRC_16_XMODEM, bytes, 3);
    rangqoda_stamp(RANGQODA_CCITT, 0, 2, 0, bytes, 4);
    rangqoda_make(RANGQODA_CRC_16_XMODEM, 7, 0, 2, 0, bytes, 4, state);
    rangqoda_scatter(1, 1, bytes, 1, bytes + 1, 1);
    rangqoda_gather(1, 1, bytes, 1, bytes + 1, 1);
    rangqoda_tables(RANGQODA_FIVE, table, 32, table + 32, 32, number);
    rangqoda_page(RANGQODA_FIVE, 9, 2, 30, table, 32, table + 32, 32, bytes, RANGQODA_MARK_BYTES, bytes + 9, 9, used, number);
    rangqoda_repair(RANGQODA_FIVE, 0, 0, RANGQODA_NO_CHECKSUM, 1, table, 32, table + 32, 32, bytes, 3, bytes + 3, 3, bytes + 6,
                    RANGQODA_VERDICT_BYTES);
    rangqoda_simulate(RANGQODA_FIVE, 0, 0, 7, 0, 2, 0, 1, 1, table, 32, table + 32, 32, bytes, 3, bytes + 3, 3, counts, RANGQODA_COUNTS,
                      state);
    rangqoda_publish(bytes, RANGQODA_VERDICT_BYTES);
}
