/*
 * Repairs a packet and says what to publish: repair FILE
 *
 * The file is a packet of an even number of bytes, up to 512. Its last two are a
 * CRC-16/XMODEM over all before them, and the two before the CRC a checksum over
 * all but the CRC.
 * Returns 0 if there is something to publish, 1 if not, and 2 for unfit input.
 */

#include "rangqoda.h"

#include <stdio.h>
#include <string.h>

#define CRC RANGQODA_CRC_16_XMODEM
#define ENTRIES 65536 /* 2^16, since the generator's degree is 16 */
#define LIMIT 2       /* bit errors; see "What a repair does not tell" in rangqoda.h */

static uint16_t step[ENTRIES], first[ENTRIES];

static void print(const uint8_t *bytes, size_t len)
{
    for (size_t i = 0; i < len; i++)
        printf("%02X%c", bytes[i], i + 1 < len ? ' ' : '\n');
}

int main(int argc, char **argv)
{
    uint8_t packet[513], copy[513], verdict[RANGQODA_VERDICT_BYTES];
    uint64_t period;
    FILE *file = argc == 2 ? fopen(argv[1], "rb") : NULL;
    size_t len = file ? fread(packet, 1, sizeof packet, file) : 0;
    if (!file || ferror(file)) {
        fprintf(stderr, argc == 2 ? "repair: cannot read the file\n" : "usage: repair FILE\n");
        return 2;
    }
    fclose(file);

    memset(verdict, 0xFF, sizeof verdict); /* zeros would say that the packet is intact */
    uint32_t refused = rangqoda_tables(RANGQODA_GENERATOR_OF(CRC), step, ENTRIES, first, ENTRIES, &period);
    if (!refused) /* an unfit length is refused here */
        refused = rangqoda_repair(CRC, 0, len - 2, len - 4, LIMIT, step, ENTRIES, first, ENTRIES, packet, len, copy, len,
                                  verdict, sizeof verdict);
    if (refused) {
        fprintf(stderr, "refused %u\n", (unsigned)refused);
        return 2;
    }
    switch (rangqoda_publish(verdict, sizeof verdict)) {
    case RANGQODA_PUBLISH_RECEIVED:
        puts("publish the packet as it was received:");
        print(packet, len);
        return 0;
    case RANGQODA_PUBLISH_COPY:
        puts("publish the repaired packet:");
        print(copy, len);
        return 0;
    default:
        puts(verdict[0] == RANGQODA_SEVERAL ? "publish nothing: several repairs are possible"
                                            : "publish nothing: no two bit errors explain it");
        return 1;
    }
}
