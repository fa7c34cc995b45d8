/*
 * Calls every function of rangqoda.h once or more from C, and from C++ where it
 * is compiled as that. Prints the number of checks that failed.
 */

#include "rangqoda.h"

#include <stdio.h>
#include <string.h>

static int checks;
static int failures;

static void expect(int holds, const char *what, int line)
{
    checks++;
    if (!holds) {
        failures++;
        printf("line %d: %s\n", line, what);
    }
}

#define EXPECT(holds) expect((holds) ? 1 : 0, #holds, __LINE__)

#define ENTRIES 65536

static uint16_t step[ENTRIES], first[ENTRIES];

static void remainder_and_seal(void)
{
    uint8_t packet[11] = { '1', '2', '3', '4', '5', '6', '7', '8', '9', 0, 0 };
    uint64_t left = 77;

    EXPECT(rangqoda_remainder(RANGQODA_CRC_16_XMODEM, packet, sizeof packet, &left) == RANGQODA_ACCEPTED);
    EXPECT(left == 0x31C3);
    EXPECT(rangqoda_seal(RANGQODA_CRC_16_XMODEM, packet, sizeof packet) == RANGQODA_ACCEPTED);
    EXPECT(packet[8] == '9' && packet[9] == 0x31 && packet[10] == 0xC3);
    EXPECT(rangqoda_remainder(RANGQODA_CRC_16_XMODEM, packet, sizeof packet, &left) == RANGQODA_ACCEPTED);
    EXPECT(left == 0);

    left = 77;
    EXPECT(rangqoda_remainder(8, 0, 0, packet, sizeof packet, &left) == RANGQODA_REFUSED_GENERATOR);
    EXPECT(rangqoda_remainder(RANGQODA_CRC_16_XMODEM, packet, 2, &left) == RANGQODA_REFUSED_LENGTH);
    /* an empty slice: any pointer that is not null */
    EXPECT(rangqoda_remainder(RANGQODA_CRC_16_XMODEM, packet, 0, &left) == RANGQODA_REFUSED_LENGTH);
    EXPECT(left == 77);
    EXPECT(rangqoda_seal(131073, 0, 0, packet, sizeof packet) == RANGQODA_REFUSED_GENERATOR);
    EXPECT(packet[9] == 0x31 && packet[10] == 0xC3);
}

/* The published check values: what the names stand for, with the nine digits and n zero bits as the packet. Where n is not
   a multiple of 8, zero bits stand in front, and the initial value stands too high by as many. */
static void named(void)
{
    static const struct {
        uint64_t generator, initial, final, check;
    } crcs[] = {
        { RANGQODA_CRC_3_GSM,             0x4 },
        { RANGQODA_CRC_4_INTERLAKEN,      0xB },
        { RANGQODA_CRC_5_EPC_C1G2,        0x00 },
        { RANGQODA_CRC_6_CDMA2000_A,      0x0D },
        { RANGQODA_CRC_6_CDMA2000_B,      0x3B },
        { RANGQODA_CRC_6_GSM,             0x13 },
        { RANGQODA_CRC_7_MMC,             0x75 },
        { RANGQODA_CRC_7_UMTS,            0x61 },
        { RANGQODA_CRC_8_AUTOSAR,         0xDF },
        { RANGQODA_CRC_8_CDMA2000,        0xDA },
        { RANGQODA_CRC_8_DVB_S2,          0xBC },
        { RANGQODA_CRC_8_GSM_A,           0x37 },
        { RANGQODA_CRC_8_GSM_B,           0x94 },
        { RANGQODA_CRC_8_I_432_1,         0xA1 },
        { RANGQODA_CRC_8_I_CODE,          0x7E },
        { RANGQODA_CRC_8_LTE,             0xEA },
        { RANGQODA_CRC_8_MIFARE_MAD,      0x99 },
        { RANGQODA_CRC_8_NRSC_5,          0xF7 },
        { RANGQODA_CRC_8_OPENSAFETY,      0x3E },
        { RANGQODA_CRC_8_SAE_J1850,       0x4B },
        { RANGQODA_CRC_8_SMBUS,           0xF4 },
        { RANGQODA_CRC_10_ATM,            0x199 },
        { RANGQODA_CRC_10_CDMA2000,       0x233 },
        { RANGQODA_CRC_10_GSM,            0x12A },
        { RANGQODA_CRC_11_FLEXRAY,        0x5A3 },
        { RANGQODA_CRC_11_UMTS,           0x061 },
        { RANGQODA_CRC_12_CDMA2000,       0xD4D },
        { RANGQODA_CRC_12_DECT,           0xF5B },
        { RANGQODA_CRC_12_GSM,            0xB34 },
        { RANGQODA_CRC_13_BBC,            0x04FA },
        { RANGQODA_CRC_14_GSM,            0x30AE },
        { RANGQODA_CRC_15_CAN,            0x059E },
        { RANGQODA_CRC_15_MPT1327,        0x2566 },
        { RANGQODA_CRC_16_CDMA2000,       0x4C06 },
        { RANGQODA_CRC_16_CMS,            0xAEE7 },
        { RANGQODA_CRC_16_DDS_110,        0x9ECF },
        { RANGQODA_CRC_16_DECT_R,         0x007E },
        { RANGQODA_CRC_16_DECT_X,         0x007F },
        { RANGQODA_CRC_16_EN_13757,       0xC2B7 },
        { RANGQODA_CRC_16_GENIBUS,        0xD64E },
        { RANGQODA_CRC_16_GSM,            0xCE3C },
        { RANGQODA_CRC_16_IBM_3740,       0x29B1 },
        { RANGQODA_CRC_16_LJ1200,         0xBDF4 },
        { RANGQODA_CRC_16_OPENSAFETY_A,   0x5D38 },
        { RANGQODA_CRC_16_OPENSAFETY_B,   0x20FE },
        { RANGQODA_CRC_16_PROFIBUS,       0xA819 },
        { RANGQODA_CRC_16_SPI_FUJITSU,    0xE5CC },
        { RANGQODA_CRC_16_T10_DIF,        0xD0DB },
        { RANGQODA_CRC_16_TELEDISK,       0x0FB3 },
        { RANGQODA_CRC_16_UMTS,           0xFEE8 },
        { RANGQODA_CRC_16_XMODEM,         0x31C3 },
    };
    static const char digits[] = "123456789";

    for (size_t i = 0; i < sizeof crcs / sizeof *crcs; i++) {
        unsigned n = 3, behind, before;
        uint64_t start = crcs[i].initial, left = 77;
        uint8_t packet[11] = { 0 }, sealed[11];
        size_t len;

        while (crcs[i].generator >> (n + 1))
            n++;
        len = 9 + (n + 7) / 8;
        behind = n % 8;
        before = (8 - behind) % 8;
        for (size_t k = 0; k < 9; k++) {
            unsigned wide = behind ? (unsigned)(uint8_t)digits[k] << behind : (unsigned)(uint8_t)digits[k] << 8;
            packet[k] = (uint8_t)(packet[k] | wide >> 8);
            packet[k + 1] = (uint8_t)wide;
        }
        for (unsigned k = 0; k < before; k++)
            start = (start & 1 ? start ^ crcs[i].generator : start) >> 1;
        EXPECT(rangqoda_remainder(crcs[i].generator, start, crcs[i].final, packet, len, &left) == RANGQODA_ACCEPTED);
        EXPECT(left == crcs[i].check);
        memcpy(sealed, packet, sizeof packet);
        EXPECT(rangqoda_seal(crcs[i].generator, start, crcs[i].final, sealed, len) == RANGQODA_ACCEPTED);
        EXPECT(sealed[len - 1] == (uint8_t)(packet[len - 1] ^ crcs[i].check));
        EXPECT(sealed[len - 2] == (uint8_t)(packet[len - 2] ^ crcs[i].check >> 8));
        EXPECT(memcmp(sealed, packet, len - 2) == 0);
        EXPECT(rangqoda_remainder(crcs[i].generator, start, crcs[i].final, sealed, len, &left) == RANGQODA_ACCEPTED);
        EXPECT(left == 0);
    }
}

/* CRCs by width and polynomial, and by other names: those that the names above stand for. What does not fit the width is refused. */
static void of_width(void)
{
    static const uint64_t other[][3] = {
        { RANGQODA_OF_WIDTH(16, 0x1021, 0xFFFF, 0) }, { RANGQODA_CRC_16_CCITT_FALSE },
        { RANGQODA_OF_WIDTH(16, 0x8005, 0, 0) },      { RANGQODA_CRC_16_BUYPASS },
        { RANGQODA_OF_WIDTH(15, 0x4599, 0, 0) },      { RANGQODA_CRC_15 },
        { RANGQODA_OF_WIDTH(8, 0x07, 0, 0x55) },      { RANGQODA_CRC_8_ITU },
        { RANGQODA_OF_WIDTH(3, 0x3, 0, 0x7) },        { RANGQODA_CRC_3_GSM },
    };
    static const uint64_t named[][3] = { { RANGQODA_CRC_16_IBM_3740 }, { RANGQODA_CRC_16_UMTS }, { RANGQODA_CRC_15_CAN },
                                         { RANGQODA_CRC_8_I_432_1 },   { RANGQODA_CRC_3_GSM } };
    uint8_t packet[11] = { '1', '2', '3', '4', '5', '6', '7', '8', '9', 0, 0 };

    for (size_t k = 0; k < sizeof other / sizeof *other; k++)
        EXPECT(memcmp(other[k], named[k / 2], sizeof *other) == 0);
    for (unsigned width = 0; width < 70; width++) {
        uint64_t most = width < 64 ? ((uint64_t)1 << width) - 1 : UINT64_MAX, right = width < 3 || width > 16 ? 0 : most + 1;

        EXPECT(RANGQODA_GENERATOR_OF(RANGQODA_OF_WIDTH(width, 1, 0, 0)) == (right ? right + 1 : 0));
        EXPECT(RANGQODA_GENERATOR_OF(RANGQODA_OF_WIDTH(width, most, 0, 0)) == (right ? right + most : 0));
        EXPECT(RANGQODA_GENERATOR_OF(RANGQODA_OF_WIDTH(width, most + 1, 0, 0)) == 0 || width == 64);
    }
    EXPECT(rangqoda_seal(RANGQODA_OF_WIDTH(16, 0x1021, 0xFFFF, 0), packet, sizeof packet) == RANGQODA_ACCEPTED);
    EXPECT(packet[9] == 0x29 && packet[10] == 0xB1);
    EXPECT(rangqoda_seal(RANGQODA_CRC_16_AUG_CCITT, packet, sizeof packet) == RANGQODA_ACCEPTED);
    EXPECT(packet[9] == 0xE5 && packet[10] == 0xCC);
    EXPECT(rangqoda_seal(RANGQODA_ZMODEM, packet, sizeof packet) == RANGQODA_ACCEPTED);
    EXPECT(packet[9] == 0x31 && packet[10] == 0xC3);
    EXPECT(rangqoda_seal(RANGQODA_OF_WIDTH(16, 0x11021, 0, 0), packet, sizeof packet) == RANGQODA_REFUSED_GENERATOR);
    EXPECT(rangqoda_seal(RANGQODA_OF_WIDTH(12, 0x1021, 0, 0), packet, sizeof packet) == RANGQODA_REFUSED_GENERATOR);
    EXPECT(rangqoda_seal(RANGQODA_OF_WIDTH(16, 0x8408, 0, 0), packet, sizeof packet) == RANGQODA_REFUSED_GENERATOR);
    EXPECT(rangqoda_seal(RANGQODA_OF_WIDTH(17, 0x1021, 0, 0), packet, sizeof packet) == RANGQODA_REFUSED_GENERATOR);
    EXPECT(rangqoda_seal(RANGQODA_OF_WIDTH(16, 0x1021, 0x10000, 0), packet, sizeof packet) == RANGQODA_REFUSED_VALUES);
    EXPECT(rangqoda_seal(RANGQODA_OF_WIDTH(16, 0x1021, 0, 0x10000), packet, sizeof packet) == RANGQODA_REFUSED_VALUES);
    EXPECT(packet[9] == 0x31 && packet[10] == 0xC3);
}

/* The remainder by the rule's words: the values XORed into the first and the last bits, then division bit by bit. */
static uint64_t divided(uint64_t generator, unsigned n, uint64_t initial, uint64_t final, const uint8_t *packet, unsigned len)
{
    uint64_t rest = 0;

    for (unsigned place = 0; place < 8 * len; place++) {
        uint64_t bit = packet[place / 8] >> (7 - place % 8) & 1u;
        if (place < n)
            bit ^= initial >> (n - 1 - place) & 1u;
        if (place + n >= 8 * len)
            bit ^= final >> (8 * len - 1 - place) & 1u;
        rest = rest << 1 | bit;
        if (rest >> n)
            rest ^= generator;
    }
    return rest;
}

/* Remainder and seal of a packet by ccitt, against division bit by bit: 1 where one of them is wrong. */
static unsigned wrong_by_ccitt(uint64_t initial, uint64_t final, const uint8_t *packet, unsigned len)
{
    uint8_t sealed[512];
    uint64_t left = 77, right = divided(RANGQODA_CCITT, 16, initial, final, packet, len);

    if (rangqoda_remainder(RANGQODA_CCITT, initial, final, packet, len, &left) != 0 || left != right)
        return 1;
    memcpy(sealed, packet, len);
    if (rangqoda_seal(RANGQODA_CCITT, initial, final, sealed, len) != 0 || memcmp(sealed, packet, len - 2) != 0)
        return 1;
    return sealed[len - 2] != (uint8_t)(packet[len - 2] ^ right >> 8) || sealed[len - 1] != (uint8_t)(packet[len - 1] ^ right);
}

/* Division by ccitt goes by a table: every two bytes that a packet can begin with, and every length, with values 0 and others. */
static void by_ccitt(void)
{
    static uint8_t packet[512];
    uint64_t state = 1;
    unsigned wrong = 0;

    for (unsigned k = 0; k < 65536 + 510; k++) {
        unsigned len = k < 65536 ? 3 + k % 4 : k - 65536 + 3;
        for (unsigned i = 0; i < len; i++)
            packet[i] = (uint8_t)((state = state * 0x5851F42D4C957F2Du + 1) >> 56);
        if (k < 65536) {
            packet[0] = (uint8_t)(k >> 8);
            packet[1] = (uint8_t)k;
        }
        wrong += wrong_by_ccitt(0, 0, packet, len);
        wrong += wrong_by_ccitt((state >> 48) | 1, state >> 32 & 0xFFFF, packet, len);
    }
    EXPECT(wrong == 0);
}

/* Packets of less than 2n bits: every value of five in every packet of one byte, and some of degree 16 in three. */
static void overlapping(void)
{
    uint64_t left = 77, wrong = 0;

    for (unsigned k = 0; k < 32 * 32 * 256; k++) {
        uint8_t packet[1] = { (uint8_t)k };
        uint64_t initial = k >> 8 & 31, final = k >> 13, right = divided(RANGQODA_FIVE, 5, initial, final, packet, 1);
        wrong += rangqoda_remainder(RANGQODA_FIVE, initial, final, packet, 1, &left) != 0 || left != right;
        wrong += rangqoda_seal(RANGQODA_FIVE, initial, final, packet, 1) != 0 || packet[0] != ((uint8_t)k ^ right);
    }
    EXPECT(wrong == 0);
    for (uint64_t k = 0; k < 100000; k++) {
        uint64_t mixed = k * 0x9E3779B97F4A7C15u, initial = mixed >> 48, final = mixed >> 32 & 0xFFFF;
        uint8_t packet[3] = { (uint8_t)(mixed >> 24), (uint8_t)(mixed >> 16), (uint8_t)(mixed >> 8) };
        uint64_t right = divided(RANGQODA_CCITT, 16, initial, final, packet, 3);
        wrong += rangqoda_remainder(RANGQODA_CCITT, initial, final, packet, 3, &left) != 0 || left != right;
        wrong += rangqoda_seal(RANGQODA_CCITT, initial, final, packet, 3) != 0;
        wrong += rangqoda_remainder(RANGQODA_CCITT, initial, final, packet, 3, &left) != 0 || left != 0;
    }
    EXPECT(wrong == 0);
    EXPECT(rangqoda_remainder(RANGQODA_FIVE, 31, 0, (const uint8_t *)"", 1, &left) == RANGQODA_ACCEPTED && left == 25);
    EXPECT(rangqoda_remainder(RANGQODA_FIVE, 0, 31, (const uint8_t *)"", 1, &left) == RANGQODA_ACCEPTED && left == 31);
    EXPECT(rangqoda_remainder(RANGQODA_FIVE, 31, 31, (const uint8_t *)"", 1, &left) == RANGQODA_ACCEPTED && left == 6);
}

/* Condition 11 by either value, alone and beside each other condition: 1 and 2 come before it, the others after. */
static void unfit_values(void)
{
    static const uint64_t unfit[][2] = { { 32, 0 }, { 0, 32 }, { (uint64_t)1 << 32, 0 }, { 0, (uint64_t)1 << 32 | 1 },
                                         { UINT64_MAX, UINT64_MAX } };
    static const unsigned others[] = { 0, 1, 2, 3, 5, 6, 8, 9, 10 };
    uint64_t period;

    EXPECT(rangqoda_tables(RANGQODA_FIVE, step, 32, first, 32, &period) == RANGQODA_ACCEPTED);
    for (size_t k = 0; k < sizeof unfit / sizeof *unfit; k++) {
        for (size_t m = 0; m < sizeof others / sizeof *others; m++) {
            unsigned other = others[m], number = other == 1 || other == 2 ? other : RANGQODA_REFUSED_VALUES;
            uint64_t generator = other == 1 ? 52 : RANGQODA_FIVE, left = 77;
            uint8_t packet[3] = { 7, 7, 7 }, output[3] = { 1, 2, 3 }, verdict[RANGQODA_VERDICT_BYTES] = { 77 };
            size_t len = other == 2 ? 0 : 3;

            step[1] = other == 6 ? 0 : 26;
            EXPECT(rangqoda_repair(generator, unfit[k][0], unfit[k][1], 0, other == 9 ? 3 : 2, other == 10,
                                   other == 3 ? RANGQODA_MOST_POSITIONS + 1 : 1, step, other == 5 ? 31 : 32, first, 32, packet, len, output, other == 8 ? 2 : len, verdict,
                                   sizeof verdict) == number);
            EXPECT(rangqoda_remainder(generator, unfit[k][0], unfit[k][1], packet, len, &left) == number);
            EXPECT(rangqoda_seal(generator, unfit[k][0], unfit[k][1], packet, len) == number);
            EXPECT(left == 77 && packet[2] == 7 && output[0] == 1 && verdict[0] == 77);
        }
    }
    step[1] = 26;
}

/* Sealed by some values a packet is intact, with a flip it is repaired, and for other values it is not intact. */
static void values(void)
{
    uint8_t packet[3] = { 0xFF, 0xFF, 0 }, verdict[RANGQODA_VERDICT_BYTES], output[3] = { 1, 2, 3 };
    uint64_t period;

    EXPECT(rangqoda_tables(RANGQODA_FIVE, step, 32, first, 32, &period) == RANGQODA_ACCEPTED);
    EXPECT(rangqoda_seal(RANGQODA_FIVE, 31, 9, packet, 3) == RANGQODA_ACCEPTED);
    EXPECT(rangqoda_repair(RANGQODA_FIVE, 31, 9, 0, 2, 0, 1, step, 32, first, 32, packet, 3, output, 3, verdict,
                           sizeof verdict) == RANGQODA_ACCEPTED);
    EXPECT(verdict[0] == RANGQODA_INTACT);
    EXPECT(rangqoda_repair(RANGQODA_FIVE, 0, 0, 0, 2, 0, 1, step, 32, first, 32, packet, 3, output, 3, verdict,
                           sizeof verdict) == RANGQODA_ACCEPTED);
    EXPECT(verdict[0] != RANGQODA_INTACT);
    packet[0] = 0x7F;
    EXPECT(rangqoda_repair(RANGQODA_FIVE, 31, 9, 0, 2, 0, 1, step, 32, first, 32, packet, 3, output, 3, verdict,
                           sizeof verdict) == RANGQODA_ACCEPTED);
    EXPECT(verdict[0] == RANGQODA_REPAIRED && verdict[11] == 23 && output[0] == 0xFF && output[2] == packet[2]);
    EXPECT(RANGQODA_GENERATOR_OF(RANGQODA_CRC_16_GENIBUS) == RANGQODA_CCITT);
}

static void sum_and_stamp(void)
{
    static const uint8_t words[8] = { 0x00, 0x01, 0xF2, 0x03, 0xF4, 0xF5, 0xF6, 0xF7 };
    uint8_t packet[8] = { 9, 8, 7, 6, 5, 4, 3, 2 };
    uint8_t before[8];

    EXPECT(rangqoda_sum(words, sizeof words) == 0xDDF2);
    EXPECT(rangqoda_sum(words, 0) == 0);
    EXPECT(rangqoda_stamp(RANGQODA_CCITT, 0, 6, 2, packet, sizeof packet) == RANGQODA_ACCEPTED);
    EXPECT(rangqoda_sum(packet, 6) == 0xFFFF);
    EXPECT(packet[0] == 9 && packet[1] == 8 && packet[4] == 5 && packet[7] == 2);

    memcpy(before, packet, sizeof packet);
    EXPECT(rangqoda_stamp(RANGQODA_CCITT, 0, 7, 2, packet, sizeof packet) == RANGQODA_REFUSED_RANGE);
    EXPECT(rangqoda_stamp(RANGQODA_CCITT, 0, SIZE_MAX, 2, packet, sizeof packet) == RANGQODA_REFUSED_RANGE);
    EXPECT(rangqoda_stamp(RANGQODA_CCITT, 0, 6, 1, packet, sizeof packet) == RANGQODA_REFUSED_FIELD);
    EXPECT(rangqoda_stamp(RANGQODA_CCITT, 0, 6, SIZE_MAX, packet, sizeof packet) == RANGQODA_REFUSED_FIELD);
    EXPECT(memcmp(before, packet, sizeof packet) == 0);
}

/* The bytes around the field sum to FFFFh already, so zero is computed, and FFFFh written: with the field at the start of the range, at
   its end and between, in ranges of an even and of an odd number of bytes. */
static void computed_zeros(void)
{
    static const struct { size_t start, end, field; uint8_t before[8], after[8]; } rows[] = {
        { 0, 4, 0, { 0x00, 0x00, 0xFF, 0xFF }, { 0xFF, 0xFF, 0xFF, 0xFF } },
        { 0, 4, 2, { 0xFF, 0xFF, 0x12, 0x34 }, { 0xFF, 0xFF, 0xFF, 0xFF } },
        { 0, 6, 2, { 0xFF, 0x00, 0x00, 0x00, 0x00, 0xFF }, { 0xFF, 0x00, 0xFF, 0xFF, 0x00, 0xFF } },
        { 0, 5, 2, { 0xFE, 0xFF, 0x00, 0x00, 0x01, 0x80 }, { 0xFE, 0xFF, 0xFF, 0xFF, 0x01, 0x80 } },
        { 1, 6, 1, { 0xFF, 0x12, 0x34, 0x00, 0xFF, 0xFF }, { 0xFF, 0xFF, 0xFF, 0x00, 0xFF, 0xFF } },
    };
    uint8_t packet[8];

    for (size_t k = 0; k < sizeof rows / sizeof *rows; k++) {
        memcpy(packet, rows[k].before, sizeof packet);
        EXPECT(rangqoda_stamp(RANGQODA_CCITT, rows[k].start, rows[k].end, rows[k].field, packet, 8) == RANGQODA_ACCEPTED);
        EXPECT(memcmp(packet, rows[k].after, sizeof packet) == 0);
        EXPECT(rangqoda_sum(packet + rows[k].start, rows[k].end - rows[k].start) == 0xFFFF);
    }
}

/* Packets from a seed: what is drawn, and what other code made of it. */
static void made(void)
{
    static const uint8_t right[16] = { 0x3D, 0xE9, 0x9C, 0xED, 0x0C, 0xDB, 0x5C, 0x0D,
                                       0x11, 0xFB, 0xF9, 0x88, 0xB0, 0xBC, 0x17, 0x21 };
    static const uint32_t seeds[] = { 0, 1, 0x80000000u, UINT32_MAX };
    /* a seed whose register holds more than 32 bits */
    volatile uint64_t wide = (uint64_t)0xDEADBEEF << 32 | 7;
    uint8_t packet[512];
    uint32_t state = 77;
    uint64_t left = 77;

    EXPECT(rangqoda_make(RANGQODA_CRC_16_XMODEM, 7, 0, 14, 12, packet, 16, &state) == RANGQODA_ACCEPTED);
    EXPECT(memcmp(packet, right, sizeof right) == 0 && state == 0xC704D217u);
    memset(packet, 0xAA, sizeof packet);
    EXPECT(rangqoda_make(RANGQODA_CRC_16_XMODEM, (uint32_t)wide, 0, 14, 12, packet, 16, &state) == RANGQODA_ACCEPTED);
    EXPECT(memcmp(packet, right, sizeof right) == 0 && state == 0xC704D217u);
    EXPECT(rangqoda_make(RANGQODA_CRC_16_XMODEM, 0, 0, 6, 4, packet, 8, &state) == RANGQODA_ACCEPTED);
    EXPECT(packet[0] == 0x3C && packet[4] == 0xF2 && packet[5] == 0x0D && packet[6] == 0x52 && packet[7] == 0x37);
    EXPECT(rangqoda_make(RANGQODA_CRC_16_IBM_3740, 0, 0, 6, 4, packet, 8, &state) == RANGQODA_ACCEPTED);
    EXPECT(packet[0] == 0x3C && packet[4] == 0xF2 && packet[5] == 0x0D && packet[6] == 0x5C && packet[7] == 0x27);
    /* a computed zero */
    EXPECT(rangqoda_make(RANGQODA_CRC_16_XMODEM, 65871, 0, 6, 4, packet, 8, &state) == RANGQODA_ACCEPTED);
    EXPECT(packet[0] == 0xC3 && packet[4] == 0xFF && packet[5] == 0xFF && packet[6] == 0xBE && packet[7] == 0x42);
    EXPECT(state == 0x8D418AD7u);

    for (size_t k = 0; k < sizeof seeds / sizeof *seeds; k++) {
        uint32_t drawn = seeds[k], other = 0;

        EXPECT(rangqoda_make(RANGQODA_CRC_16_GENIBUS, seeds[k], 0, 510, 508, packet, 512, &state) == RANGQODA_ACCEPTED);
        for (size_t i = 0; i < 512; i++) {
            drawn = 1664525u * drawn + 1013904223u;
            other += i < 508 && packet[i] != drawn >> 24;
        }
        EXPECT(other == 0 && state == drawn);
        EXPECT(rangqoda_sum(packet, 510) == 0xFFFF);
        EXPECT(rangqoda_remainder(RANGQODA_CRC_16_GENIBUS, packet, 512, &left) == RANGQODA_ACCEPTED && left == 0);
    }
}

/* The conditions of a made packet, each alone and every two at once: the first in the order 1, 2, 11, 9, 10 is the answer. Each
   is broken by a small number and by one whose low 32 bits would fit. */
static void unmade(void)
{
    static const uint32_t order[] = { 1, 2, 11, 9, 10 };
    static const uint64_t unfit[][2] = { { 32, 31 }, { 31, 32 }, { (uint64_t)1 << 32 | 31, 31 }, { 31, (uint64_t)1 << 32 } };
    static const size_t ranges[][2] = { { 0, 8 }, { 8, 8 }, { 0, ((size_t)1 << 32) + 7 }, { (size_t)1 << 32, 7 } };
    static const size_t fields[] = { 1, 6, ((size_t)1 << 32) + 4, (size_t)-2 };
    static const uint8_t nines[8] = { 9, 9, 9, 9, 9, 9, 9, 9 };

    for (size_t k = 0; k < 4 * 25; k++) {
        size_t a = k / 20, b = k / 4 % 5, way = k % 4;
        unsigned broken = 1u << order[a] | 1u << order[b];
        uint64_t generator = broken & 1u << 1 ? (way % 2 ? (uint64_t)1 << 32 | 53 : 52) : RANGQODA_FIVE;
        uint64_t initial = broken & 1u << 11 ? unfit[way][0] : 31, final = broken & 1u << 11 ? unfit[way][1] : 31;
        size_t start = broken & 1u << 9 ? ranges[way][0] : 0, end = broken & 1u << 9 ? ranges[way][1] : 7;
        size_t field = broken & 1u << 10 ? fields[way] : 4, len = broken & 1u << 2 ? 0 : 8;
        uint8_t packet[8];
        uint32_t state = 77;

        memcpy(packet, nines, sizeof packet);
        EXPECT(rangqoda_make(generator, initial, final, 5, start, end, field, packet, len, &state) == order[a < b ? a : b]);
        EXPECT(state == 77 && memcmp(packet, nines, sizeof packet) == 0);
    }
}

/* Every packet made is intact: one after the other, each from the state that the one before left, at limits 1 to 4 in turn. */
static void intact(void)
{
    uint8_t packet[24], output[24], verdict[RANGQODA_VERDICT_BYTES];
    uint64_t period, wrong = 0;
    uint32_t state = 0;

    EXPECT(rangqoda_tables(RANGQODA_FIVE, step, 32, first, 32, &period) == RANGQODA_ACCEPTED);
    for (unsigned k = 0; k < 20000; k++) {
        size_t len = 3 + k % 22, end = len - 1, start = k % (end - 1), field = start + (k / 2 % (end - start - 1)) / 2 * 2;
        size_t limit = 1 + k / 22 % 4;
        uint64_t initial = k / 7 % 32, final = k / 224 % 32;

        verdict[0] = 77;
        output[0] = (uint8_t)k;
        wrong += rangqoda_make(RANGQODA_FIVE, initial, final, state, start, end, field, packet, len, &state) != 0;
        wrong += rangqoda_repair(RANGQODA_FIVE, initial, final, start, end, field, limit, step, 32, first, 32, packet, len,
                                 output, len, verdict, sizeof verdict) != 0;
        wrong += verdict[0] != RANGQODA_INTACT || output[0] != (uint8_t)k;
    }
    EXPECT(wrong == 0);
}

/* Remainder and sum before a repair, as the header says: they tell an intact packet as the repair does. Packets from a seed, as they
   are, with a bit flipped in the data or in the field, and sealed with a field of zero or another one. */
static void intact_by_remainder_and_sum(void)
{
    uint8_t packet[16], output[16], verdict[RANGQODA_VERDICT_BYTES];
    const size_t len = sizeof packet, end = 14, field = 12;
    uint64_t period, left, wrong = 0, said[2] = { 0, 0 };
    uint32_t state = 1;

    EXPECT(rangqoda_tables(RANGQODA_CCITT, step, ENTRIES, first, ENTRIES, &period) == RANGQODA_ACCEPTED);
    for (unsigned k = 0; k < 1000; k++) {
        int intact = 0;

        wrong += rangqoda_make(RANGQODA_CRC_16_GENIBUS, state, 0, end, field, packet, len, &state) != 0;
        if (k % 5 == 1 || k % 5 == 2)
            packet[k % 5 == 1 ? k % 12 : field] ^= 0x20;
        if (k % 5 >= 3) {
            packet[field] = 0;
            packet[field + 1] = k % 5 == 3 ? 0 : 7;
            wrong += rangqoda_seal(RANGQODA_CRC_16_GENIBUS, packet, len) != 0;
        }
        if (rangqoda_remainder(RANGQODA_CRC_16_GENIBUS, packet, len, &left) == 0 && left == 0 &&
            ((packet[field] == 0 && packet[field + 1] == 0) || rangqoda_sum(packet, end) == 0xFFFF))
            intact = 1;
        memset(verdict, 0xFF, sizeof verdict);
        wrong += rangqoda_repair(RANGQODA_CRC_16_GENIBUS, 0, end, field, 1, step, ENTRIES, first, ENTRIES, packet, len, output, len,
                                 verdict, sizeof verdict) != 0;
        wrong += intact != (verdict[0] == RANGQODA_INTACT);
        said[intact]++;
    }
    EXPECT(wrong == 0 && said[0] >= 400 && said[1] >= 400);

    /* a verdict that was filled with FFh, and a refusal that is overlooked */
    memset(verdict, 0xFF, sizeof verdict);
    EXPECT(rangqoda_repair(RANGQODA_CRC_16_GENIBUS, 0, end, field, 0, step, ENTRIES, first, ENTRIES, packet, len, output, len,
                           verdict, sizeof verdict) == RANGQODA_REFUSED_LIMIT);
    EXPECT(rangqoda_publish(verdict, sizeof verdict) == RANGQODA_PUBLISH_NOTHING);
}

static void tables(void)
{
    uint64_t period = 77;

    EXPECT(rangqoda_tables(RANGQODA_FIVE, step, 31, first, 32, &period) == RANGQODA_REFUSED_TABLE_LENGTH);
    EXPECT(period == 77);
    EXPECT(rangqoda_tables(RANGQODA_CCITT, step, ENTRIES, first, ENTRIES, &period) == RANGQODA_ACCEPTED);
    EXPECT(period == 32767);
    EXPECT(rangqoda_tables(RANGQODA_FIVE, step, 32, first, 32, &period) == RANGQODA_ACCEPTED);
    EXPECT(period == 15 && step[1] == 26 && first[26] == 14);
    EXPECT(first[3] == RANGQODA_NO_POSITION && first[0] == RANGQODA_NO_POSITION);
}

static void pages(void)
{
    static const uint8_t list[15] = { 2, 0, 5, 0, 7, 2, 0, 3, 0, 8, 2, 0, 0, 0, 6 };
    uint8_t mark[RANGQODA_MARK_BYTES] = { RANGQODA_MARK_START }, unlisted[RANGQODA_MARK_BYTES] = { 2, 0, 1, 0, 2 };
    uint8_t output[RANGQODA_RECORD_BYTES], joined[64];
    uint64_t period, written = 0, records = 0;
    size_t used = 0, end = 0;
    int calls = 0;

    EXPECT(rangqoda_tables(RANGQODA_FIVE, step, 32, first, 32, &period) == RANGQODA_ACCEPTED);
    while (mark[0] != RANGQODA_MARK_ENDED && calls < 10) {
        /* a refused call leaves the mark */
        EXPECT(rangqoda_page(RANGQODA_FIVE, 9, 2, 30, step, 32, first, 32, mark, sizeof mark, output, RANGQODA_RECORD_BYTES - 1,
                             &used, &written) == RANGQODA_REFUSED_OUTPUT);
        EXPECT(rangqoda_page(RANGQODA_FIVE, 9, 2, 30, step, 32, first, 32, mark, sizeof mark, output, sizeof output,
                             &used, &written) == RANGQODA_ACCEPTED);
        memcpy(joined + end, output, used);
        end += used;
        records += written;
        calls++;
    }
    EXPECT(calls == 3 && records == 3 && end == sizeof list && memcmp(joined, list, sizeof list) == 0);

    /* the mark {1,2} has span 1: all three follow it */
    EXPECT(rangqoda_page(RANGQODA_FIVE, 9, 2, 30, step, 32, first, 32, unlisted, sizeof unlisted, joined, sizeof joined,
                         &used, &written) == RANGQODA_ACCEPTED);
    EXPECT(written == 3 && used == sizeof list && memcmp(joined, list, sizeof list) == 0 && unlisted[0] == RANGQODA_MARK_ENDED);

    mark[0] = RANGQODA_MOST_POSITIONS + 1;
    EXPECT(rangqoda_page(RANGQODA_FIVE, 9, 2, 30, step, 32, first, 32, mark, sizeof mark, output, sizeof output, &used,
                         &written) == RANGQODA_REFUSED_MARK);
    step[1] = 0;
    EXPECT(rangqoda_page(RANGQODA_FIVE, 9, 2, 30, step, 32, first, 32, mark, sizeof mark, output, sizeof output, &used,
                         &written) == RANGQODA_REFUSED_TABLE_ENTRY);
    EXPECT(rangqoda_page(RANGQODA_FIVE, 9, 2, 32, step, 32, first, 32, mark, sizeof mark, output, sizeof output, &used,
                         &written) == RANGQODA_REFUSED_SYNDROME);
    EXPECT(rangqoda_page(RANGQODA_FIVE, 9, RANGQODA_MOST_POSITIONS + 1, 30, step, 32, first, 32, mark, sizeof mark, output,
                         sizeof output, &used, &written) == RANGQODA_REFUSED_LIMIT);
}

/* A position more in a record, and the last one less. */
static void put(uint8_t *record, unsigned p)
{
    record[1 + 2 * record[0]] = (uint8_t)(p >> 8);
    record[2 + 2 * record[0]] = (uint8_t)p;
    record[0]++;
}

static void drop(uint8_t *record)
{
    record[0]--;
    record[1 + 2 * record[0]] = 0;
    record[2 + 2 * record[0]] = 0;
}

static unsigned position(const uint8_t *record, unsigned i)
{
    return record[1 + 2 * i] * 256u + record[2 + 2 * i];
}

static void sets_from(unsigned p, unsigned bits, unsigned most, uint8_t *record, void (*visit)(const uint8_t *record))
{
    visit(record);
    for (; record[0] < most && p < bits; p++) {
        put(record, p);
        sets_from(p + 1, bits, most, record, visit);
        drop(record);
    }
}

/* Visits every set of at most so many positions below `bits`, as its record and zeros, in no order that matters. */
static void every_set(unsigned bits, unsigned most, void (*visit)(const uint8_t *record))
{
    uint8_t record[RANGQODA_RECORD_BYTES] = { 0 };

    sets_from(0, bits, most, record, visit);
}

/* The largest position minus the smallest, and 0 for one or none. */
static unsigned span(const uint8_t *record)
{
    return record[0] < 2 ? 0 : position(record, record[0] - 1u) - position(record, 0);
}

/* The list's order, of records with zeros behind them: fewer positions first, then the smaller span, then by the positions from the
   smallest on. */
static int comes_before(const uint8_t *a, const uint8_t *b)
{
    if (a[0] != b[0])
        return a[0] < b[0];
    if (span(a) != span(b))
        return span(a) < span(b);
    return memcmp(a, b, RANGQODA_RECORD_BYTES) < 0;
}

/* Page calls by a generator of degree 3, in 8 bits: the mark of the present one, and the first record that should follow it. */
static struct {
    uint64_t generator, syndrome, wrong;
    uint8_t mark[RANGQODA_MARK_BYTES], next[RANGQODA_RECORD_BYTES];
    int found;
} after;

static void follow(const uint8_t *record)
{
    uint8_t packet = 0;

    for (unsigned i = 0; i < record[0]; i++)
        packet = (uint8_t)(packet | 1u << position(record, i));
    if (divided(after.generator, 3, 0, 0, &packet, 1) != after.syndrome || !comes_before(after.mark, record))
        return;
    if (!after.found || comes_before(record, after.next))
        memcpy(after.next, record, sizeof after.next);
    after.found = 1;
}

static void page_after(const uint8_t *record)
{
    uint8_t mark[RANGQODA_MARK_BYTES], output[RANGQODA_RECORD_BYTES] = { 0 };
    uint64_t written;
    size_t used;

    memcpy(mark, record, sizeof mark);
    memcpy(after.mark, record, sizeof mark);
    after.found = 0;
    every_set(8, RANGQODA_MOST_POSITIONS, follow);
    after.wrong += rangqoda_page(after.generator, 8, RANGQODA_MOST_POSITIONS, after.syndrome, step, 8, first, 8, mark, sizeof mark,
                                 output, sizeof output, &used, &written) != RANGQODA_ACCEPTED;
    if (after.found)
        after.wrong += written == 0 || memcmp(output, after.next, 1 + 2u * after.next[0]) != 0;
    else
        after.wrong += written != 0 || mark[0] != RANGQODA_MARK_ENDED;
}

/* A generator with an even number of ones and one with an odd number, every syndrome, after every set: the next record is the
   first, in the list's order, of all that come after the mark and leave the syndrome. */
static void after_every_mark(void)
{
    uint64_t period;

    for (after.generator = 9; after.generator <= 11; after.generator += 2) {
        EXPECT(rangqoda_tables(after.generator, step, 8, first, 8, &period) == RANGQODA_ACCEPTED);
        for (after.syndrome = 0; after.syndrome < 8; after.syndrome++)
            every_set(8, RANGQODA_MOST_POSITIONS, page_after);
    }
    EXPECT(after.wrong == 0);
}

/* A list of several MiB, read to its end as the header says. Each record is one of the list and comes after the one before, and they
   are as many as the list has: so none is missing. How many it has is counted without listing any, by position after position. */
static void long_list(void)
{
    static uint8_t output[1 << 16], power[4096];
    uint8_t mark[RANGQODA_MARK_BYTES] = { RANGQODA_MARK_START }, last[RANGQODA_RECORD_BYTES] = { 0 };
    uint64_t sets[3][8] = { { 1 } }, period, written, told = 0, records = 0, wrong = 0;
    size_t used, bytes = 0, pages = 0;

    for (unsigned p = 0, left = 1; p < 4096; p++) {
        power[p] = (uint8_t)left;
        for (unsigned k = 2; k > 0; k--)
            for (unsigned r = 0; r < 8; r++)
                sets[k][r ^ left] += sets[k - 1][r];
        left = left << 1 & 8 ? left << 1 ^ 11 : left << 1;
    }
    EXPECT(rangqoda_tables(11, step, 8, first, 8, &period) == RANGQODA_ACCEPTED);
    while (mark[0] != RANGQODA_MARK_ENDED) {
        if (rangqoda_page(11, 4096, 2, 5, step, 8, first, 8, mark, sizeof mark, output, sizeof output, &used, &written) != 0)
            break;
        for (size_t at = 0; at < used; at += 1 + 2u * last[0]) {
            uint8_t record[RANGQODA_RECORD_BYTES] = { 0 };
            unsigned left = 0;

            if (output[at] > 2 || at + 1 + 2u * output[at] > used) {
                wrong++;
                break;
            }
            memcpy(record, output + at, 1 + 2u * output[at]);
            for (unsigned i = 0; i < record[0]; i++)
                left ^= power[position(record, i) % 4096];
            wrong += left != 5 || position(record, 0) >= 4096 || !comes_before(last, record);
            wrong += record[0] == 2 && (position(record, 1) >= 4096 || position(record, 0) >= position(record, 1));
            memcpy(last, record, sizeof last);
            records++;
        }
        told += written;
        bytes += used;
        pages++;
    }
    EXPECT(mark[0] == RANGQODA_MARK_ENDED && wrong == 0);
    EXPECT(records == sets[0][5] + sets[1][5] + sets[2][5] && told == records);
    EXPECT(bytes > (size_t)3 << 20 && pages > 50);
}

static void repairs(void)
{
    static const uint8_t intact[3] = { 0xFF, 0xFF, 0x05 };
    static const uint8_t once[3] = { 0x7F, 0xFF, 0x05 };
    static const uint8_t twice[3] = { 0xFF, 0xFF, 0x06 };
    uint8_t output[3] = { 1, 2, 3 };
    uint8_t verdict[RANGQODA_VERDICT_BYTES];
    uint64_t period;

    EXPECT(rangqoda_tables(RANGQODA_FIVE, step, 32, first, 32, &period) == RANGQODA_ACCEPTED);

    EXPECT(rangqoda_repair(RANGQODA_FIVE, 0, 0, 0, 2, 0, 1, step, 32, first, 32, intact, 3, output, 3, verdict,
                           sizeof verdict) == RANGQODA_ACCEPTED);
    EXPECT(verdict[0] == RANGQODA_INTACT && verdict[8] == 0 && output[0] == 1);
    EXPECT(rangqoda_publish(verdict, sizeof verdict) == RANGQODA_PUBLISH_RECEIVED);

    EXPECT(rangqoda_repair(RANGQODA_FIVE, 0, 0, 0, 2, 0, 1, step, 32, first, 32, twice, 3, output, 3, verdict,
                           sizeof verdict) == RANGQODA_ACCEPTED);
    EXPECT(verdict[0] == RANGQODA_NONE && verdict[8] == 0 && output[0] == 1);
    EXPECT(rangqoda_publish(verdict, sizeof verdict) == RANGQODA_PUBLISH_NOTHING);

    EXPECT(rangqoda_repair(RANGQODA_FIVE, 0, 0, 0, 2, 0, 2, step, 32, first, 32, twice, 3, output, 3, verdict,
                           sizeof verdict) == RANGQODA_ACCEPTED);
    EXPECT(verdict[0] == RANGQODA_SEVERAL && verdict[1] == 0 && verdict[8] == 2 && output[0] == 1);
    EXPECT(verdict[9] == 2 && verdict[10] == 0 && verdict[11] == 0 && verdict[12] == 0 && verdict[13] == 1 && verdict[14] == 0);
    EXPECT(rangqoda_publish(verdict, sizeof verdict) == RANGQODA_PUBLISH_NOTHING);

    EXPECT(rangqoda_repair(RANGQODA_FIVE, 0, 0, 0, 2, 0, 1, step, 32, first, 32, once, 3, output, 3, verdict,
                           sizeof verdict) == RANGQODA_ACCEPTED);
    EXPECT(verdict[0] == RANGQODA_REPAIRED && verdict[8] == 1);
    EXPECT(verdict[9] == 1 && verdict[10] == 0 && verdict[11] == 23 && verdict[12] == 0);
    EXPECT(memcmp(output, intact, 3) == 0);
    EXPECT(rangqoda_publish(verdict, sizeof verdict) == RANGQODA_PUBLISH_COPY);
    EXPECT(rangqoda_publish(verdict, sizeof verdict - 1) == RANGQODA_PUBLISH_NOTHING);

    EXPECT(rangqoda_repair(RANGQODA_FIVE, 0, 0, 0, 2, 0, 1, step, 32, first, 32, once, 3, output, 2, verdict,
                           sizeof verdict) == RANGQODA_REFUSED_OUTPUT);
    EXPECT(rangqoda_repair(RANGQODA_FIVE, 0, 0, 0, 2, 0, 1, step, 32, first, 32, once, 3, output, 3, verdict,
                           sizeof verdict - 1) == RANGQODA_REFUSED_OUTPUT);
    EXPECT(rangqoda_repair(RANGQODA_FIVE, 0, 0, 0, 3, 0, 1, step, 32, first, 32, once, 3, output, 3, verdict,
                           sizeof verdict) == RANGQODA_REFUSED_RANGE);
    EXPECT(verdict[0] == RANGQODA_REPAIRED && memcmp(output, intact, 3) == 0);
}

/* The conditions of a repair, each alone and every two at once: the first in the order 1, 2, 11, 3, 5, 6, 8, 9, 10 is the answer. The
   field is broken by a small number, by the last place of the range, and by numbers whose sum with 2, or low 32 bits, would fit. */
static void repair_refused_in_order(void)
{
    static const uint32_t order[] = { 1, 2, 11, 3, 5, 6, 8, 9, 10 };
    static const size_t ranges[][2] = { { 0, 5 }, { 2, 5 }, { 0, SIZE_MAX }, { 4, 3 } };
    static const size_t fields[] = { 1, 3, (size_t)-2, ((size_t)1 << 32) + 2 };
    static const uint8_t nines[6] = { 9, 9, 9, 9, 9, 9 };
    uint64_t period;

    EXPECT(rangqoda_tables(RANGQODA_FIVE, step, 32, first, 32, &period) == RANGQODA_ACCEPTED);
    for (size_t k = 0; k < 4 * 81; k++) {
        size_t a = k / 36, b = k / 4 % 9, way = k % 4;
        unsigned broken = 1u << order[a] | 1u << order[b];
        size_t start = broken & 1u << 9 ? ranges[way][0] : 0, end = broken & 1u << 9 ? ranges[way][1] : 4;
        size_t field = broken & 1u << 10 ? fields[way] : 2, len = broken & 1u << 2 ? 0 : 5;
        uint8_t output[6], verdict[RANGQODA_VERDICT_BYTES] = { 77 }; /* one byte more than the packet, for 8 */

        memcpy(output, nines, sizeof output);
        step[1] = broken & 1u << 6 ? 0 : 26;
        EXPECT(rangqoda_repair(broken & 1u << 1 ? 52 : RANGQODA_FIVE, broken & 1u << 11 ? 32 : 0, 0, start, end, field,
                               broken & 1u << 3 ? RANGQODA_MOST_POSITIONS + 1 : 1, step, broken & 1u << 5 ? 31 : 32, first, 32, nines, len, output,
                               broken & 1u << 8 ? len + 1 : len, verdict, sizeof verdict) == order[a < b ? a : b]);
        EXPECT(verdict[0] == 77 && memcmp(output, nines, sizeof output) == 0);
    }
    step[1] = 26;
}

/* Flips a bit of so many bytes. */
static void flip(uint8_t *packet, size_t len, unsigned p)
{
    packet[len - 1 - p / 8] = (uint8_t)(packet[len - 1 - p / 8] ^ 1u << p % 8);
}

/* A packet of so many bytes, with its range and field. */
static const struct checked { size_t len, start, end, field; uint8_t sent[5]; } checked[] = {
    { 3, 0, 2, 0, { 0xFF, 0xFF, 0x03 } },             /* a checksum alone */
    { 3, 0, 2, 0, { 0x00, 0x00, 0x00 } },             /* and none made */
    { 5, 0, 4, 2, { 0x12, 0x34, 0xED, 0xCB, 0x00 } }, /* at the end of the range */
    { 5, 0, 4, 2, { 0x12, 0x34, 0x00, 0x00, 0x00 } },
    { 5, 1, 4, 1, { 0x55, 0xED, 0xFF, 0x12, 0x00 } }, /* at the start of three bytes */
    { 5, 1, 4, 1, { 0x55, 0x00, 0x00, 0x12, 0x00 } },
};

/* Whether the packet passes the second check: its field is zero, or its words, with the carries added back in, sum to FFFFh. */
static int second_check(const struct checked *c, const uint8_t *packet)
{
    unsigned total = 0;

    if (packet[c->field] == 0 && packet[c->field + 1] == 0)
        return 1;
    for (size_t i = c->start; i < c->end; i++)
        total += (i - c->start) % 2 == 0 ? packet[i] * 256u : packet[i];
    while (total > 0xFFFF)
        total = total % 0x10000 + total / 0x10000;
    return total == 0xFFFF;
}

/* Flips of a packet: how many sets leave remainder 0, how many of them pass, and the first of each in the list's order. */
static struct {
    const struct checked *of;
    uint8_t packet[5], first_listed[RANGQODA_RECORD_BYTES], first_passing[RANGQODA_RECORD_BYTES];
    uint64_t listed, passing;
} tried;

static void try_set(const uint8_t *record)
{
    uint8_t packet[5];
    uint64_t left;

    memcpy(packet, tried.packet, sizeof packet);
    for (unsigned i = 0; i < record[0]; i++)
        flip(packet, tried.of->len, position(record, i));
    if (rangqoda_remainder(9, 0, 0, packet, tried.of->len, &left) != 0 || left != 0)
        return;
    if (tried.listed++ == 0 || comes_before(record, tried.first_listed))
        memcpy(tried.first_listed, record, sizeof tried.first_listed);
    if (!second_check(tried.of, packet))
        return;
    if (tried.passing++ == 0 || comes_before(record, tried.first_passing))
        memcpy(tried.first_passing, record, sizeof tried.first_passing);
}

/* Every damage of two bits in three and in five bytes, sent with a checksum and with a field of zero, by a generator of degree 3: the
   verdict is the one that flipping every set gives, to the byte, and of several it names the first that passes, which often is
   not the first listed. */
static void verdicts_by_brute_force(void)
{
    uint8_t verdict[RANGQODA_VERDICT_BYTES], right[RANGQODA_VERDICT_BYTES], output[5], sent[5];
    uint64_t period, left, wrong = 0, later = 0;

    EXPECT(rangqoda_tables(9, step, 8, first, 8, &period) == RANGQODA_ACCEPTED);
    for (size_t k = 0; k < sizeof checked / sizeof *checked; k++) {
        const struct checked *c = &checked[k];
        unsigned bits = 8 * (unsigned)c->len;

        memcpy(sent, c->sent, sizeof sent);
        EXPECT(rangqoda_seal(9, 0, 0, sent, c->len) == RANGQODA_ACCEPTED);
        for (unsigned m = 0; m < bits * bits * 3; m++) {
            unsigned p = m % bits, q = m / bits % bits, limit = 1 + m / bits / bits;

            if (q > p || (limit == 3 && c->len > 3))
                continue;
            memset(&tried, 0, sizeof tried);
            memset(right, 0, sizeof right);
            memset(verdict, 0xAA, sizeof verdict);
            tried.of = c;
            memcpy(tried.packet, sent, sizeof sent);
            flip(tried.packet, c->len, p);
            flip(tried.packet, c->len, q);
            wrong += rangqoda_remainder(9, 0, 0, tried.packet, c->len, &left) != 0;
            if (left == 0 && second_check(c, tried.packet)) {
                right[0] = RANGQODA_INTACT;
            } else {
                every_set(bits, limit, try_set);
                right[0] = tried.passing == 0 ? RANGQODA_NONE : tried.passing == 1 ? RANGQODA_REPAIRED : RANGQODA_SEVERAL;
                right[8] = (uint8_t)tried.passing;
                memcpy(right + 9, tried.first_passing, sizeof tried.first_passing);
            }
            wrong += rangqoda_repair(9, 0, 0, c->start, c->end, c->field, limit, step, 8, first, 8, tried.packet, c->len, output,
                                     c->len, verdict, sizeof verdict) != 0;
            wrong += tried.passing > 255 || memcmp(verdict, right, sizeof right) != 0;
            later += tried.passing > 1 && comes_before(tried.first_listed, tried.first_passing);
        }
    }
    EXPECT(wrong == 0);
    EXPECT(later > 100);
}

/* Packets without a checksum: every damage of up to two bits in three bytes, at every place for the range and whatever is given for
   the field, against the list that the page call gives; and no field for stamp and maker. */
static void no_checksum(void)
{
    static const uint8_t sent[3] = { 0x7F, 0xFE, 0x05 };
    static const size_t fields[4] = { 0, 1, 3, SIZE_MAX };
    uint8_t verdict[RANGQODA_VERDICT_BYTES], output[3] = { 1, 2, 3 }, packet[3];
    uint64_t period, left, wrong = 0, kinds[4] = { 0 };
    uint32_t state = 77;

    EXPECT(rangqoda_tables(RANGQODA_FIVE, step, 32, first, 32, &period) == RANGQODA_ACCEPTED);
    EXPECT(rangqoda_repair(RANGQODA_FIVE, 0, 0, RANGQODA_NO_CHECKSUM, 1, step, 32, first, 32, sent, 3, output, 3, verdict,
                           sizeof verdict) == RANGQODA_ACCEPTED);
    EXPECT(verdict[0] == RANGQODA_INTACT && verdict[8] == 0 && output[0] == 1);
    EXPECT(rangqoda_repair(RANGQODA_FIVE, 0, 0, 0, 2, 0, 1, step, 32, first, 32, sent, 3, output, 3, verdict,
                           sizeof verdict) == RANGQODA_ACCEPTED);
    EXPECT(verdict[0] != RANGQODA_INTACT);
    for (unsigned k = 0; k < 24 * 25 * 3 * 4; k++) {
        /* no flip where p == q, one where q is 24, which is no position, and else two */
        unsigned p = k % 24, q = k / 24 % 25, place = k / 600 % 3, limit = 1 + k / 1800;
        uint8_t mark[RANGQODA_MARK_BYTES] = { RANGQODA_MARK_START }, right = RANGQODA_INTACT;
        uint8_t records[RANGQODA_RECORD_BYTES] = { 0 }, begins[RANGQODA_RECORD_BYTES] = { 0 };
        uint64_t written, listed = 0;
        size_t used;
        int within = p == q || q == 24 || limit > 1;

        memcpy(packet, sent, 3);
        flip(packet, 3, p);
        if (q < 24)
            flip(packet, 3, q);
        wrong += rangqoda_remainder(RANGQODA_FIVE, 0, 0, packet, 3, &left) != 0;
        while (left != 0 && mark[0] != RANGQODA_MARK_ENDED) {
            if (rangqoda_page(RANGQODA_FIVE, 24, limit, left, step, 32, first, 32, mark, sizeof mark, records, sizeof records,
                              &used, &written) != 0)
                break;
            if (listed == 0 && records[0] <= RANGQODA_MOST_POSITIONS)
                memcpy(begins, records, 1 + 2u * records[0]);
            listed += written;
            right = listed == 0 ? RANGQODA_NONE : listed == 1 ? RANGQODA_REPAIRED : RANGQODA_SEVERAL;
        }
        memset(output, 0xAA, 3);
        wrong += rangqoda_repair(RANGQODA_FIVE, 0, 0, place, place, fields[k % 4], limit, step, 32, first, 32, packet, 3, output, 3,
                                 verdict, sizeof verdict) != 0;
        wrong += verdict[0] != right || verdict[7] * 256u + verdict[8] != listed;
        wrong += memcmp(verdict + 9, begins, sizeof begins) != 0;
        wrong += right == RANGQODA_NONE && within;
        wrong += right == RANGQODA_REPAIRED ? rangqoda_remainder(RANGQODA_FIVE, 0, 0, output, 3, &left) != 0 || left != 0
                                            : output[0] != 0xAA || output[1] != 0xAA || output[2] != 0xAA;
        wrong += right == RANGQODA_REPAIRED && within && memcmp(output, sent, 3) != 0;
        kinds[right & 3]++;
    }
    EXPECT(wrong == 0);
    EXPECT(kinds[0] > 0 && kinds[1] > 0 && kinds[2] > 0 && kinds[3] > 0);

    verdict[0] = 77;
    EXPECT(rangqoda_repair(RANGQODA_FIVE, 0, 0, 3, 3, 0, 1, step, 32, first, 32, sent, 3, output, 3, verdict,
                           sizeof verdict) == RANGQODA_REFUSED_RANGE);
    EXPECT(rangqoda_repair(RANGQODA_FIVE, 0, 0, SIZE_MAX, SIZE_MAX, 0, 1, step, 32, first, 32, sent, 3, output, 3, verdict,
                           sizeof verdict) == RANGQODA_REFUSED_RANGE);
    EXPECT(rangqoda_repair(RANGQODA_FIVE, 0, 0, 1, 0, 0, 1, step, 32, first, 32, sent, 3, output, 3, verdict,
                           sizeof verdict) == RANGQODA_REFUSED_RANGE);
    EXPECT(verdict[0] == 77);
    memcpy(packet, sent, 3);
    EXPECT(rangqoda_stamp(RANGQODA_FIVE, RANGQODA_NO_CHECKSUM, packet, 3) == RANGQODA_REFUSED_FIELD);
    EXPECT(rangqoda_stamp(RANGQODA_FIVE, 2, 2, 2, packet, 3) == RANGQODA_REFUSED_FIELD);
    EXPECT(rangqoda_stamp(RANGQODA_FIVE, 3, 3, 3, packet, 3) == RANGQODA_REFUSED_RANGE);
    EXPECT(rangqoda_make(RANGQODA_FIVE, 0, 0, 5, RANGQODA_NO_CHECKSUM, packet, 3, &state) == RANGQODA_REFUSED_FIELD);
    EXPECT(rangqoda_make(RANGQODA_FIVE, 0, 0, 5, 3, 3, 0, packet, 3, &state) == RANGQODA_REFUSED_RANGE);
    EXPECT(rangqoda_make(RANGQODA_FIVE, 32, 0, 5, 3, 3, 0, packet, 3, &state) == RANGQODA_REFUSED_VALUES);
    EXPECT(state == 77 && memcmp(packet, sent, 3) == 0);
}

/* The simulation, held to one by the other calls: packets made from the running state, positions drawn from a list of those that are
   left, flips by hand, and a repair of each. */
static void simulated(uint64_t generator, uint64_t initial, uint64_t final, size_t entries, uint32_t seed, size_t end, size_t field,
                      size_t limit, uint64_t trials, size_t len)
{
    uint8_t packet[16], output[16], sent[16], received[16], copy[16], verdict[RANGQODA_VERDICT_BYTES];
    uint32_t counts[RANGQODA_COUNTS], due[RANGQODA_COUNTS] = { 0 }, state = 77, now = seed;
    uint64_t period, wrong = 0;

    memset(packet, 0x55, sizeof packet);
    memset(output, 0xAA, sizeof output);
    memset(copy, 0xAA, sizeof copy);
    memset(counts, 0xFF, sizeof counts);
    EXPECT(rangqoda_tables(generator, step, entries, first, entries, &period) == RANGQODA_ACCEPTED);
    EXPECT(rangqoda_simulate(generator, initial, final, seed, 0, end, field, limit, trials, step, entries, first, entries, packet, len,
                             output, len, counts, RANGQODA_COUNTS, &state) == RANGQODA_ACCEPTED);
    for (unsigned flips = 0; flips <= RANGQODA_MOST_FLIPS; flips++) {
        for (uint64_t k = 0; k < trials; k++) {
            size_t left[128], bits = 8 * len, column;

            wrong += rangqoda_make(generator, initial, final, now, 0, end, field, sent, len, &now) != RANGQODA_ACCEPTED;
            memcpy(received, sent, len);
            for (size_t p = 0; p < bits; p++)
                left[p] = p;
            for (unsigned i = 0; i < flips; i++) {
                now = 1664525u * now + 1013904223u;
                size_t place = now % (bits - i), p = left[place];
                received[len - 1 - p / 8] ^= (uint8_t)(1u << p % 8);
                memmove(left + place, left + place + 1, (bits - i - 1 - place) * sizeof left[0]);
            }
            wrong += rangqoda_repair(generator, initial, final, 0, end, field, limit, step, entries, first, entries, received, len, copy,
                                     len, verdict, sizeof verdict) != RANGQODA_ACCEPTED;
            column = verdict[0] == RANGQODA_INTACT     ? RANGQODA_COUNT_INTACT
                     : verdict[0] == RANGQODA_SEVERAL  ? RANGQODA_COUNT_SEVERAL
                     : verdict[0] == RANGQODA_NONE     ? RANGQODA_COUNT_NONE
                     : memcmp(copy, sent, len) == 0    ? RANGQODA_COUNT_REPAIRED_TO_MADE
                                                       : RANGQODA_COUNT_REPAIRED_OTHERWISE;
            due[flips * RANGQODA_COLUMNS + column]++;
        }
    }
    EXPECT(wrong == 0);
    EXPECT(memcmp(counts, due, sizeof counts) == 0);
    EXPECT(state == now);
    EXPECT(memcmp(packet, received, len) == 0 && memcmp(output, copy, sizeof output) == 0);
    for (size_t f = 0; f <= RANGQODA_MOST_FLIPS; f++) {
        const uint32_t *row = counts + f * RANGQODA_COLUMNS;
        EXPECT((uint64_t)row[0] + row[1] + row[2] + row[3] + row[4] == trials);
        EXPECT(f > limit || (row[RANGQODA_COUNT_REPAIRED_OTHERWISE] == 0 && row[RANGQODA_COUNT_NONE] == 0));
    }
    EXPECT(counts[RANGQODA_COUNT_INTACT] == trials);
}

static void simulations(void)
{
    simulated(RANGQODA_FIVE, 0, 0, 32, 0, 2, 0, 1, 1, 3);
    simulated(RANGQODA_FIVE, 31, 9, 32, 0xFFFFFFFFu, 2, 0, 2, 200, 3);
    simulated(11, 3, 5, 8, 7, 4, 2, 3, 100, 6);
    simulated(RANGQODA_CRC_16_GENIBUS, ENTRIES, 5, 14, 12, 2, 20, 16);
    simulated(RANGQODA_CRC_16_XMODEM, ENTRIES, 1, 6, 4, 4, 10, 8);
}

/* The conditions of a simulation, each alone and every two at once: the first in the order 1, 2, 11, 3, 5, 6, 8, 9, 10, 14 is the
   answer, and nothing changes. */
static void simulation_refused_in_order(void)
{
    static const uint32_t order[] = { 1, 2, 11, 3, 5, 6, 8, 9, 10, 14 };
    static const uint64_t many[] = { 0, 65536, (uint64_t)1 << 32 | 1, UINT64_MAX };
    static const size_t rooms[][2] = { { 8, 44 }, { 8, 46 }, { 7, RANGQODA_COUNTS }, { 9, RANGQODA_COUNTS } };
    uint8_t nines[9];
    uint32_t same[46];
    uint64_t period;

    memset(nines, 9, sizeof nines);
    memset(same, 9, sizeof same);
    for (size_t k = 0; k < 4 * 100; k++) {
        size_t a = k / 40, b = k / 4 % 10, way = k % 4;
        unsigned broken = 1u << order[a] | 1u << order[b];
        uint64_t generator = broken & 1u << 1 ? 52 : RANGQODA_FIVE, initial = broken & 1u << 11 ? 32 : 31;
        size_t entries = broken & 1u << 5 ? 31 : 32, limit = broken & 1u << 3 ? way % 2 * 5 : 1, len = broken & 1u << 2 ? 0 : 8;
        size_t room = broken & 1u << 8 ? rooms[way][0] : len, places = broken & 1u << 8 ? rooms[way][1] : RANGQODA_COUNTS;
        size_t start = broken & 1u << 9 ? 8 : 0, end = 7, field = broken & 1u << 10 ? 1 : 4;
        uint64_t trials = broken & 1u << 14 ? many[way] : 1;
        uint8_t packet[9], output[9];
        uint32_t counts[46], state = 77;

        memcpy(packet, nines, sizeof packet);
        memcpy(output, nines, sizeof output);
        memcpy(counts, same, sizeof counts);
        EXPECT(rangqoda_tables(RANGQODA_FIVE, step, 32, first, 32, &period) == RANGQODA_ACCEPTED);
        step[1] ^= broken & 1u << 6 ? 1 : 0;
        EXPECT(rangqoda_simulate(generator, initial, 31, 5, start, end, field, limit, trials, step, entries, first, 32, packet, len, output,
                                 room, counts, places, &state) == order[a < b ? a : b]);
        EXPECT(state == 77 && memcmp(packet, nines, sizeof packet) == 0 && memcmp(output, nines, sizeof output) == 0);
        EXPECT(memcmp(counts, same, sizeof counts) == 0);
    }
    /* an accepted range without bytes has no field to stamp */
    uint8_t packet[8] = { 0 }, output[8] = { 0 };
    uint32_t counts[RANGQODA_COUNTS], state;
    EXPECT(rangqoda_tables(RANGQODA_FIVE, step, 32, first, 32, &period) == RANGQODA_ACCEPTED);
    EXPECT(rangqoda_simulate(RANGQODA_FIVE, 0, 0, 5, RANGQODA_NO_CHECKSUM, 1, 1, step, 32, first, 32, packet, 8, output, 8, counts,
                             RANGQODA_COUNTS, &state) == RANGQODA_REFUSED_FIELD);
}

/* One way of rearranging a block, of at most 65 times 65 bytes, with a byte on either side of both slices that is not lent. The input is
   1 to 251, over and over, and all else EEh before. Tells how many things are wrong: the answer, bytes of the input or not lent that
   changed, bytes of the output. */
static unsigned block(int back, size_t rows, size_t columns, size_t input_len, size_t output_len, uint32_t number)
{
    static uint8_t lent[2][1 + 65 * 65 + 1];
    uint8_t *input = lent[0] + 1, *output = lent[1] + 1;
    unsigned wrong;

    memset(lent, 0xEE, sizeof lent);
    for (size_t k = 0; k < input_len; k++)
        input[k] = (uint8_t)(k % 251 + 1);
    wrong = (back ? rangqoda_gather : rangqoda_scatter)(rows, columns, input, input_len, output, output_len) != number;
    for (size_t k = 0; k < input_len; k++)
        wrong += input[k] != (uint8_t)(k % 251 + 1);
    for (size_t k = 0; number && k < output_len; k++)
        wrong += output[k] != 0xEE;
    wrong += lent[0][0] != 0xEE || input[input_len] != 0xEE || lent[1][0] != 0xEE || output[output_len] != 0xEE;
    /* each byte of an accepted input: in which row and column it is written, and where these are read */
    for (size_t k = 0; !number && k < input_len; k++) {
        size_t row = back ? k % rows : k / columns, column = back ? k / rows : k % columns;

        wrong += output[back ? row * columns + column : column * rows + row] != input[k];
    }
    return wrong;
}

/* Both ways, with lengths that fit and with each of them off by one. */
static unsigned block_near(size_t rows, size_t columns)
{
    size_t bytes = rows * columns;
    unsigned wrong = 0;

    for (int back = 0; back < 2; back++) {
        wrong += block(back, rows, columns, bytes, bytes, RANGQODA_ACCEPTED);
        wrong += block(back, rows, columns, bytes - 1, bytes, RANGQODA_REFUSED_BLOCK_LENGTH);
        wrong += block(back, rows, columns, bytes + 1, bytes, RANGQODA_REFUSED_BLOCK_LENGTH);
        wrong += block(back, rows, columns, bytes, bytes - 1, RANGQODA_REFUSED_BLOCK_LENGTH);
        wrong += block(back, rows, columns, bytes, bytes + 1, RANGQODA_REFUSED_BLOCK_LENGTH);
    }
    return wrong;
}

static void blocks(void)
{
    static const size_t unfit[] = { 0, 65, 128, (size_t)1 << 32, (size_t)1 << 63, SIZE_MAX };
    uint8_t six[6] = { 0 };

    EXPECT(rangqoda_scatter(2, 3, (const uint8_t *)"abcdef", 6, six, 6) == RANGQODA_ACCEPTED);
    EXPECT(memcmp(six, "adbecf", 6) == 0);
    EXPECT(rangqoda_gather(2, 3, (const uint8_t *)"adbecf", 6, six, 6) == RANGQODA_ACCEPTED);
    EXPECT(memcmp(six, "abcdef", 6) == 0);

    for (size_t rows = 1; rows <= 8; rows++)
        for (size_t columns = 1; columns <= 8; columns++)
            EXPECT(block_near(rows, columns) == 0);
    EXPECT(block_near(1, 64) == 0);
    EXPECT(block_near(64, 1) == 0);
    EXPECT(block_near(64, 64) == 0);

    /* 12 before 13: with lengths that are the product modulo 2^64, where that is small, and with others */
    for (size_t k = 0; k < sizeof unfit / sizeof *unfit; k++)
        for (int back = 0; back < 2; back++) {
            for (size_t m = 0; m < sizeof unfit / sizeof *unfit; m++) {
                size_t product = unfit[k] * unfit[m], bytes = product <= 65 * 65 ? product : 9;

                EXPECT(block(back, unfit[k], unfit[m], bytes, bytes, RANGQODA_REFUSED_BLOCK_SHAPE) == 0);
            }
            EXPECT(block(back, unfit[k], 1, 65, 65, RANGQODA_REFUSED_BLOCK_SHAPE) == 0);
            EXPECT(block(back, 1, unfit[k], 65, 64, RANGQODA_REFUSED_BLOCK_SHAPE) == 0);
        }
}

int main(void)
{
    remainder_and_seal();
    named();
    of_width();
    by_ccitt();
    overlapping();
    unfit_values();
    values();
    sum_and_stamp();
    computed_zeros();
    made();
    unmade();
    intact();
    tables();
    pages();
    after_every_mark();
    long_list();
    repairs();
    intact_by_remainder_and_sum();
    repair_refused_in_order();
    verdicts_by_brute_force();
    no_checksum();
    simulations();
    simulation_refused_in_order();
    blocks();
    printf("%d checks, %d failed\n", checks, failures);
    return failures != 0;
}
