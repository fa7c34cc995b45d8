/*
 * rangqoda.h - error correction from CRCs, for packets of up to 512 bytes
 *
 * A packet ends in a CRC and carries an Internet checksum (RFC 1071) over a
 * part of its bytes, or none. The library takes remainders and seals packets,
 * sums and stamps them, makes packets from a seed, lists all sets of at most so
 * many bit errors that explain a remainder, strikes those that the checksum
 * contradicts, and repairs a packet where just one is left. It tries settings on
 * packets that it makes and damages itself. Apart from packets, it scatters bytes
 * before storage and gathers them again.
 *
 * Link with librangqoda.a (x86-64 Linux). Nothing is allocated, kept between
 * calls or shared: calls on different memory may run at the same time. A page
 * and a repair take less than 18 KiB of stack, a simulation less than 20, and
 * the other calls less than 1.
 *
 * "rt lib", in the folder crates/rangqoda of the repository, proves the library
 * and makes the archive, out/librangqoda.a there. A run of the tests takes it
 * away and makes it anew: keep a copy beside this header to link with.
 *
 *
 * Terms
 *
 *   generator  A binary polynomial as a number: 2^i stands for x^i. Its degree n
 *              is the exponent of its leading term. Accepted: odd numbers with
 *              n from 3 to 16. Catalogues leave the leading term out: what they
 *              write as 1021h is 11021h here. 1021h itself is accepted too, as a
 *              generator of degree 12, and seals wrongly without a word.
 *              RANGQODA_OF_WIDTH takes a width and a polynomial as catalogues
 *              write it.
 *   length     L, the bits of a packet, 8 for each byte. Accepted: greater than
 *              n, and at most 4096. The page call is told L itself, and takes
 *              any number of bits.
 *   position   Bits are counted from the packet's end: 0 is the lowest bit of
 *              its last byte, and L - 1 the highest bit of its first.
 *   initial    Two values below 2^n that are added (XOR) to the packet before
 *   final      it is divided: the initial value to its first n bits, the final
 *              value to its last n, with the highest bit first. Where L < 2n
 *              they meet in some bits, and both are added there.
 *   remainder  What is left when the packet with these values added, read as a
 *              binary polynomial with the bit at position p as the coefficient
 *              of x^p, is divided by the generator. Also called the syndrome. A
 *              packet passes the CRC where nothing is left. The CRC is its last
 *              n bits.
 *   pattern    A set of at most 4 positions: bits that may have flipped. Its
 *              syndrome is what is left of the sum of their powers of x.
 *   limit      N, the most positions that a listed pattern may have: 1 to 4.
 *   span       Of a pattern: its largest position minus its smallest, and 0
 *              for one position or none.
 *   list       All patterns with a given syndrome, below L and with at most N
 *              positions. Patterns of fewer positions stand first. Those of
 *              as many go by their span, the narrower first. Those of as many
 *              and of one span go by their smallest positions, the lower
 *              first, then by the next smallest, and so on.
 *   sum        RFC 1071's: bytes as 16-bit numbers, high byte first, with a
 *              zero behind an odd one, and carries added back in. There is no
 *              pseudo-header. The sum of nothing is 0.
 *   range      The bytes [start, end) of a packet. Accepted: start <= end and
 *              8 * end <= L - n, so that it has no bit of the CRC.
 *   field      The two bytes of the range that hold the checksum, named by the
 *              first. Accepted: both in the range, the first an even number of
 *              bytes from its start.
 *   second     By range and field. Where start < end, a packet passes it if its
 *   check      field is 0000h, which says that no checksum was made (RFC 768),
 *              or if the sum of the range is FFFFh. Where start = end, the
 *              packet carries no checksum. Then there is no second check, a
 *              packet passes both where it passes the CRC, and a repair does
 *              not look at the field: it may be any number.
 *              RANGQODA_NO_CHECKSUM is such a range, and is accepted with every
 *              accepted length.
 *
 *
 * Answers
 *
 * Every call but rangqoda_sum and rangqoda_publish returns 0 when it is
 * accepted, and otherwise the number of the first condition that applies, of
 * those that are named for the call, in that order. A call that is refused
 * changes no memory. Nothing has to be checked beforehand, as long as each
 * pointer is good for the number of elements passed with it: whatever the
 * numbers and lengths are, the call judges them, and it ends.
 *
 * Read every answer; compilers that can do so warn where one is not read. What
 * a refused call was to write still holds what it held before.
 *
 *    1  an even generator, or one whose degree is not 3 to 16
 *    2  L <= n, or L > 4096
 *    3  limit 0 or above 4
 *    4  syndrome 2^n or more
 *    5  a table not of 2^n entries
 *    6  a table entry wrong
 *    7  mark: the pattern not strictly ascending, a position not below L, more
 *       positions than the limit; or bytes that are no mark (see below)
 *    8  output: of a page, below 9 bytes; of a repair or a simulation, not as
 *       long as the packet; a verdict not of RANGQODA_VERDICT_BYTES, or counts
 *       not of RANGQODA_COUNTS
 *    9  start > end, or 8 * end > L - n
 *   10  field not whole in the range, or not an even number of bytes from its
 *       start; of a repair, only where start < end
 *   11  initial or final value 2^n or more
 *   12  rows or columns 0 or above 64
 *   13  input or output not of rows * columns bytes
 *   14  trials 0 or above 65535
 *
 *
 * Memory
 *
 * Memory is lent for the time of a call, as a pointer and a number of elements
 * (not bytes: a table of 32 entries has step_len 32). What is lent through a
 * pointer to const is only read. What is lent to be written must not overlap
 * anything else that is lent to the same call.
 *
 * No pointer may be null, not even that of an empty slice: a slice of length 0
 * is neither read nor written, so any pointer that is not null and is aligned
 * for its type will do for it. (Rust's empty slices are such pointers.)
 *
 *
 * Which CRC this is
 *
 * Not CRC-32, and nothing reflected: degrees 3 to 16, with the highest bit
 * first. The register starts at the initial value, and the final value is added
 * to it at the end ("init" and "xorout" of the catalogues): the remainder of a
 * message and n zero bits is its CRC, and that of a message and its CRC is 0.
 * With 0 and 0 it is division by the generator alone.
 *
 * CRCs of the catalogues have names below. Such a name stands for three
 * arguments, generator, initial and final:
 *
 *   rangqoda_seal(RANGQODA_CRC_16_IBM_3740, packet, packet_len)
 *   rangqoda_seal(RANGQODA_CCITT, 0xFFFF, 0, packet, packet_len)
 *
 * are the same. It is no expression: it cannot be chosen by ?:, assigned, or
 * handed on through a second macro. RANGQODA_GENERATOR_OF(name) is its
 * generator alone, for the calls that take no values: tables, patterns and
 * pages belong to the generator.
 *
 * A CRC without a name is written by its width and its polynomial as catalogues
 * have it, without its top bit. This is a third way to write the same:
 *
 *   rangqoda_seal(RANGQODA_OF_WIDTH(16, 0x1021, 0xFFFF, 0), packet, packet_len)
 *
 * With a width outside 3 to 16, or a polynomial that is even or does not fit it,
 * the call is refused by 1, and with a value that does not fit it by 11.
 *
 * Five names share the generator RANGQODA_CCITT, and "CRC-CCITT" alone may mean
 * any of them, or one that is reflected:
 *
 *   CRC-16/XMODEM       starts at 0 (ZMODEM, ACORN, LTE, V-41-MSB)
 *   CRC-16/IBM-3740     starts at FFFFh (CCITT-FALSE, AUTOSAR)
 *   CRC-16/SPI-FUJITSU  starts at 1D0Fh (AUG-CCITT)
 *   CRC-16/GENIBUS      starts at FFFFh, and all bits are inverted at the end
 *                       (EPC, I-CODE, DARC)
 *   CRC-16/GSM          starts at 0, and all bits are inverted at the end
 *
 * CRC-16/KERMIT ("CCITT-TRUE") and CRC-16/IBM-SDLC (X.25) have that generator
 * too and are reflected, and so are CRC-16/ARC, which "CRC-16" alone mostly
 * means, and CRC-16/MODBUS: these calls are not for them.
 *
 * Make sure of the CRC that sealed the packets. With the right generator and a
 * wrong value all intact packets of one length leave the same remainder, and
 * where a pattern explains it up to all of them may be repaired, to other
 * data too: of packets of 16 bytes sealed by CRC-16/CMS and taken for
 * CRC-16/UMTS at N = 2, half were. Where no packet is intact, suspect the CRC.
 *
 * A packet is whole bytes, and its message is its first L - n bits. Where n is
 * not a multiple of 8 that is no whole number of bytes. To a message of whole
 * bytes, then, k = 8 - n % 8 zero bits are put in front, and the initial value
 * passed is the one got from its own by k times initial = step[initial]; 0
 * stays 0.
 *
 *
 * What a repair does not tell
 *
 * RANGQODA_REPAIRED says that just one set of at most N bit errors leads to a
 * packet that passes both checks. If at most N bits flipped, that is the
 * packet sent. If more did, it may be a wrong packet, and nothing in the
 * verdict shows it.
 *
 * Of packets that are noise at most this part is repaired, on average:
 *
 *   (sets of at most N positions among L) / 2^n / 32768
 *
 * since one sum in 65535 is right, and one field in 65536 is zero. With
 * RANGQODA_CCITT and 64 bytes (L = 512) that is 1 in 16,000 at N = 2, 1 in 96
 * at N = 3; at N = 4 it is above 1 and tells nothing. Counted: 21 of 400,000 at
 * N = 2, 66 of 20,000 at N = 3, 12 of 500 at N = 4. It grows about with L^N.
 *
 * Packets with a few more flips than N are worse than noise, since they lie
 * close to others that pass: of 64 bytes with four flipped bits 288 of 100,000
 * were falsely repaired at N = 2, and with five 169 of 2,000 at N = 3. And a
 * greater N repairs less, since several sets pass more often: a single flip in
 * 64 bytes is always repaired at N = 2, and once in nine times at N = 3.
 *
 * Without a checksum that estimate is not divided by 32768. Of noise of 16
 * bytes 193 of 100,000 were repaired at N = 1, and 8,068 at N = 2; and 1 in 2^n
 * is even said to be intact. With four flips, at N = 2, 3,272 of 20,000 were
 * falsely repaired in 16 bytes (24 of 100,000 with a checksum) and 940 of 20,000
 * in 64 (288 of 100,000); with three, at N = 1, 740 of 100,000 in 16 bytes and
 * 1,212 of 10,000 in 512. Take N = 1 there.
 *
 * Nothing but the CRC strikes a wrong set either where the packet was sent with
 * a field of zero, as long as the set leaves the field zero. With four flips, at
 * N = 2, 1,581 of 20,000 such packets were falsely repaired in 16 bytes and
 * 1,098 of 20,000 in 64; with three, at N = 1, 487 of 100,000 in 16 bytes and
 * 1,191 of 10,000 in 512. So take N = 1 for senders that make no checksum.
 *
 * So choose the least N that the channel needs, publish it beside the number
 * of repairs, and hold these for doubtful where many verdicts are
 * RANGQODA_NONE. For packets with a checksum and up to 8 flipped bits
 * rangqoda_simulate counts such repairs with other settings.
 *
 * Drop-outs of zeros are worse than noise. Where a recording puts zeros in the
 * place of lost bytes, the field may be among them, and a field of zero asks for
 * no sum: of 40,000 packets of 64 bytes whose last 9 to 60 bytes became zeros,
 * 1,475 were repaired falsely at N = 2 and 311 at N = 1. A packet of zeros alone
 * is even RANGQODA_INTACT by a CRC whose values are 0, such as CRC-16/XMODEM; an
 * initial value helps there, and not where a part of the packet is left. So
 * prefer a CRC with an initial value, leave packets of zeros out before they come
 * to a repair, and where the sender always stamps, hold a repair that ends in a
 * field of zero for doubtful.
 *
 *
 * How long it takes (measured with version 0.11.0, built by an older Rattle)
 *
 * Each page and each repair verifies both tables: 0.05 ms for degree 16, and
 * half as long with each degree less. Beyond that a repair takes time as
 * L^(N-1), and with the length of the list, about L^N/(N! 2^n): at small degrees
 * and N of 3 or 4 that can be hours. In orders of magnitude, with
 * RANGQODA_CCITT:
 *
 *               N = 1     N = 2     N = 3     N = 4
 *    16 bytes   0.1 ms    0.1 ms    0.1 ms    0.5 ms
 *    64 bytes   0.1 ms    0.1 ms    0.3 ms    0.03 s
 *   512 bytes   0.1 ms    0.1 ms    0.03 s    30 s
 *
 * A whole list takes as long, but at N = 2, where the list has narrow pairs
 * first: it makes a pass over the packet for each span that some pair has, and
 * takes 1 ms for 512 bytes.
 *
 * With a generator that has an even number of ones, as RANGQODA_CCITT, an even
 * number of flipped bits leaves a remainder with an even number of ones, and an
 * odd number of them one with an odd number, if the packet sent passes the CRC.
 * Numbers of flips that this rules out are not tried. If N is even and the
 * remainder has an odd number of ones, or the other way round, the time is that
 * of N - 1 (at N = 1, of verifying the tables); if not, the list has about
 * 2 L^N/(N! 2^n) patterns.
 *
 * A call cannot be interrupted. Small pages do not bound its time: a page
 * searches until its next record or the end of the list.
 *
 * Of an intact packet a repair spends nearly all its time on the tables.
 * Remainder and sum need none, and take 0.2 microseconds for 64 bytes and 1.8 for
 * 512. So take them first, and repair only what is damaged: the answer is the
 * same, and a stream with damage in one packet of twenty goes 11 to 21 times as
 * fast. With a range from 0 to end and a field in it (or without a checksum, by the remainder
 * alone):
 *
 *   uint64_t left;
 *   if (rangqoda_remainder(CRC, packet, len, &left) == 0 && left == 0 &&
 *       ((packet[field] == 0 && packet[field + 1] == 0) ||
 *        rangqoda_sum(packet, end) == 0xFFFF)) {
 *       ... intact ...
 *   } else if (rangqoda_repair(CRC, 0, end, field, ...) == 0) {
 *       ... the verdict ...
 *   }
 *
 *
 * Encodings: every number of more than one byte has its high byte first
 *
 *   record   One byte, the count k of positions, 0 to 4, then k positions,
 *            ascending, of two bytes each: 1 to 9 bytes. A page is a run of
 *            records with nothing between them.
 *
 *   mark     RANGQODA_MARK_BYTES bytes: where a list is to be continued. The
 *            first is
 *              RANGQODA_MARK_START   before the first pattern of the list
 *              RANGQODA_MARK_ENDED   behind the last
 *              0 to 4                after the pattern whose record stands
 *                                    here; it need not be a listed one
 *            Any other length or first byte is refused by 7. Bytes behind the
 *            first, or behind the record, are not read; a mark that the
 *            library writes has zeros there.
 *
 *   verdict  RANGQODA_VERDICT_BYTES bytes, written by a repair:
 *              byte 0         the kind, RANGQODA_INTACT and so on
 *              bytes 1 to 8   how many listed patterns lead to a packet that
 *                             passes: 1 for RANGQODA_REPAIRED, 2 or more for
 *                             RANGQODA_SEVERAL, otherwise 0
 *              bytes 9 to 17  the record of a pattern, then zeros: the one that
 *                             passes for RANGQODA_REPAIRED, of those that pass
 *                             the one that stands first in the list for
 *                             RANGQODA_SEVERAL, otherwise zeros only
 */

#ifndef RANGQODA_H
#define RANGQODA_H

#include <stddef.h>
#include <stdint.h>

#ifdef __cplusplus
extern "C" {
#endif

/* The version, which moves with CHANGELOG.md. */
#define RANGQODA_VERSION_MAJOR 0
#define RANGQODA_VERSION_MINOR 11
#define RANGQODA_VERSION_PATCH 0

/* Before a declaration: the compiler warns where the answer is not read. */
#if defined(__GNUC__)
#define RANGQODA_ANSWER __attribute__((warn_unused_result))
#else
#define RANGQODA_ANSWER
#endif

/* Generators with names. */
#define RANGQODA_FIVE 53u         /* x^5 + x^4 + x^2 + 1 */
#define RANGQODA_CCITT 0x11021u   /* x^16 + x^12 + x^5 + 1 */

/* CRCs by the catalogues' names: generator, initial and final value. */
#define RANGQODA_FIRST_OF_THREE(generator, initial, final) (generator)
#define RANGQODA_GENERATOR_OF(crc) RANGQODA_FIRST_OF_THREE(crc)
#define RANGQODA_CRC_3_GSM             0xBu, 0x0u, 0x7u
#define RANGQODA_CRC_4_INTERLAKEN      0x13u, 0xFu, 0xFu
#define RANGQODA_CRC_5_EPC_C1G2        0x29u, 0x09u, 0x00u
#define RANGQODA_CRC_6_CDMA2000_A      0x67u, 0x3Fu, 0x00u
#define RANGQODA_CRC_6_CDMA2000_B      0x47u, 0x3Fu, 0x00u
#define RANGQODA_CRC_6_GSM             0x6Fu, 0x00u, 0x3Fu
#define RANGQODA_CRC_7_MMC             0x89u, 0x00u, 0x00u
#define RANGQODA_CRC_7_UMTS            0xC5u, 0x00u, 0x00u
#define RANGQODA_CRC_8_AUTOSAR         0x12Fu, 0xFFu, 0xFFu
#define RANGQODA_CRC_8_CDMA2000        0x19Bu, 0xFFu, 0x00u
#define RANGQODA_CRC_8_DVB_S2          0x1D5u, 0x00u, 0x00u
#define RANGQODA_CRC_8_GSM_A           0x11Du, 0x00u, 0x00u
#define RANGQODA_CRC_8_GSM_B           0x149u, 0x00u, 0xFFu
#define RANGQODA_CRC_8_I_432_1         0x107u, 0x00u, 0x55u
#define RANGQODA_CRC_8_I_CODE          0x11Du, 0xFDu, 0x00u
#define RANGQODA_CRC_8_LTE             0x19Bu, 0x00u, 0x00u
#define RANGQODA_CRC_8_MIFARE_MAD      0x11Du, 0xC7u, 0x00u
#define RANGQODA_CRC_8_NRSC_5          0x131u, 0xFFu, 0x00u
#define RANGQODA_CRC_8_OPENSAFETY      0x12Fu, 0x00u, 0x00u
#define RANGQODA_CRC_8_SAE_J1850       0x11Du, 0xFFu, 0xFFu
#define RANGQODA_CRC_8_SMBUS           0x107u, 0x00u, 0x00u
#define RANGQODA_CRC_10_ATM            0x633u, 0x000u, 0x000u
#define RANGQODA_CRC_10_CDMA2000       0x7D9u, 0x3FFu, 0x000u
#define RANGQODA_CRC_10_GSM            0x575u, 0x000u, 0x3FFu
#define RANGQODA_CRC_11_FLEXRAY        0xB85u, 0x01Au, 0x000u
#define RANGQODA_CRC_11_UMTS           0xB07u, 0x000u, 0x000u
#define RANGQODA_CRC_12_CDMA2000       0x1F13u, 0xFFFu, 0x000u
#define RANGQODA_CRC_12_DECT           0x180Fu, 0x000u, 0x000u
#define RANGQODA_CRC_12_GSM            0x1D31u, 0x000u, 0xFFFu
#define RANGQODA_CRC_13_BBC            0x3CF5u, 0x0000u, 0x0000u
#define RANGQODA_CRC_14_GSM            0x602Du, 0x0000u, 0x3FFFu
#define RANGQODA_CRC_15_CAN            0xC599u, 0x0000u, 0x0000u
#define RANGQODA_CRC_15_MPT1327        0xE815u, 0x0000u, 0x0001u
#define RANGQODA_CRC_16_CDMA2000       0x1C867u, 0xFFFFu, 0x0000u
#define RANGQODA_CRC_16_CMS            0x18005u, 0xFFFFu, 0x0000u
#define RANGQODA_CRC_16_DDS_110        0x18005u, 0x800Du, 0x0000u
#define RANGQODA_CRC_16_DECT_R         0x10589u, 0x0000u, 0x0001u
#define RANGQODA_CRC_16_DECT_X         0x10589u, 0x0000u, 0x0000u
#define RANGQODA_CRC_16_EN_13757       0x13D65u, 0x0000u, 0xFFFFu
#define RANGQODA_CRC_16_GENIBUS        0x11021u, 0xFFFFu, 0xFFFFu
#define RANGQODA_CRC_16_GSM            0x11021u, 0x0000u, 0xFFFFu
#define RANGQODA_CRC_16_IBM_3740       0x11021u, 0xFFFFu, 0x0000u
#define RANGQODA_CRC_16_LJ1200         0x16F63u, 0x0000u, 0x0000u
#define RANGQODA_CRC_16_OPENSAFETY_A   0x15935u, 0x0000u, 0x0000u
#define RANGQODA_CRC_16_OPENSAFETY_B   0x1755Bu, 0x0000u, 0x0000u
#define RANGQODA_CRC_16_PROFIBUS       0x11DCFu, 0xFFFFu, 0xFFFFu
#define RANGQODA_CRC_16_SPI_FUJITSU    0x11021u, 0x1D0Fu, 0x0000u
#define RANGQODA_CRC_16_T10_DIF        0x18BB7u, 0x0000u, 0x0000u
#define RANGQODA_CRC_16_TELEDISK       0x1A097u, 0x0000u, 0x0000u
#define RANGQODA_CRC_16_UMTS           0x18005u, 0x0000u, 0x0000u
#define RANGQODA_CRC_16_XMODEM         0x11021u, 0x0000u, 0x0000u

/* Other names that the catalogues have for some of them. */
#define RANGQODA_CRC_5_EPC             RANGQODA_CRC_5_EPC_C1G2
#define RANGQODA_CRC_7                 RANGQODA_CRC_7_MMC
#define RANGQODA_CRC_8                 RANGQODA_CRC_8_SMBUS
#define RANGQODA_CRC_8_ITU             RANGQODA_CRC_8_I_432_1
#define RANGQODA_CRC_10                RANGQODA_CRC_10_ATM
#define RANGQODA_CRC_10_I_610          RANGQODA_CRC_10_ATM
#define RANGQODA_CRC_11                RANGQODA_CRC_11_FLEXRAY
#define RANGQODA_X_CRC_12              RANGQODA_CRC_12_DECT
#define RANGQODA_CRC_15                RANGQODA_CRC_15_CAN
#define RANGQODA_R_CRC_16              RANGQODA_CRC_16_DECT_R
#define RANGQODA_X_CRC_16              RANGQODA_CRC_16_DECT_X
#define RANGQODA_CRC_16_DARC           RANGQODA_CRC_16_GENIBUS
#define RANGQODA_CRC_16_EPC            RANGQODA_CRC_16_GENIBUS
#define RANGQODA_CRC_16_EPC_C1G2       RANGQODA_CRC_16_GENIBUS
#define RANGQODA_CRC_16_I_CODE         RANGQODA_CRC_16_GENIBUS
#define RANGQODA_CRC_16_AUTOSAR        RANGQODA_CRC_16_IBM_3740
#define RANGQODA_CRC_16_CCITT_FALSE    RANGQODA_CRC_16_IBM_3740
#define RANGQODA_CRC_16_IEC_61158_2    RANGQODA_CRC_16_PROFIBUS
#define RANGQODA_CRC_16_AUG_CCITT      RANGQODA_CRC_16_SPI_FUJITSU
#define RANGQODA_CRC_16_BUYPASS        RANGQODA_CRC_16_UMTS
#define RANGQODA_CRC_16_VERIFONE       RANGQODA_CRC_16_UMTS
#define RANGQODA_CRC_16_ACORN          RANGQODA_CRC_16_XMODEM
#define RANGQODA_CRC_16_LTE            RANGQODA_CRC_16_XMODEM
#define RANGQODA_CRC_16_V_41_MSB       RANGQODA_CRC_16_XMODEM
#define RANGQODA_ZMODEM                RANGQODA_CRC_16_XMODEM

/* A CRC by its width and its polynomial without the top bit. Its generator is 0,
   which is refused, where the width or the polynomial is unfit. Like a name it
   stands for three arguments. */
#define RANGQODA_OF_WIDTH(width, polynomial, initial, final)                   \
    ((width) >= 3 && (width) <= 16 && (uint64_t)(polynomial) >> (width) == 0   \
         ? (uint64_t)1 << (width) | (uint64_t)(polynomial)                     \
         : (uint64_t)0),                                                       \
    (initial), (final)

/* The range of a packet that carries no checksum: start, end and a number for the
   field. Like the name of a CRC it is no expression, and stands for its
   arguments. */
#define RANGQODA_NO_CHECKSUM 0u, 0u, 0u

/* The numbers of the conditions above. */
#define RANGQODA_ACCEPTED 0u
#define RANGQODA_REFUSED_GENERATOR 1u
#define RANGQODA_REFUSED_LENGTH 2u
#define RANGQODA_REFUSED_LIMIT 3u
#define RANGQODA_REFUSED_SYNDROME 4u
#define RANGQODA_REFUSED_TABLE_LENGTH 5u
#define RANGQODA_REFUSED_TABLE_ENTRY 6u
#define RANGQODA_REFUSED_MARK 7u
#define RANGQODA_REFUSED_OUTPUT 8u
#define RANGQODA_REFUSED_RANGE 9u
#define RANGQODA_REFUSED_FIELD 10u
#define RANGQODA_REFUSED_VALUES 11u
#define RANGQODA_REFUSED_BLOCK_SHAPE 12u
#define RANGQODA_REFUSED_BLOCK_LENGTH 13u
#define RANGQODA_REFUSED_TRIALS 14u

/* The first-position table's entry where no power of x leaves the remainder. */
#define RANGQODA_NO_POSITION 65535u

/* The most positions of a pattern; the bytes of its record, which is the
   longest, and so the shortest output that a page accepts; those of a mark. */
#define RANGQODA_MOST_POSITIONS 4
#define RANGQODA_RECORD_BYTES (1 + 2 * RANGQODA_MOST_POSITIONS)

#define RANGQODA_MARK_BYTES RANGQODA_RECORD_BYTES
#define RANGQODA_MARK_START 0xFEu
#define RANGQODA_MARK_ENDED 0xFFu

#define RANGQODA_VERDICT_BYTES (9 + RANGQODA_RECORD_BYTES)
#define RANGQODA_INTACT 0u
#define RANGQODA_REPAIRED 1u
#define RANGQODA_SEVERAL 2u
#define RANGQODA_NONE 3u

/* The counts of a simulation: a row for each number of flipped bits, 0 to
   RANGQODA_MOST_FLIPS, and in each row these five. Row f, column c is
   counts[f * RANGQODA_COLUMNS + c]. */
#define RANGQODA_MOST_FLIPS 8
#define RANGQODA_COLUMNS 5
#define RANGQODA_COUNTS (RANGQODA_COLUMNS * (RANGQODA_MOST_FLIPS + 1))
#define RANGQODA_COUNT_INTACT 0u
#define RANGQODA_COUNT_REPAIRED_TO_MADE 1u
#define RANGQODA_COUNT_REPAIRED_OTHERWISE 2u
#define RANGQODA_COUNT_SEVERAL 3u
#define RANGQODA_COUNT_NONE 4u

/* What rangqoda_publish answers. */
#define RANGQODA_PUBLISH_RECEIVED 0u
#define RANGQODA_PUBLISH_COPY 1u
#define RANGQODA_PUBLISH_NOTHING 2u

/*
 * The remainder of a packet.
 *
 * Refused by 1, 2, 11. Writes *remainder, below 2^n.
 */
RANGQODA_ANSWER
uint32_t rangqoda_remainder(uint64_t generator,
                            uint64_t initial, uint64_t final,
                            const uint8_t *packet, size_t packet_len,
                            uint64_t *remainder);

/*
 * Seals a packet: sets its last n bits so that its remainder is 0.
 *
 * Refused by 1, 2, 11. Changes no other bit of the packet, and none at all
 * where the remainder is 0 already.
 */
RANGQODA_ANSWER
uint32_t rangqoda_seal(uint64_t generator, uint64_t initial, uint64_t final,
                       uint8_t *packet, size_t packet_len);

/*
 * The sum of any number of bytes. Never refused: returns the sum itself.
 */
uint16_t rangqoda_sum(const uint8_t *bytes, size_t len);

/*
 * Stamps a packet, so that the sum of the range [start, end) is FFFFh: the two
 * bytes at field become what the sum of the range, taken with these two as zero,
 * lacks to FFFFh, high byte first. Where it lacks nothing they become FFFFh, which
 * is as good to the sum: 0000h would say that no checksum was made.
 *
 * start, end and field are places of bytes in the packet, counted from 0. A
 * packet that is to be sealed too is stamped first.
 *
 * Refused by 1, 2, 9, 10. Changes no byte but the two of the field. An accepted
 * range with start = end has no field, and is refused by 10.
 */
RANGQODA_ANSWER
uint32_t rangqoda_stamp(uint64_t generator,
                        size_t start, size_t end, size_t field,
                        uint8_t *packet, size_t packet_len);

/*
 * Makes a packet from a seed: fills it, stamps the range [start, end) at field
 * as rangqoda_stamp does, and seals it. The same numbers make the same packet,
 * whatever it held before.
 *
 * The bytes come from a 32-bit state, the seed to begin with. Each step goes
 * from a state s to (1664525 * s + 1013904223) mod 2^32, and the top eight bits
 * of that are the next byte, from the first one on. Any seed will do. The first
 * byte that seed 0 yields is 3Ch.
 *
 * Refused by 1, 2, 11, 9, 10, and so by 10 for an accepted range with
 * start = end, which has no field. Otherwise writes all bytes of packet, and
 * into *state the state after packet_len steps. A repair of the packet by the
 * same CRC, range and field says RANGQODA_INTACT.
 *
 * A footnote "CRC-16/XMODEM, 16 bytes, checksum over bytes 0 to 13 at byte 12,
 * seed 7" is the call
 *
 *   rangqoda_make(RANGQODA_CRC_16_XMODEM, 7, 0, 14, 12, packet, 16, &state)
 *
 * For more packets pass the state as the next seed. Seeds that follow each
 * other are a poor choice for trials: most give the same first byte as their
 * neighbours, and later bytes at fixed distances from theirs, give or take 1.
 */
RANGQODA_ANSWER
uint32_t rangqoda_make(uint64_t generator, uint64_t initial, uint64_t final,
                       uint32_t seed, size_t start, size_t end, size_t field,
                       uint8_t *packet, size_t packet_len, uint32_t *state);

/*
 * Scatters bytes before storage: they are written into a block by rows and read
 * by columns. Byte j * rows + i of the output is byte i * columns + j of the
 * input, for i below rows and j below columns.
 *
 * Of any run of adjacent bytes of the output, at most as many as there are rows,
 * no two come from one row. So where such a run is lost, and as many other bytes
 * stand in its place, rangqoda_gather gives back every row with at most one byte
 * that differs. That byte is not restored: up to eight of its bits may be wrong,
 * and a repair explains at most four.
 *
 * Refused by 12, 13. Otherwise writes all bytes of output, which must not overlap
 * the input.
 */
RANGQODA_ANSWER
uint32_t rangqoda_scatter(size_t rows, size_t columns,
                          const uint8_t *input, size_t input_len,
                          uint8_t *output, size_t output_len);

/*
 * The way back from rangqoda_scatter, with the same rows and columns: bytes are
 * written by columns and read by rows. Byte i * columns + j of the output is
 * byte j * rows + i of the input. Each of the two undoes the other.
 *
 * Refused by 12, 13. Otherwise writes all bytes of output, which must not overlap
 * the input.
 */
RANGQODA_ANSWER
uint32_t rangqoda_gather(size_t rows, size_t columns,
                         const uint8_t *input, size_t input_len,
                         uint8_t *output, size_t output_len);

/*
 * Builds the two tables of a generator, each of exactly 2^n entries.
 *
 *   step[s]   that t below 2^n whose product with x leaves s
 *   first[s]  the smallest p such that x^p leaves s, or RANGQODA_NO_POSITION
 *             where no power does, as for s = 0
 *
 * Refused by 1, 5. Writes every entry of both tables, and into *period the
 * smallest positive c such that x^c leaves 1.
 */
RANGQODA_ANSWER
uint32_t rangqoda_tables(uint64_t generator,
                         uint16_t *step, size_t step_len,
                         uint16_t *first, size_t first_len,
                         uint64_t *period);

/*
 * A page of the list for (generator, length, limit, syndrome): the records of
 * the patterns that follow the mark, in the list's order, up to the first that
 * does not fit.
 *
 * length is in bits. The tables are those of rangqoda_tables; every entry is
 * verified in each call. mark_len is RANGQODA_MARK_BYTES.
 *
 * Refused by 1 to 8. Otherwise writes
 *
 *   output    the records; bytes beyond those used stay as they were
 *   *used     the number of bytes that the records take
 *   *written  the number of records
 *   mark      the next mark: ended if no listed pattern is left to follow, and
 *             otherwise after the last one written
 *
 * From the mark ended nothing is written to output, and the mark stays. From
 * any other at least one record is, as long as one follows. So a list is read
 * whole by
 *
 *   uint8_t mark[RANGQODA_MARK_BYTES] = { RANGQODA_MARK_START };
 *   while (mark[0] != RANGQODA_MARK_ENDED) {
 *       if (rangqoda_page(..., mark, sizeof mark, ...) != 0) break;
 *       ... used bytes of output ...
 *   }
 *
 * with tables and outputs that may be others in each call. A refused call
 * leaves the mark, and the next call goes on from it. Behind the loop the list
 * is whole where the mark is ended, and only there: after a refusal it is not.
 */
RANGQODA_ANSWER
uint32_t rangqoda_page(uint64_t generator, size_t length, size_t limit,
                       uint64_t syndrome,
                       const uint16_t *step, size_t step_len,
                       const uint16_t *first, size_t first_len,
                       uint8_t *mark, size_t mark_len,
                       uint8_t *output, size_t output_len,
                       size_t *used, uint64_t *written);

/*
 * Repairs a packet whose range [start, end) carries a checksum at field, or one
 * that carries none, start and end being the same.
 *
 *   RANGQODA_INTACT    the remainder is 0 and the packet passes the second
 *                      check; without a checksum, the remainder is 0
 *
 * Otherwise the list for the packet's length, its remainder and the limit is
 * taken. A pattern of it passes if the packet with those bits flipped passes
 * the second check: its field is then 0000h, or the sum of its range FFFFh.
 * Without a checksum each one passes.
 *
 *   RANGQODA_REPAIRED  just one passes; output holds the flipped packet (see
 *                      "What a repair does not tell" above)
 *   RANGQODA_SEVERAL   more than one passes; the verdict has their number,
 *                      and the one of them that stands first in the list: no
 *                      repair, since any of them may be what happened, or none
 *   RANGQODA_NONE      none passes
 *
 * The tables are those of rangqoda_tables; every entry is verified in each
 * call. output_len is packet_len, verdict_len is RANGQODA_VERDICT_BYTES.
 *
 * Refused by 1, 2, 11, 3, 5, 6, 8, 9, 10. Otherwise writes all bytes of verdict.
 * output changes for RANGQODA_REPAIRED only.
 *
 * A verdict of zeros is RANGQODA_INTACT. So fill it with FFh first, as in
 * memset(verdict, 0xFF, sizeof verdict): if then a refusal is overlooked,
 * rangqoda_publish says that there is nothing to publish.
 *
 * A packet without a checksum is repaired by
 *
 *   rangqoda_repair(RANGQODA_CRC_16_XMODEM, RANGQODA_NO_CHECKSUM, limit, ...)
 *
 * Take care that a range that was computed is not empty by mistake: it is not
 * refused, and neither is any field with it.
 */
RANGQODA_ANSWER
uint32_t rangqoda_repair(uint64_t generator, uint64_t initial, uint64_t final,
                         size_t start, size_t end, size_t field, size_t limit,
                         const uint16_t *step, size_t step_len,
                         const uint16_t *first, size_t first_len,
                         const uint8_t *packet, size_t packet_len,
                         uint8_t *output, size_t output_len,
                         uint8_t *verdict, size_t verdict_len);

/*
 * Which bytes to publish from after a repair. Never refused: returns
 *
 *   RANGQODA_PUBLISH_RECEIVED  after intact: the received packet itself
 *   RANGQODA_PUBLISH_COPY      after repaired: the output
 *   RANGQODA_PUBLISH_NOTHING   after several and none, and for bytes that are
 *                              no verdict: nothing (an empty part of the
 *                              received packet)
 *
 * Bytes are no verdict when there are not RANGQODA_VERDICT_BYTES of them or
 * when the first is above RANGQODA_NONE; those behind the first are not read.
 */
RANGQODA_ANSWER
uint32_t rangqoda_publish(const uint8_t *verdict, size_t verdict_len);

/*
 * Tries settings on packets that are made and damaged: what a limit buys, before
 * it is set. For each number of flipped bits from 0 to RANGQODA_MOST_FLIPS, in
 * turn, it runs so many trials. In a trial
 *
 *   - a packet of packet_len bytes is made, as rangqoda_make does, from the
 *     state at hand, which is the seed to begin with and then runs on;
 *   - as many different positions as are to flip are drawn: draw i, counted from
 *     0, is the next state of that stream modulo L - i, and picks that place,
 *     counted from 0, among the positions not yet taken, ascending;
 *   - the bits there flip, and the packet is repaired as by rangqoda_repair;
 *   - the verdict is counted in the row of that number of flips:
 *       RANGQODA_COUNT_INTACT             the packet passes both checks
 *       RANGQODA_COUNT_REPAIRED_TO_MADE   repaired to the packet made
 *       RANGQODA_COUNT_REPAIRED_OTHERWISE repaired to another: a false repair
 *       RANGQODA_COUNT_SEVERAL            several patterns pass
 *       RANGQODA_COUNT_NONE               none passes
 *
 * The counts of each row add up to the trials. Without flips all are intact.
 * With at most limit flips the counts of REPAIRED_OTHERWISE and NONE are 0.
 * With flips, intact is said of a damaged packet that happens to pass both
 * checks.
 *
 * The tables are those of rangqoda_tables; every entry is verified, once for all
 * trials. output_len is packet_len, counts_len is RANGQODA_COUNTS.
 *
 * Refused by 1, 2, 11, 3, 5, 6, 8, 9, 10, 14, and so by 10 for an accepted range
 * with start = end, which has no field to stamp. Otherwise writes all counts; the
 * packet, which ends as it was last received; output, which ends as a repair last
 * left it, and so stays where none was repaired; and into *state the state after
 * the last draw. For more trials pass it as the next seed.
 *
 * It flips single bits, drawn one after the other. It does not model bursts and
 * drop-outs, which real channels have. The draws are not quite independent, since
 * the low bits of the stream repeat soon.
 *
 * A trial takes as long as a repair without the verification of the tables, so
 * that 9 * trials of them may take hours at limits of 3 and 4: a call cannot be
 * interrupted. Calls with fewer trials that pass the state on end sooner, and
 * count other packets than one call of all trials, since each begins with no
 * flips again.
 */
RANGQODA_ANSWER
uint32_t rangqoda_simulate(uint64_t generator, uint64_t initial, uint64_t final,
                           uint32_t seed, size_t start, size_t end,
                           size_t field, size_t limit, uint64_t trials,
                           const uint16_t *step, size_t step_len,
                           const uint16_t *first, size_t first_len,
                           uint8_t *packet, size_t packet_len,
                           uint8_t *output, size_t output_len,
                           uint32_t *counts, size_t counts_len,
                           uint32_t *state);

#ifdef __cplusplus
}
#endif

#endif /* RANGQODA_H */
