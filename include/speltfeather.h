/*
 * Speltfeather: channel coding of 5G NR downlink control information (DCI),
 * TS 38.212 7.3.2 to 7.3.4 and TS 38.211 7.3.2.3: CRC, RNTI, input interleaver,
 * polar code, rate matching, scrambling; and back from soft values, by
 * successive cancellation, from one place or from the first of many candidates
 * that decodes.
 *
 * Link with libspeltfeather.a. Nothing has to be set up first, and nothing is
 * kept between calls: calls may run in any number of threads at once. A call
 * allocates nothing, and of the C library it needs memcpy and memset alone. On
 * the stack coding takes about 3.4 kB, decoding 19 kB, searching 20 kB, the
 * self-test 28 kB and describing a code 0.7 kB.
 */
#ifndef SPELTFEATHER_H
#define SPELTFEATHER_H

#include <stddef.h>
#include <stdint.h>

#ifdef __cplusplus
extern "C" {
#endif

/* The version of this header and of the archive that it comes with. */
#define SPELT_VERSION_MAJOR 0
#define SPELT_VERSION_MINOR 4
#define SPELT_VERSION_PATCH 0
#define SPELT_VERSION "0.4.0"

/*
 * The numbers given back. They are tested in this order, and the first that
 * applies is given. On every number but SPELT_DONE the output buffer holds what
 * it held before the call.
 */
enum spelt_number {
    SPELT_DONE = 0,            /* the output is filled */
    SPELT_PAYLOAD_SIZE = 1,    /* a is outside 12..140 */
    SPELT_CODED_LENGTH = 2,    /* e is not among 108, 216, 432, 864, 1728 */
    SPELT_TOO_MANY_BITS = 3,   /* a + 24 is more than e */
    SPELT_INPUT_LENGTH = 4,    /* the length of an input does not fit a and e */
    SPELT_OUTPUT_LENGTH = 5,   /* the length of the output does not fit them */
    SPELT_BAD_ENTRY = 6,       /* an entry of the input is outside its range;
                                  carries the place of the first */
    SPELT_PARITY_MISMATCH = 7, /* decoding ran, and the parity does not match */
    SPELT_NO_CANDIDATE = 8     /* searching: no candidate decodes */
};

/*
 * What they ask of the buffers, and which can come:
 *
 *                 spelt_encode   spelt_decode   spelt_loopback   spelt_describe
 *   0  out holds  e bits         a bits         a bits           512 roles
 *   4  lengths    payload a      soft e         payload a,       never
 *                                               strengths e
 *   5  length     out e          out a          out a            out 512
 *   6  range      payload 0, 1   soft -127..127 payload 0, 1;    never
 *                                               strengths 1..127
 *   7             never          may come       never            never
 *
 * spelt_search gives 0, 4, 5 or 8 alone, and no other call gives 8:
 *
 *   0  out holds  the payload of the candidate named, in its first a bytes
 *   4  lengths    region 108 for each of 0 to 64 CCEs, at most 44 candidates
 *   5  length     out 140
 *   8             no candidate decodes
 */

#ifdef __cplusplus
#define SPELT_AS(type, value) (static_cast<type>(value))
#else
#define SPELT_AS(type, value) ((type)(value))
#endif

/*
 * The answer r of a call is one number of 64 bits:
 *
 *   bits  0 to  7   the number                           SPELT_NUMBER(r)
 *   bits  8 to 23   the place; spelt_search: the candidate
 *                                       SPELT_PLACE(r), SPELT_CANDIDATE(r)
 *   bits 24 to 39   the noise count                      SPELT_NOISE(r)
 *   bits 40 to 63   0; kept for a count to come
 *
 * r is 0 exactly if the number, the place and the noise count are; so ask
 * SPELT_NUMBER(r) whether a call did its work, and not r itself.
 */

/* The number in the answer r of a call: one of enum spelt_number. */
#define SPELT_NUMBER(r) SPELT_AS(int, (r) & 255u)

/* The place in the answer r of every call but spelt_search: with
 * SPELT_BAD_ENTRY the index, from 0, of the first entry outside its range; with
 * every other number 0. */
#define SPELT_PLACE(r) SPELT_AS(size_t, ((r) >> 8) & 65535u)

/* The candidate in the answer r of spelt_search: with SPELT_DONE the index,
 * from 0, of the one that was read; with every other number 0. */
#define SPELT_CANDIDATE(r) SPELT_AS(size_t, ((r) >> 8) & 65535u)

/* The noise count in the answer r: with SPELT_DONE from spelt_decode and
 * spelt_search, how many of the soft values that the payload was read from are
 * not 0 and have the wrong sign for their bit of the payload coded again: 0 to
 * 1728. All e values count, those of a bit that was sent several times each. It
 * is 0 for a row without noise, and so from spelt_loopback, with every number
 * but SPELT_DONE, and from the calls that read no soft values. */
#define SPELT_NOISE(r) SPELT_AS(size_t, ((r) >> 24) & 65535u)

/*
 * What the calls share:
 *
 *   a        payload size A: 12 to 140 bits, the 24 parity bits not counted
 *   e        coded length E: 108, 216, 432, 864 or 1728 bits (aggregation
 *            level 1, 2, 4, 8 or 16)
 *   rnti     radio number, added to the last 16 parity bits: 0 to 65535
 *   n_id     scrambling identity n_ID: 0 to 65535
 *   n_rnti   n_RNTI of TS 38.211 7.3.2.3: the C-RNTI in a UE-specific search
 *            space for which pdcch-DMRS-ScramblingID is configured, and 0
 *            otherwise; 0 to 65535. It need not be rnti.
 *
 * The Gold sequence starts from c_init = (n_rnti * 2^16 + n_id) mod 2^31, so
 * from n_id alone where n_rnti is 0. The top bit of n_rnti falls out: 0x8000
 * scrambles as 0 does.
 *
 * C cuts what is handed in as rnti, n_id or n_rnti to 16 bits before the call,
 * and says nothing: an int of 65536 + 7 arrives as 7, and one of -1 as 65535. No
 * number given back tells of it, so check wider variables first (-Wconversion
 * finds them).
 *
 * No pointer may be null, not even where its length is 0. Each must be valid
 * for as many entries as its length says (inputs are read; out is read and
 * written), and out must not overlap an input. Nothing else is asked: any
 * numbers, lengths and entries may be handed in, and what does not fit is
 * refused.
 *
 * Each call gives number, place or candidate, and noise count as one number; take
 * them out with SPELT_NUMBER, SPELT_PLACE, SPELT_CANDIDATE and SPELT_NOISE. The
 * number 0 means done.
 */

/*
 * Codes a payload of a bits into e scrambled bits.
 *
 *   payload  the payload, a bit in each byte (0 or 1), first bit first
 *   out      takes the coded bits, a bit in each byte, first bit first
 *
 *   uint8_t out[432];
 *   uint64_t r = spelt_encode(37, 432, 0xFFFF, n_id, 0, payload, 37, out, 432);
 *   if (SPELT_NUMBER(r) == SPELT_BAD_ENTRY)
 *       printf("byte %zu is not a bit\n", SPELT_PLACE(r));
 */
uint64_t spelt_encode(uint64_t a, uint64_t e, uint16_t rnti, uint16_t n_id,
                      uint16_t n_rnti,
                      const uint8_t *payload, size_t payload_len,
                      uint8_t *out, size_t out_len);

/*
 * Reads a payload of a bits from e soft values, and checks its parity.
 *
 *   soft     a value for each received bit, in the order in which
 *            spelt_encode gives them and still scrambled: its log-likelihood
 *            ratio, scaled to whole numbers from -127 to 127. Positive leans
 *            to bit 0, negative to bit 1, and 0 says nothing.
 *   out      takes the payload, a bit in each byte, first bit first
 *
 * SPELT_PARITY_MISMATCH says that no payload was found under these numbers: too
 * much noise, another RNTI, n_id, n_rnti or size, or no message at all.
 *
 * With SPELT_DONE, SPELT_NOISE(r) says how noisy the row was: how many of its
 * values are not 0 and have the wrong sign for the payload coded again.
 *
 *   uint8_t payload[37];
 *   uint64_t r = spelt_decode(37, 432, 0xFFFF, n_id, 0, soft, 432, payload, 37);
 *   if (SPELT_NUMBER(r) == SPELT_DONE) {
 *       take(payload);
 *       printf("%zu of 432 wrong\n", SPELT_NOISE(r));
 *   }
 */
uint64_t spelt_decode(uint64_t a, uint64_t e, uint16_t rnti, uint16_t n_id,
                      uint16_t n_rnti,
                      const int32_t *soft, size_t soft_len,
                      uint8_t *out, size_t out_len);

/*
 * Codes a payload, gives coded bit k the strength strengths[k] with the sign
 * that says its value (positive for 0, negative for 1), and decodes these soft
 * values under the same numbers: a self-test for the start-up of a tester.
 *
 *   payload    the payload, a bit in each byte (0 or 1), first bit first
 *   strengths  a strength from 1 to 127 for each coded bit
 *   out        takes the payload that was decoded
 *
 * SPELT_DONE comes wherever 1 to 6 do not apply, and out then holds the
 * payload; the noise count is 0. Entries are counted through the payload and
 * then the strengths: the place is k for payload[k] and a + k for strengths[k].
 */
uint64_t spelt_loopback(uint64_t a, uint64_t e, uint16_t rnti, uint16_t n_id,
                        uint16_t n_rnti,
                        const uint8_t *payload, size_t payload_len,
                        const int32_t *strengths, size_t strengths_len,
                        uint8_t *out, size_t out_len);

/* The limits of a search. */
#define SPELT_CCE 108           /* soft values of a control channel element */
#define SPELT_MAX_CCES 64       /* CCEs in a region */
#define SPELT_MAX_CANDIDATES 44 /* candidates in a list */
#define SPELT_MAX_PAYLOAD 140   /* bits of a payload: bytes of the buffer */

/* Where a message may lie, and what it would be read under. */
typedef struct spelt_candidate {
    uint32_t first_cce; /* its first CCE, counted from 0: a multiple of level */
    uint32_t level;     /* aggregation level, its CCEs: 1, 2, 4, 8 or 16 */
    uint32_t a;         /* payload size */
    uint32_t rnti;      /* radio number */
    uint32_t n_rnti;    /* n_RNTI: 0 in a common search space */
} spelt_candidate;

/* A list of them is a list of five numbers for each: else this is an error. */
typedef char spelt_candidate_is_five_numbers
    [sizeof(spelt_candidate) == 5 * sizeof(uint32_t) ? 1 : -1];

/* spelt_search, with the list as numbers: five for each candidate, in the order
 * of the struct. SPELT_INPUT_LENGTH also where they are not whole fives. */
uint64_t spelt_search_list(uint16_t n_id,
                           const int32_t *region, size_t region_len,
                           const uint32_t *candidates, size_t candidates_len,
                           uint8_t *out, size_t out_len);

/*
 * Looks for a message in a region: tries the candidates in the order of the
 * list, under one n_id, and stops at the first that decodes.
 *
 *   region      the soft values of its CCEs, the first CCE first, as
 *               spelt_decode takes them: 108 for each CCE, two for each QPSK
 *               symbol, those of the reference signals left out. region_len
 *               counts values. A candidate's CCEs must lie one behind the
 *               other, as they do with one symbol and without interleaved
 *               mapping.
 *   candidates  count of them, in the order in which they are to be tried; they
 *               may share CCEs
 *   out         140 bytes; takes the payload, a bit in each byte, first bit
 *               first
 *
 * A candidate decodes exactly if it lies in the region as a message may and
 * spelt_decode gives SPELT_DONE for its own 108 * level values under its a, rnti
 * and n_rnti. So it counts as not decoding, and the next is tried, if its level
 * is not 1, 2, 4, 8 or 16, its first CCE is not a multiple of its level, it
 * reaches outside the region, its rnti or n_rnti is above 65535 (nothing is cut
 * to 16 bits here), or one of the numbers 1 to 6 applies to it. A value outside
 * -127..127 bars only the candidates that it is a part of.
 *
 * SPELT_DONE           SPELT_CANDIDATE(r) is the first candidate that decodes;
 *                      none behind it was tried. The first a bytes of out are
 *                      its payload, and all others are as they were. The
 *                      stretch that it was read from is 108 * level values at
 *                      region + 108 * first_cce, and SPELT_NOISE(r) counts in
 *                      these alone.
 * SPELT_INPUT_LENGTH   the region is not 0 to 64 whole CCEs, or there are more
 *                      than 44 candidates
 * SPELT_OUTPUT_LENGTH  out_len is not 140
 * SPELT_NO_CANDIDATE   none decodes, as where the region or the list is empty
 *
 * To find further messages, search again with the candidates behind the one
 * named. Search spaces with different n_id take a search each.
 *
 * A message of level 16 may also decode as one of level 8 with the same first
 * CCE, and without noise does, since its first 864 bits are those of level 8;
 * one of level 8 may decode as one of level 16. The order of the list decides
 * which is named, so that the level named need not be the one that was sent.
 *
 * Each candidate that is tried adds to the chance that noise is taken for a
 * message: about 2^-24 for each, which is what 24 parity bits let through and
 * what docs/BLER.md measures for single rows; for 44 about 3 in a million.
 *
 *   static const spelt_candidate list[] = {
 *       {0, 8, 40, 0x4601, 0x4601}, {8, 8, 40, 0x4601, 0x4601},
 *       {4, 4, 40, 0xFFFF, 0}};
 *   uint8_t payload[SPELT_MAX_PAYLOAD];
 *   uint64_t r = spelt_search(n_id, region, 48 * SPELT_CCE, list, 3,
 *                             payload, SPELT_MAX_PAYLOAD);
 *   if (SPELT_NUMBER(r) == SPELT_DONE) {
 *       const spelt_candidate *found = &list[SPELT_CANDIDATE(r)];
 *       take(payload, found->a);
 *       show(region + SPELT_CCE * found->first_cce, SPELT_CCE * found->level);
 *   }
 */
static inline uint64_t spelt_search(uint16_t n_id,
                                    const int32_t *region, size_t region_len,
                                    const spelt_candidate *candidates,
                                    size_t count, uint8_t *out, size_t out_len)
{
    /* One too many is refused like any greater count, which could wrap. */
    const size_t most = SPELT_MAX_CANDIDATES + 1;
    const void *list = candidates;
    return spelt_search_list(n_id, region, region_len,
                             SPELT_AS(const uint32_t *, list),
                             5 * (count < most ? count : most), out, out_len);
}

/* What a position of a code is for. */
enum spelt_role {
    SPELT_FROZEN = 0,      /* frozen: other positions are more reliable */
    SPELT_INFORMATION = 1, /* carries a bit of payload or parity */
    SPELT_PUNCTURED = 2,   /* frozen because of puncturing */
    SPELT_SHORTENED = 3,   /* frozen because of shortening */
    SPELT_NONE = 4         /* not a position of this code: not below N */
};

/* How many roles spelt_describe gives. */
#define SPELT_ROLES 512

/*
 * Tells what each position of the code for a and e is for, as the other calls
 * use it: to show it, or to check a table against it.
 *
 *   out      takes the role of each of the positions 0 to 511, one of enum
 *            spelt_role in each byte
 *
 * The code length N is the count of roles that are not SPELT_NONE. There are
 * a + 24 information positions; the first of them carries the first bit of the
 * interleaved row. Roles SPELT_PUNCTURED or SPELT_SHORTENED come exactly where
 * e is below N, and say which of the two applies; without them coded bits are
 * repeated.
 *
 *   uint8_t role[SPELT_ROLES];
 *   uint64_t r = spelt_describe(37, 432, role, SPELT_ROLES);
 *   if (SPELT_NUMBER(r) == SPELT_DONE && role[300] == SPELT_INFORMATION)
 *       puts("position 300 carries information");
 */
uint64_t spelt_describe(uint64_t a, uint64_t e, uint8_t *out, size_t out_len);

#ifdef __cplusplus
}
#endif

#endif
