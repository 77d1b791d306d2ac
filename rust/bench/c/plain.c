/*
 * The same coder and decoder in plain C, as a baseline for the bench: each step
 * as a C programmer would write it, with the layout worked out anew at each
 * call.
 *
 * PLAIN_ENCODE     the name of the exported constant that points to the coder
 * PLAIN_DECODE     the same for the decoder
 * PLAIN_SCRAMBLER  terms of the Gold sequence made in one step: 1 or 16
 */
#include <stdlib.h>
#include <string.h>

#include "speltfeather.h"
#include "tables.h"

#if PLAIN_SCRAMBLER != 1 && PLAIN_SCRAMBLER != 16
#error "PLAIN_SCRAMBLER is 1 or 16"
#endif

enum { PARITY = 24, MOST_K = 164, MOST_N = 512, MOST_E = 1728 };

/* The value of a shortened position, whose bit is known to be 0. */
enum { CERTAIN = 1048576 };

typedef enum { REPETITION, PUNCTURING, SHORTENING } kind;

static uint64_t refused_sizes(uint64_t a, uint64_t e)
{
    if (a < 12 || a > 140)
        return SPELT_PAYLOAD_SIZE;
    if (e != 108 && e != 216 && e != 432 && e != 864 && e != 1728)
        return SPELT_CODED_LENGTH;
    if (a + PARITY > e)
        return SPELT_TOO_MANY_BITS;
    return SPELT_DONE;
}

static uint64_t refused_coding(uint64_t a, uint64_t e, const uint8_t *payload,
                               size_t payload_len, size_t out_len)
{
    uint64_t refused = refused_sizes(a, e);
    if (refused != SPELT_DONE)
        return refused;
    if (payload_len != a)
        return SPELT_INPUT_LENGTH;
    if (out_len != e)
        return SPELT_OUTPUT_LENGTH;
    for (size_t i = 0; i < payload_len; i++)
        if (payload[i] > 1)
            return SPELT_BAD_ENTRY + 256 * (uint64_t)i;
    return SPELT_DONE;
}

static uint64_t refused_decoding(uint64_t a, uint64_t e, const int32_t *soft,
                                 size_t soft_len, size_t out_len)
{
    uint64_t refused = refused_sizes(a, e);
    if (refused != SPELT_DONE)
        return refused;
    if (soft_len != e)
        return SPELT_INPUT_LENGTH;
    if (out_len != a)
        return SPELT_OUTPUT_LENGTH;
    for (size_t i = 0; i < soft_len; i++)
        if (soft[i] < -127 || soft[i] > 127)
            return SPELT_BAD_ENTRY + 256 * (uint64_t)i;
    return SPELT_DONE;
}

/* The parity of a payload with the RNTI on its last 16 bits. */
static uint32_t masked_parity(const uint8_t *payload, size_t a, uint16_t rnti)
{
    uint32_t crc = PARITY_OF_ONES;
    for (size_t i = 0; i < a; i++) {
        uint32_t carry = (crc >> 23 ^ payload[i]) & 1;
        crc = (crc << 1 & 0xFFFFFF) ^ (carry ? 0xB2B117 : 0);
    }
    return crc ^ rnti;
}

/* The row c: payload, then parity with the RNTI on its last 16 bits. */
static void attach(const uint8_t *payload, size_t a, uint16_t rnti, uint8_t *c)
{
    uint32_t crc = masked_parity(payload, a, rnti);
    memcpy(c, payload, a);
    for (int i = 0; i < PARITY; i++)
        c[a + i] = crc >> (PARITY - 1 - i) & 1;
}

static int parity_matches(const uint8_t *c, size_t a, uint16_t rnti)
{
    uint32_t received = 0;
    for (int i = 0; i < PARITY; i++)
        received = received << 1 | c[a + i];
    return received == masked_parity(c, a, rnti);
}

static void interleave(const uint8_t *c, size_t k, uint8_t *row)
{
    size_t skipped = MOST_K - k, filled = 0;
    for (size_t i = 0; i < MOST_K; i++)
        if (INTERLEAVER[i] >= skipped)
            row[filled++] = c[INTERLEAVER[i] - skipped];
}

static void deinterleave(const uint8_t *row, size_t k, uint8_t *c)
{
    size_t skipped = MOST_K - k, taken = 0;
    for (size_t i = 0; i < MOST_K; i++)
        if (INTERLEAVER[i] >= skipped)
            c[INTERLEAVER[i] - skipped] = row[taken++];
}

static unsigned ceil_log2(size_t x)
{
    unsigned n = 0;
    while ((size_t)1 << n < x)
        n++;
    return n;
}

static size_t code_length(size_t k, size_t e)
{
    unsigned n = ceil_log2(e), n2 = ceil_log2(8 * k);
    if (8 * e <= (size_t)9 << (n - 1) && 16 * k < 9 * e)
        n--;
    if (n > n2)
        n = n2;
    if (n > 9)
        n = 9;
    return (size_t)1 << (n < 5 ? 5 : n);
}

static kind rate_matching(size_t k, size_t e, size_t n)
{
    if (e >= n)
        return REPETITION;
    return 16 * k <= 7 * e ? PUNCTURING : SHORTENING;
}

static size_t sub_block(size_t i, size_t n)
{
    size_t size = n / 32;
    return SUB_BLOCKS[i / size] * size + i % size;
}

static void bar(kind matching, size_t e, size_t n, uint8_t *barred)
{
    memset(barred, 0, n);
    if (matching == PUNCTURING) {
        size_t prefix = 4 * e >= 3 * n ? (3 * n - 2 * e + 3) / 4
                                       : (9 * n - 4 * e + 15) / 16;
        memset(barred, 1, prefix);
        for (size_t i = 0; i < n - e; i++)
            barred[sub_block(i, n)] = 1;
    } else if (matching == SHORTENING) {
        for (size_t i = e; i < n; i++)
            barred[sub_block(i, n)] = 1;
    }
}

/* Marks the information positions: the k most reliable free ones. */
static void choose(size_t k, size_t n, const uint8_t *barred, uint8_t *chosen)
{
    memset(chosen, 0, n);
    for (size_t i = MOST_N; k > 0 && i-- > 0;) {
        size_t position = RELIABILITY[i];
        if (position < n && !barred[position]) {
            chosen[position] = 1;
            k--;
        }
    }
}

/* The row u: the information positions take the row, ascending. */
static void place(const uint8_t *row, size_t n, const uint8_t *chosen,
                  uint8_t *u)
{
    size_t next = 0;
    for (size_t i = 0; i < n; i++)
        u[i] = chosen[i] ? row[next++] : 0;
}

static void take(const uint8_t *u, size_t n, const uint8_t *chosen,
                 uint8_t *row)
{
    size_t next = 0;
    for (size_t i = 0; i < n; i++)
        if (chosen[i])
            row[next++] = u[i];
}

static void transform(uint8_t *u, size_t n)
{
    for (size_t half = 1; half < n; half *= 2)
        for (size_t start = 0; start < n; start += 2 * half)
            for (size_t i = start; i < start + half; i++)
                u[i] ^= u[i + half];
}

static void match(kind matching, const uint8_t *d, size_t n, size_t e,
                  uint8_t *out)
{
    uint8_t y[MOST_N];
    size_t size = n / 32;
    for (size_t block = 0; block < 32; block++)
        memcpy(y + block * size, d + SUB_BLOCKS[block] * size, size);
    if (matching == PUNCTURING)
        memcpy(out, y + n - e, e);
    else if (matching == SHORTENING)
        memcpy(out, y, e);
    else
        for (size_t done = 0; done < e; done += n)
            memcpy(out + done, y, e - done < n ? e - done : n);
}

/* The values of the code positions: repeats added, unsent ones filled in. */
static void gather(kind matching, const int32_t *values, size_t n, size_t e,
                   int32_t *d)
{
    int32_t y[MOST_N];
    size_t size = n / 32, unsent = n > e ? n - e : 0;
    if (matching == PUNCTURING) {
        memset(y, 0, unsent * sizeof *y);
        memcpy(y + unsent, values, e * sizeof *y);
    } else if (matching == SHORTENING) {
        memcpy(y, values, e * sizeof *y);
        for (size_t i = e; i < n; i++)
            y[i] = CERTAIN;
    } else {
        memcpy(y, values, n * sizeof *y);
        for (size_t done = n; done < e; done += n)
            for (size_t i = 0; i < n && i < e - done; i++)
                y[i] += values[done + i];
    }
    for (size_t block = 0; block < 32; block++)
        memcpy(d + SUB_BLOCKS[block] * size, y + block * size,
               size * sizeof *y);
}

/* The smaller magnitude with the product of the signs. */
static int32_t f(int32_t a, int32_t b)
{
    int32_t size_a = abs(a), size_b = abs(b);
    int32_t size = size_a < size_b ? size_a : size_b;
    return (a < 0) != (b < 0) ? -size : size;
}

static int32_t g(uint8_t v, int32_t a, int32_t b)
{
    return v ? b - a : b + a;
}

/*
 * Decides m positions from their row of values: the bits in u, and coded again
 * in v. Rows of the halves stand in work, which has room for m - 1 values.
 */
static void decide(const int32_t *row, const uint8_t *chosen, size_t m,
                   int32_t *work, uint8_t *u, uint8_t *v)
{
    if (m == 1) {
        *u = *v = *chosen && *row < 0;
        return;
    }
    size_t half = m / 2;
    for (size_t i = 0; i < half; i++)
        work[i] = f(row[i], row[half + i]);
    decide(work, chosen, half, work + half, u, v);
    for (size_t i = 0; i < half; i++)
        work[i] = g(v[i], row[i], row[half + i]);
    decide(work, chosen + half, half, work + half, u + half, v + half);
    for (size_t i = 0; i < half; i++)
        v[i] ^= v[half + i];
}

#if PLAIN_SCRAMBLER == 1

static uint32_t next_x1(uint32_t s)
{
    return s >> 1 | ((s ^ s >> 3) & 1) << 30;
}

static uint32_t next_x2(uint32_t s)
{
    return s >> 1 | ((s ^ s >> 1 ^ s >> 2 ^ s >> 3) & 1) << 30;
}

#else

static uint32_t next_x1(uint32_t s)
{
    return s >> 16 | ((s ^ s >> 3) & 0xFFFF) << 15;
}

static uint32_t next_x2(uint32_t s)
{
    return s >> 16 | ((s ^ s >> 1 ^ s >> 2 ^ s >> 3) & 0xFFFF) << 15;
}

#endif

/* What x2 starts from. */
static uint32_t c_init(uint16_t n_id, uint16_t n_rnti)
{
    return ((uint32_t)n_rnti << 16 | n_id) & 0x7FFFFFFF;
}

static void scramble(uint16_t n_id, uint16_t n_rnti, uint8_t *out, size_t e)
{
    uint32_t x1 = 1, x2 = c_init(n_id, n_rnti);
    for (int i = 0; i < 1600 / PLAIN_SCRAMBLER; i++) {
        x1 = next_x1(x1);
        x2 = next_x2(x2);
    }
    for (size_t done = 0; done < e; done += PLAIN_SCRAMBLER) {
        size_t left = e - done;
        size_t terms = left < PLAIN_SCRAMBLER ? left : PLAIN_SCRAMBLER;
        for (size_t i = 0; i < terms; i++)
            out[done + i] ^= (x1 ^ x2) >> i & 1;
        x1 = next_x1(x1);
        x2 = next_x2(x2);
    }
}

/* Negates a value where the term of the Gold sequence is 1. */
static void descramble(uint16_t n_id, uint16_t n_rnti, const int32_t *soft,
                       size_t e, int32_t *values)
{
    uint32_t x1 = 1, x2 = c_init(n_id, n_rnti);
    for (int i = 0; i < 1600 / PLAIN_SCRAMBLER; i++) {
        x1 = next_x1(x1);
        x2 = next_x2(x2);
    }
    for (size_t done = 0; done < e; done += PLAIN_SCRAMBLER) {
        size_t left = e - done;
        size_t terms = left < PLAIN_SCRAMBLER ? left : PLAIN_SCRAMBLER;
        for (size_t i = 0; i < terms; i++)
            values[done + i] =
                (x1 ^ x2) >> i & 1 ? -soft[done + i] : soft[done + i];
        x1 = next_x1(x1);
        x2 = next_x2(x2);
    }
}

/* How many values are not 0 and have the wrong sign for their bit. */
static uint64_t noise(const int32_t *values, const uint8_t *bits, size_t e)
{
    uint32_t count = 0;
    for (size_t i = 0; i < e; i++)
        count += bits[i] ? values[i] > 0 : values[i] < 0;
    return count;
}

static uint64_t encode(uint64_t a, uint64_t e, uint16_t rnti, uint16_t n_id,
                       uint16_t n_rnti,
                       const uint8_t *payload, size_t payload_len,
                       uint8_t *out, size_t out_len)
{
    uint64_t refused = refused_coding(a, e, payload, payload_len, out_len);
    if (refused != SPELT_DONE)
        return refused;

    uint8_t c[MOST_K], row[MOST_K], barred[MOST_N], chosen[MOST_N], u[MOST_N];
    size_t k = a + PARITY;
    size_t n = code_length(k, e);
    kind matching = rate_matching(k, e, n);
    attach(payload, a, rnti, c);
    interleave(c, k, row);
    bar(matching, e, n, barred);
    choose(k, n, barred, chosen);
    place(row, n, chosen, u);
    transform(u, n);
    match(matching, u, n, e, out);
    scramble(n_id, n_rnti, out, e);
    return SPELT_DONE;
}

static uint64_t decode(uint64_t a, uint64_t e, uint16_t rnti, uint16_t n_id,
                       uint16_t n_rnti,
                       const int32_t *soft, size_t soft_len,
                       uint8_t *out, size_t out_len)
{
    uint64_t refused = refused_decoding(a, e, soft, soft_len, out_len);
    if (refused != SPELT_DONE)
        return refused;

    int32_t values[MOST_E], d[MOST_N], work[MOST_N];
    uint8_t barred[MOST_N], chosen[MOST_N], u[MOST_N], v[MOST_N];
    uint8_t row[MOST_K], c[MOST_K], again[MOST_E];
    size_t k = a + PARITY;
    size_t n = code_length(k, e);
    kind matching = rate_matching(k, e, n);
    descramble(n_id, n_rnti, soft, e, values);
    gather(matching, values, n, e, d);
    bar(matching, e, n, barred);
    choose(k, n, barred, chosen);
    decide(d, chosen, n, work, u, v);
    take(u, n, chosen, row);
    deinterleave(row, k, c);
    if (!parity_matches(c, a, rnti))
        return SPELT_PARITY_MISMATCH;
    memcpy(out, c, a);
    /* v is the payload coded again, and the values are not scrambled either. */
    match(matching, v, n, e, again);
    return SPELT_DONE + (noise(values, again, e) << 24);
}

/* By the types of the interface's own calls, so that they cannot differ. */
extern const __typeof__(&spelt_encode) PLAIN_ENCODE;
const __typeof__(&spelt_encode) PLAIN_ENCODE = encode;

extern const __typeof__(&spelt_decode) PLAIN_DECODE;
const __typeof__(&spelt_decode) PLAIN_DECODE = decode;
