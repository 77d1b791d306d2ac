/*
 * Codes a message, disturbs it as a channel would, and reads it back.
 *
 *   cc roundtrip.c $(pkg-config --cflags --libs speltfeather) -o roundtrip
 *
 * or, from the root of the repository after `make lib`, without installing:
 *
 *   cc -Iinclude examples/c/roundtrip.c target/staticlib/libspeltfeather.a -o roundtrip
 */
#include <stdio.h>
#include <string.h>

#include <speltfeather.h>

enum { A = 40, E = 216 };

static const uint16_t rnti = 0x4601, another_rnti = 0x4602, n_id = 500;

static int refused(const char *call, uint64_t r)
{
    printf("%s: answer %d, place %zu\n", call, SPELT_NUMBER(r), SPELT_PLACE(r));
    return 1;
}

static void print_bits(const char *label, const uint8_t *bits, size_t count)
{
    printf("%-8s", label);
    for (size_t i = 0; i < count; i++)
        putchar('0' + bits[i]);
    putchar('\n');
}

/* Soft values: positive leans to bit 0. Every seventh arrives with the wrong
 * sign, but weakly. */
static void receive(const uint8_t *bits, int32_t *soft)
{
    for (int k = 0; k < E; k++) {
        int32_t strength = k % 7 == 3 ? -9 : 30;
        soft[k] = bits[k] == 0 ? strength : -strength;
    }
}

int main(void)
{
    uint8_t payload[A], sent[E], got[A];
    int32_t soft[E];
    for (int i = 0; i < A; i++)
        payload[i] = i % 3 == 0; /* a bit in each byte, first bit first */
    print_bits("payload", payload, A);

    /* In the handset's own search space, with an n_ID that is configured for
     * it: n_RNTI is its RNTI. Elsewhere n_RNTI is 0. */
    uint64_t r = spelt_encode(A, E, rnti, n_id, rnti, payload, A, sent, E);
    if (SPELT_NUMBER(r) != SPELT_DONE)
        return refused("spelt_encode", r);
    print_bits("sent", sent, E);

    receive(sent, soft);
    r = spelt_decode(A, E, rnti, n_id, rnti, soft, E, got, A);
    if (SPELT_NUMBER(r) != SPELT_DONE)
        return refused("spelt_decode", r);
    print_bits("got", got, A);
    /* How noisy it was: values with the wrong sign for the payload coded again. */
    printf("%-8s%zu of %d soft values\n", "wrong", SPELT_NOISE(r), E);
    if (memcmp(got, payload, A) != 0)
        return 1;

    /* A handset with another RNTI finds no message in the same values. */
    r = spelt_decode(A, E, another_rnti, n_id, another_rnti, soft, E, got, A);
    printf("another RNTI: %s\n",
           SPELT_NUMBER(r) == SPELT_PARITY_MISMATCH ? "no message" : "?");
    return SPELT_NUMBER(r) == SPELT_PARITY_MISMATCH ? 0 : 1;
}
