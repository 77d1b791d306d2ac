/*
 * Puts a message into a region of 16 CCEs, and finds it as a handset does that
 * does not know where it lies.
 *
 *   cc search.c $(pkg-config --cflags --libs speltfeather) -o search
 *
 * or, from the root of the repository after `make lib`, without installing:
 *
 *   cc -Iinclude examples/c/search.c target/staticlib/libspeltfeather.a -o search
 */
#include <inttypes.h>
#include <stdio.h>
#include <string.h>

#include <speltfeather.h>

enum { CCES = 16, FIRST = 4, LEVEL = 4, A = 40, E = LEVEL * SPELT_CCE };

static const uint16_t own_rnti = 0x4601, another_rnti = 0x4602, n_id = 500;

static int refused(const char *call, uint64_t r)
{
    printf("%s: answer %d\n", call, SPELT_NUMBER(r));
    return 1;
}

/* In place of noise. */
static void fill(int32_t *region)
{
    for (int k = 0; k < CCES * SPELT_CCE; k++)
        region[k] = k * 37 % 41 - 20;
}

static void put(const uint8_t *bits, int32_t *at)
{
    for (int k = 0; k < E; k++)
        at[k] += bits[k] == 0 ? 15 : -15;
}

/* Every place of a level that the region has, behind the count that the list
 * has already; gives the new count. */
static size_t add_places(spelt_candidate *list, size_t count, uint32_t level,
                         uint16_t rnti, uint16_t n_rnti)
{
    for (uint32_t first = 0; first < CCES; first += level) {
        spelt_candidate place = {first, level, A, rnti, n_rnti};
        list[count++] = place;
    }
    return count;
}

/* A handset's list: levels 8 and 4 of a common search space, where n_RNTI is 0,
 * then levels 8, 4 and 2 of its own, with an n_ID that is configured for it, so
 * that n_RNTI is its RNTI. Both have the same n_ID here, so that one search will
 * do. Gives the count. */
static size_t list_places(uint16_t rnti, spelt_candidate *list)
{
    size_t count = 0;
    for (uint32_t level = 8; level >= 4; level /= 2)
        count = add_places(list, count, level, rnti, 0);
    for (uint32_t level = 8; level >= 2; level /= 2)
        count = add_places(list, count, level, rnti, rnti);
    return count;
}

int main(void)
{
    uint8_t payload[A], sent[E], got[SPELT_MAX_PAYLOAD];
    int32_t region[CCES * SPELT_CCE];
    spelt_candidate list[SPELT_MAX_CANDIDATES];
    for (int i = 0; i < A; i++)
        payload[i] = i % 3 == 0; /* a bit in each byte, first bit first */

    uint64_t r =
        spelt_encode(A, E, own_rnti, n_id, own_rnti, payload, A, sent, E);
    if (SPELT_NUMBER(r) != SPELT_DONE)
        return refused("spelt_encode", r);
    fill(region);
    put(sent, region + FIRST * SPELT_CCE);

    size_t count = list_places(own_rnti, list);
    r = spelt_search(n_id, region, CCES * SPELT_CCE, list, count,
                     got, SPELT_MAX_PAYLOAD);
    if (SPELT_NUMBER(r) != SPELT_DONE)
        return refused("spelt_search", r);
    const spelt_candidate *found = &list[SPELT_CANDIDATE(r)];
    printf("candidate %zu of %zu: %" PRIu32 " bits from CCE %" PRIu32
           ", level %" PRIu32 ", n_RNTI %04" PRIX32
           ", %zu of %" PRIu32 " soft values wrong\n",
           SPELT_CANDIDATE(r), count, found->a, found->first_cce, found->level,
           found->n_rnti, SPELT_NOISE(r), SPELT_CCE * found->level);
    if (found->first_cce != FIRST || found->n_rnti != own_rnti ||
        memcmp(got, payload, A) != 0)
        return 1;

    /* A handset with another RNTI finds no message in the same values. */
    count = list_places(another_rnti, list);
    r = spelt_search(n_id, region, CCES * SPELT_CCE, list, count,
                     got, SPELT_MAX_PAYLOAD);
    printf("another RNTI: %s\n",
           SPELT_NUMBER(r) == SPELT_NO_CANDIDATE ? "no message" : "?");
    return SPELT_NUMBER(r) == SPELT_NO_CANDIDATE ? 0 : 1;
}
