/*
 * search calls COUNT
 * search stack
 *
 * Searches through the header's inline function alone, whose buffers have
 * exactly the room that their lengths say: every place of a region, every
 * refusal, candidates that are no possible message, and COUNT random searches.
 * Each is made four times, as in boundary.c, with its buffers allocated, at
 * other addresses, and directly before and behind pages that cannot be
 * accessed; inputs cannot be written there. The answer, all 64 bits of it, and
 * the whole buffer must be those that the header says, by spelt_decode on each
 * candidate's own values.
 *
 * With `stack` the searches run in threads of 64 kB, and what they take of the
 * stack must be about what the header says.
 *
 * Prints how many calls were made. At the first that is not as expected, says
 * which it was and ends with 1.
 */
#define _DEFAULT_SOURCE

#include <signal.h>

#include "speltfeather.h"
#include "support.h"

enum {
    MOST_VALUES = 66 * SPELT_CCE,
    MOST_LIST = SPELT_MAX_CANDIDATES + 2,
    MOST_OUT = 2 * SPELT_MAX_PAYLOAD,
    STACK_SAID = 20000 /* bytes, as the header says */
};

struct search {
    uint16_t n_id;
    int32_t region[MOST_VALUES];
    spelt_candidate list[MOST_LIST];
    uint8_t out[MOST_OUT]; /* what it holds before the call */
    size_t region_len, count, out_len;
};

static const uint32_t levels[] = {1, 2, 4, 8, 16};

enum { LEVELS = sizeof levels / sizeof *levels };

/* Numbers that narrower ones, or sums and products that wrap, would take for
 * others. */
static const uint32_t far[] = {
    (uint32_t)1 << 8,  (uint32_t)1 << 16, (uint32_t)1 << 30,
    (uint32_t)1 << 31, (uint32_t)3 << 30, UINT32_MAX - 15,
};

enum { FAR = sizeof far / sizeof *far };

/* ---- what is expected ---- */

static int fits(const spelt_candidate *c, size_t cces)
{
    for (size_t i = 0; i < LEVELS; i++)
        if (c->level == levels[i])
            return c->first_cce % c->level == 0 && c->first_cce < cces &&
                   c->level <= cces - c->first_cce;
    return 0;
}

/* The answer, and what the buffer then holds. */
static uint64_t expected(const struct search *s, uint8_t *out)
{
    memcpy(out, s->out, s->out_len);
    if (s->region_len % SPELT_CCE != 0 || s->region_len > 64 * SPELT_CCE ||
        s->count > 44)
        return SPELT_INPUT_LENGTH;
    if (s->out_len != SPELT_MAX_PAYLOAD)
        return SPELT_OUTPUT_LENGTH;
    for (size_t i = 0; i < s->count; i++) {
        const spelt_candidate *c = &s->list[i];
        if (!fits(c, s->region_len / SPELT_CCE) || c->rnti > 65535 ||
            c->n_rnti > 65535 || c->a > SPELT_MAX_PAYLOAD)
            continue;
        size_t e = SPELT_CCE * (size_t)c->level;
        const int32_t *row = s->region + SPELT_CCE * (size_t)c->first_cce;
        uint64_t r = spelt_decode(c->a, e, (uint16_t)c->rnti, s->n_id,
                                  (uint16_t)c->n_rnti, row, e, out, c->a);
        if (SPELT_NUMBER(r) == SPELT_DONE)
            return r + 256 * (uint64_t)i; /* with its noise count */
    }
    return SPELT_NO_CANDIDATE;
}

static void say(const struct search *s, const char *where, const char *why)
{
    fprintf(stderr, "search of %zu values with %zu candidates into %zu, %s: %s\n",
            s->region_len, s->count, s->out_len, where, why);
    for (size_t i = 0; i < s->count && i < MOST_LIST; i++)
        fprintf(stderr, "  {%u, %u, %u, %u, %u}\n", s->list[i].first_cce,
                s->list[i].level, s->list[i].a, s->list[i].rnti,
                s->list[i].n_rnti);
}

static void fail(const struct search *s, const char *where, const char *why,
                 uint64_t r)
{
    say(s, where, why);
    fprintf(stderr, "the answer is %d with candidate %zu and noise %zu\n",
            SPELT_NUMBER(r), SPELT_CANDIDATE(r), SPELT_NOISE(r));
    exit(1);
}

/* ---- calls ---- */

static unsigned long calls, noisy, given[256];
static struct room region_room, list_room, out_room;

/* The search that is being made, for on_access. */
static const struct search *running;
static enum how running_how;

static void on_access(int signal)
{
    (void)signal;
    say(running, how_names[running_how], "it reads or writes what it must not");
    _exit(1);
}

static uint64_t put_to_library(const struct search *s, enum how how,
                               uint8_t *out)
{
    size_t listed = s->count < MOST_LIST ? s->count : MOST_LIST;
    void *region = put(&region_room, how, s->region, s->region_len,
                       sizeof *s->region);
    /* Moved by one number, not by one candidate. */
    void *list = put(&list_room, how, s->list, 5 * listed, sizeof(uint32_t));
    uint8_t *result = put(&out_room, how, s->out, s->out_len, 1);
    make_read_only(&region_room);
    make_read_only(&list_room);

    running = s;
    running_how = how;
    uint64_t r = spelt_search(s->n_id, (const int32_t *)region, s->region_len,
                              (const spelt_candidate *)list, s->count, result,
                              s->out_len);

    calls++;
    memcpy(out, result, s->out_len);
    if (memcmp(region, s->region, region_room.size) != 0 ||
        memcmp(list, s->list, list_room.size) != 0)
        fail(s, how_names[how], "an input is written", r);
    if (!surrounded(&out_room))
        fail(s, how_names[how], "something beside the output is written", r);
    free(region_room.block);
    free(list_room.block);
    free(out_room.block);
    return r;
}

/* Puts a search in every way. */
static void make(const struct search *s)
{
    static uint8_t right[MOST_OUT], out[MOST_OUT];
    uint64_t answer = expected(s, right);
    for (int how = ALLOCATED; how < HOWS; how++) {
        uint64_t r = put_to_library(s, (enum how)how, out);
        if (r != answer)
            fail(s, how_names[how], "another answer is right", r);
        if (memcmp(out, right, s->out_len) != 0)
            fail(s, how_names[how], "the output is wrong", r);
    }
    noisy += SPELT_NOISE(answer) > 0 && SPELT_CANDIDATE(answer) > 0;
    given[SPELT_NUMBER(answer)]++;
}

/* Noise in so many CCEs, and buffers that fit. */
static void fill(struct search *s, size_t cces, size_t count)
{
    s->n_id = (uint16_t)any();
    s->region_len = SPELT_CCE * cces;
    s->count = count;
    s->out_len = SPELT_MAX_PAYLOAD;
    for (size_t i = 0; i < MOST_VALUES; i++)
        s->region[i] = (int32_t)(any() >> 40) % 128 - (int32_t)below(128);
    for (size_t i = 0; i < MOST_OUT; i++)
        s->out[i] = (uint8_t)(any() >> 8);
}

/* A candidate there, of a size that there is room for. */
static spelt_candidate candidate(size_t first_cce, uint32_t level)
{
    spelt_candidate c;
    c.first_cce = (uint32_t)first_cce;
    c.level = level;
    c.a = 12 + (uint32_t)below(level == 1 ? 73 : 129);
    c.rnti = (uint32_t)below(65536);
    c.n_rnti = below(2) == 0 ? 0 : (uint32_t)below(65536);
    return c;
}

/* Any place of a region that has a CCE. */
static spelt_candidate anywhere(size_t cces)
{
    for (;;) {
        uint32_t level = levels[below(LEVELS)];
        if (level <= cces)
            return candidate(level * below(cces / level), level);
    }
}

/* Puts the message of a candidate where it says. */
static void send(struct search *s, const spelt_candidate *c)
{
    uint8_t payload[SPELT_MAX_PAYLOAD], coded[16 * SPELT_CCE];
    size_t e = SPELT_CCE * (size_t)c->level;
    int32_t *row = s->region + SPELT_CCE * (size_t)c->first_cce;
    for (size_t i = 0; i < c->a; i++)
        payload[i] = (uint8_t)below(2);
    uint64_t r = spelt_encode(c->a, e, (uint16_t)c->rnti, s->n_id,
                              (uint16_t)c->n_rnti, payload, c->a, coded, e);
    if (r != 0)
        fail(s, "coding of a message", "no refusal applies", r);
    receive(coded, c->a, e, row);
}

/* Every place, in a region that ends with it and in one of 64 CCEs. */
static void places(struct search *s)
{
    for (size_t k = 0; k < LEVELS; k++)
        for (size_t first = 0; first < 64; first += levels[k]) {
            fill(s, first + levels[k], 1);
            s->list[0] = candidate(first, levels[k]);
            send(s, &s->list[0]);
            make(s);
            s->region_len -= SPELT_CCE;
            make(s);
            s->region_len = 64 * SPELT_CCE;
            make(s);
        }
}

/* Messages whose first CCE is no multiple of their level. */
static void misplaced(struct search *s)
{
    for (size_t k = 1; k < LEVELS; k++)
        for (size_t first = 1; first < levels[k]; first++) {
            fill(s, 32, 1);
            s->list[0] = candidate(first, levels[k]);
            send(s, &s->list[0]);
            make(s);
        }
}

/* Lists of 44, with one message or none. */
static void full_lists(struct search *s)
{
    for (size_t i = 0; i <= SPELT_MAX_CANDIDATES; i++) {
        fill(s, 64, SPELT_MAX_CANDIDATES);
        for (size_t k = 0; k < SPELT_MAX_CANDIDATES; k++)
            s->list[k] = anywhere(64);
        if (i < SPELT_MAX_CANDIDATES)
            send(s, &s->list[i]);
        make(s);
    }
}

static void lengths(struct search *s)
{
    static const size_t regions[] = {0,    1,    107,  108,  109,
                                     215,  6804, 6911, 6912, 6913,
                                     7019, 7020, 7128};
    static const size_t counts[] = {0, 1, 43, 44, 45, 46, SIZE_MAX / 5,
                                    SIZE_MAX / 5 + 1, SIZE_MAX / 5 + 44,
                                    SIZE_MAX / 5 * 4 + 1, SIZE_MAX};
    static const size_t outs[] = {0, 1, 139, 140, 141, 280};
    fill(s, 64, 1);
    for (size_t i = 0; i < MOST_LIST; i++)
        s->list[i] = candidate(0, 1);
    send(s, &s->list[0]);
    for (size_t i = 0; i < sizeof regions / sizeof *regions; i++)
        for (size_t k = 0; k < sizeof counts / sizeof *counts; k++)
            for (size_t o = 0; o < sizeof outs / sizeof *outs; o++) {
                s->region_len = regions[i];
                s->count = counts[k];
                s->out_len = outs[o];
                make(s);
            }
}

/* A number of a good candidate, made another. */
static uint32_t *number_of(spelt_candidate *c, size_t i)
{
    switch (i) {
    case 0:
        return &c->first_cce;
    case 1:
        return &c->level;
    case 2:
        return &c->a;
    case 3:
        return &c->rnti;
    default:
        return &c->n_rnti;
    }
}

/* Candidates that are no possible message, before one that is found. */
static void impossible(struct search *s)
{
    static const uint32_t near[] = {0,  1,  3,  11,  12,  15,  16,        17,
                                    32, 48, 64, 128, 141, 255, UINT32_MAX};
    for (size_t k = 0; k < LEVELS; k++)
        for (size_t field = 0; field < 5; field++) {
            fill(s, 32, 2);
            s->list[1] = candidate(16, levels[k]);
            send(s, &s->list[1]);
            for (size_t i = 0; i < sizeof near / sizeof *near; i++) {
                s->list[0] = s->list[1];
                *number_of(&s->list[0], field) = near[i];
                make(s);
            }
            for (size_t i = 0; i < FAR; i++) {
                s->list[0] = s->list[1];
                *number_of(&s->list[0], field) += far[i];
                make(s);
            }
        }
    fill(s, 16, 1);
    s->list[0] = candidate(0, 16);
    send(s, &s->list[0]);
    s->list[0].first_cce = UINT32_MAX - 15;
    make(s);
}

/* A value that is out of range in a message and beside it. */
static void bad_values(struct search *s)
{
    static const int32_t bad[] = {128, -128, 255, INT32_MIN, INT32_MAX};
    for (size_t k = 0; k < LEVELS; k++) {
        size_t start = 16 * SPELT_CCE, end = start + levels[k] * SPELT_CCE;
        size_t at[] = {0, start - 1, start, start + 1, end - 1, end};
        fill(s, 48, 1);
        s->list[0] = candidate(16, levels[k]);
        send(s, &s->list[0]);
        for (size_t i = 0; i < sizeof at / sizeof *at; i++)
            for (size_t b = 0; b < sizeof bad / sizeof *bad; b++) {
                int32_t old = s->region[at[i]];
                s->region[at[i]] = bad[b];
                make(s);
                s->region[at[i]] = old;
            }
    }
}

/* Mostly places with some messages; some numbers and lengths are others. */
static void random_search(struct search *s)
{
    size_t cces = below(4) == 0 ? 1 + below(64) : 1 + below(16);
    fill(s, cces, below(4) == 0 ? below(MOST_LIST) : below(5));
    for (size_t i = 0; i < MOST_LIST; i++)
        s->list[i] = anywhere(cces);
    for (size_t sent = below(3); s->count > 0 && sent > 0; sent--)
        send(s, &s->list[below(s->count < MOST_LIST ? s->count : MOST_LIST)]);
    if (below(4) == 0)
        s->region[below(s->region_len)] = (int32_t)(any() >> 32);
    for (size_t i = 0; i < s->count; i++)
        if (below(8) == 0)
            *number_of(&s->list[i], below(5)) =
                below(2) == 0 ? (uint32_t)any() : (uint32_t)below(70);
    if (below(12) == 0)
        s->region_len = below(MOST_VALUES + 1);
    if (below(12) == 0)
        s->out_len = below(MOST_OUT + 1);
    make(s);
}

static int run_calls(unsigned long count)
{
    static struct search s;
    static const int numbers[] = {SPELT_DONE, SPELT_INPUT_LENGTH,
                                  SPELT_OUTPUT_LENGTH, SPELT_NO_CANDIDATE};
    signal(SIGSEGV, on_access);
    places(&s);
    misplaced(&s);
    full_lists(&s);
    lengths(&s);
    impossible(&s);
    bad_values(&s);
    for (unsigned long i = 0; i < count; i++)
        random_search(&s);
    for (size_t i = 0; i < sizeof numbers / sizeof *numbers; i++)
        if (given[numbers[i]] < 50) {
            fprintf(stderr, "%d was given %lu times\n", numbers[i],
                    given[numbers[i]]);
            return 1;
        }
    if (noisy < 10) {
        fprintf(stderr, "%lu searches gave a candidate and a noise count\n",
                noisy);
        return 1;
    }
    printf("%lu calls, all as expected\n", calls);
    return 0;
}

/* ---- the stack ---- */

struct threaded {
    const struct search *search;
    uint8_t *out;
    uint64_t r;
};

static void search_in_thread(void *argument)
{
    struct threaded *t = (struct threaded *)argument;
    const struct search *s = t->search;
    t->r = spelt_search(s->n_id, s->region, s->region_len, s->list, s->count,
                        t->out, s->out_len);
}

static int run_stack(void)
{
    static struct search s;
    static uint8_t out[MOST_OUT], right[MOST_OUT];
    size_t most = 0;
    for (int round = 0; round < 100; round++) {
        struct threaded threaded = {&s, out, 0};
        fill(&s, 64, 44);
        for (size_t i = 0; i < s.count; i++)
            s.list[i] = anywhere(64);
        send(&s, &s.list[below(44)]);
        make(&s); /* so that memcpy and memset are linked */
        memcpy(out, s.out, s.out_len);
        size_t taken = stack_of(search_in_thread, &threaded);
        most = taken > most ? taken : most;
        calls++;
        if (threaded.r != expected(&s, right) ||
            memcmp(out, right, s.out_len) != 0)
            fail(&s, "in a thread of 64 kB", "another outcome is right",
                 threaded.r);
    }
    if (!stack_is("search", most, STACK_SAID))
        return 1;
    printf("%lu calls, all as expected\n", calls);
    return 0;
}

int main(int argc, char **argv)
{
    region_room = room_for(MOST_VALUES * sizeof(int32_t));
    list_room = room_for(MOST_LIST * sizeof(spelt_candidate));
    out_room = room_for(MOST_OUT);
    if (argc == 3 && strcmp(argv[1], "calls") == 0)
        return run_calls(strtoul(argv[2], NULL, 10));
    if (argc == 2 && strcmp(argv[1], "stack") == 0)
        return run_stack();
    return 2;
}
