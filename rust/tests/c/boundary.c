/*
 * boundary calls COUNT
 * boundary stack
 *
 * Calls through the header alone, whose buffers have exactly the room that
 * their lengths say: every refusal, every coded length, and COUNT random calls.
 * Each is made four times, with its buffers
 *
 *   - allocated,
 *   - allocated and at an odd address, where the entries are bytes,
 *   - directly before a page that cannot be accessed,
 *   - directly behind one,
 *
 * where in the last two the inputs cannot be written. The answer must be the
 * one that the header says, all 64 bits of it, and each time the same; inputs,
 * what surrounds the output, and on a refusal the output must hold what they
 * held.
 *
 * With `stack` the calls run in threads of 64 kB, and what they take of the
 * stack must be about what the header says.
 *
 * Prints how many calls were made. At the first that is not as expected, says
 * which it was and ends with 1.
 */
#define _DEFAULT_SOURCE

#include <inttypes.h>
#include <signal.h>

#include "speltfeather.h"
#include "support.h"

enum { MOST = 2100 };

/* What a length must be. */
enum length { NONE, SIZE_A, SIZE_E, ROLES };

/* What is known of a call that is not refused. */
enum known { NOTHING, GIVES_PAYLOAD, GIVES_MISMATCH };

struct call {
    const struct kind *kind;
    uint64_t a, e;
    uint16_t rnti, n_id, n_rnti;
    uint8_t payload[MOST];
    int32_t values[MOST]; /* soft values or strengths */
    uint8_t out[MOST];    /* what it holds before the call */
    size_t payload_len, values_len, out_len;
    enum known known;
};

typedef uint64_t ask(const struct call *, const uint8_t *payload,
                     const int32_t *values, uint8_t *out);

struct kind {
    const char *name;
    ask *ask;
    enum length payload, values, out;
    int32_t least;  /* of the values; the greatest is 127 */
    unsigned stack; /* bytes, as the header says */
    unsigned long given[8];
};

static uint64_t encode(const struct call *c, const uint8_t *payload,
                       const int32_t *values, uint8_t *out)
{
    (void)values;
    return spelt_encode(c->a, c->e, c->rnti, c->n_id, c->n_rnti, payload,
                        c->payload_len, out, c->out_len);
}

static uint64_t decode(const struct call *c, const uint8_t *payload,
                       const int32_t *values, uint8_t *out)
{
    (void)payload;
    return spelt_decode(c->a, c->e, c->rnti, c->n_id, c->n_rnti, values,
                        c->values_len, out, c->out_len);
}

static uint64_t loopback(const struct call *c, const uint8_t *payload,
                         const int32_t *values, uint8_t *out)
{
    return spelt_loopback(c->a, c->e, c->rnti, c->n_id, c->n_rnti, payload,
                          c->payload_len, values, c->values_len, out,
                          c->out_len);
}

static uint64_t describe(const struct call *c, const uint8_t *payload,
                         const int32_t *values, uint8_t *out)
{
    (void)payload;
    (void)values;
    return spelt_describe(c->a, c->e, out, c->out_len);
}

static struct kind kinds[] = {
    {"encode", encode, SIZE_A, NONE, SIZE_E, 0, 3400, {0}},
    {"decode", decode, NONE, SIZE_E, SIZE_A, -127, 19000, {0}},
    {"loopback", loopback, SIZE_A, SIZE_E, SIZE_A, 1, 28000, {0}},
    {"describe", describe, NONE, NONE, ROLES, 0, 700, {0}},
};

enum { KINDS = sizeof kinds / sizeof *kinds };

static int can_give(const struct kind *kind, int number)
{
    int inputs = kind->payload != NONE || kind->values != NONE;
    switch (number) {
    case SPELT_INPUT_LENGTH:
    case SPELT_BAD_ENTRY:
        return inputs;
    case SPELT_PARITY_MISMATCH:
        return kind->ask == decode;
    default:
        return 1;
    }
}

static const uint64_t lengths[] = {108, 216, 432, 864, 1728};

enum { LENGTHS = sizeof lengths / sizeof *lengths };

static const struct {
    uint64_t a, e;
} pairs[] = {
    {12, 108},  {40, 108},  {84, 108},  {12, 216},   {70, 216}, {71, 216},
    {140, 216}, {12, 432},  {37, 432},  {140, 432},  {12, 864}, {84, 864},
    {140, 864}, {12, 1728}, {84, 1728}, {140, 1728},
};

enum { PAIRS = sizeof pairs / sizeof *pairs };

/* Sizes that narrower numbers or sums that wrap would take for others. */
static const uint64_t far[] = {
    (uint64_t)1 << 8,  (uint64_t)1 << 16, (uint64_t)1 << 32,
    (uint64_t)1 << 63, UINT64_MAX - 2047, UINT64_MAX - 23,
};

enum { FAR = sizeof far / sizeof *far };

/* ---- what is expected ---- */

static void say(const struct call *c, const char *where, const char *why)
{
    fprintf(stderr,
            "%s a=%" PRIu64 " e=%" PRIu64
            " rnti=%u n_id=%u n_rnti=%u lengths %zu %zu %zu, %s: %s\n",
            c->kind->name, c->a, c->e, (unsigned)c->rnti, (unsigned)c->n_id,
            (unsigned)c->n_rnti, c->payload_len, c->values_len, c->out_len,
            where, why);
}

static void fail(const struct call *c, const char *where, const char *why,
                 uint64_t r)
{
    say(c, where, why);
    fprintf(stderr, "the answer is %d with place %zu and noise %zu: %" PRIx64
            "\n", SPELT_NUMBER(r), SPELT_PLACE(r), SPELT_NOISE(r), r);
    exit(1);
}

static uint64_t asked(const struct call *c, enum length length)
{
    const uint64_t of[] = {0, c->a, c->e, SPELT_ROLES};
    return of[length];
}

/* The refusal that applies, 1 to 6 with its place; 0 if none does. */
static uint64_t refusal(const struct call *c)
{
    int listed = 0;
    if (c->a < 12 || c->a > 140)
        return SPELT_PAYLOAD_SIZE;
    for (size_t i = 0; i < LENGTHS; i++)
        listed |= c->e == lengths[i];
    if (!listed)
        return SPELT_CODED_LENGTH;
    if (c->a + 24 > c->e)
        return SPELT_TOO_MANY_BITS;
    if (c->payload_len != asked(c, c->kind->payload) ||
        c->values_len != asked(c, c->kind->values))
        return SPELT_INPUT_LENGTH;
    if (c->out_len != asked(c, c->kind->out))
        return SPELT_OUTPUT_LENGTH;
    for (size_t i = 0; i < c->payload_len; i++)
        if (c->payload[i] > 1)
            return SPELT_BAD_ENTRY + 256 * (uint64_t)i;
    for (size_t i = 0; i < c->values_len; i++)
        if (c->values[i] < c->kind->least || c->values[i] > 127)
            return SPELT_BAD_ENTRY + 256 * (uint64_t)(c->payload_len + i);
    return SPELT_DONE;
}

/* Bits, or what positions are for. */
static int in_range(const struct kind *kind, const uint8_t *bytes, size_t count)
{
    for (size_t i = 0; i < count; i++)
        if (bytes[i] > (kind->out == ROLES ? SPELT_NONE : 1))
            return 0;
    return 1;
}

/* The whole answer of a call that is done: the noise count of what was decoded
 * against the payload coded again, and 0 elsewhere. */
static uint64_t done(const struct call *c, const uint8_t *payload)
{
    static uint8_t again[MOST];
    uint64_t noise = 0;
    if (c->kind->ask != decode)
        return SPELT_DONE;
    if (spelt_encode(c->a, c->e, c->rnti, c->n_id, c->n_rnti, payload,
                     c->out_len, again, c->values_len) != SPELT_DONE)
        return UINT64_MAX;
    for (size_t i = 0; i < c->values_len; i++)
        noise += again[i] == 0 ? c->values[i] < 0 : c->values[i] > 0;
    return SPELT_DONE + (noise << 24);
}

/* Why an answer is wrong; NULL if it is right. */
static const char *fault(const struct call *c, uint64_t r, const uint8_t *out)
{
    uint64_t first = refusal(c);
    int is_done = SPELT_NUMBER(r) == SPELT_DONE;
    if (first != 0 && r != first)
        return "another refusal applies";
    if (first == 0 && !is_done &&
        !(r == SPELT_PARITY_MISMATCH &&
          can_give(c->kind, SPELT_PARITY_MISMATCH)))
        return "no refusal applies";
    if (first == 0 && c->known == GIVES_MISMATCH && r != SPELT_PARITY_MISMATCH)
        return "the parity cannot match";
    if (first == 0 && c->known == GIVES_PAYLOAD &&
        (!is_done || memcmp(out, c->payload, c->out_len) != 0))
        return "it must give the payload";
    if (!is_done && memcmp(out, c->out, c->out_len) != 0)
        return "the output is written";
    if (is_done && !in_range(c->kind, out, c->out_len))
        return "the output is out of range";
    if (is_done && r != done(c, out))
        return "the noise count is wrong";
    return NULL;
}

/* ---- calls ---- */

static unsigned long calls, noisy;
static struct room payload_room, values_room, out_room;

/* The call that is being made, for on_access. */
static const struct call *running;
static enum how running_how;

static void on_access(int signal)
{
    (void)signal;
    say(running, how_names[running_how], "it reads or writes what it must not");
    _exit(1);
}

static uint64_t put_to_library(const struct call *c, enum how how, uint8_t *out)
{
    uint8_t *payload = put(&payload_room, how, c->payload, c->payload_len, 1);
    uint8_t *values =
        put(&values_room, how, c->values, c->values_len, sizeof *c->values);
    uint8_t *result = put(&out_room, how, c->out, c->out_len, 1);
    make_read_only(&payload_room);
    make_read_only(&values_room);

    running = c;
    running_how = how;
    uint64_t r =
        c->kind->ask(c, payload, (const int32_t *)(void *)values, result);

    calls++;
    memcpy(out, result, c->out_len);
    if (memcmp(payload, c->payload, c->payload_len) != 0 ||
        memcmp(values, c->values, c->values_len * sizeof *c->values) != 0)
        fail(c, how_names[how], "an input is written", r);
    if (!surrounded(&out_room))
        fail(c, how_names[how], "something beside the output is written", r);
    free(payload_room.block);
    free(values_room.block);
    free(out_room.block);
    return r;
}

/* Puts a call in every way, and gives its number. */
static int number_of(const struct call *c)
{
    static uint8_t first_out[MOST], out[MOST];
    uint64_t first = put_to_library(c, ALLOCATED, first_out);
    const char *why = fault(c, first, first_out);
    if (why != NULL)
        fail(c, how_names[ALLOCATED], why, first);
    for (int how = SHIFTED; how < HOWS; how++) {
        uint64_t r = put_to_library(c, (enum how)how, out);
        if (r != first || memcmp(out, first_out, c->out_len) != 0)
            fail(c, how_names[how], "another answer than elsewhere", r);
    }
    noisy += SPELT_NOISE(first) > 0;
    return SPELT_NUMBER(first);
}

static void make(struct call *c)
{
    int number = number_of(c);
    for (size_t i = 0; i < KINDS; i++)
        if (c->kind == &kinds[i])
            kinds[i].given[number]++;
}

static size_t fitting(const struct call *c, enum length length)
{
    size_t low = (size_t)(asked(c, length) & 0xFFFF);
    return low < MOST ? low : MOST;
}

/* Random contents that are taken; lengths that fit the sizes' low bits. */
static void fill(struct call *c, const struct kind *kind, uint64_t a,
                 uint64_t e)
{
    c->kind = kind;
    c->a = a;
    c->e = e;
    c->rnti = (uint16_t)any();
    c->n_id = (uint16_t)any();
    c->n_rnti = (uint16_t)any();
    c->payload_len = fitting(c, kind->payload);
    c->values_len = fitting(c, kind->values);
    c->out_len = fitting(c, kind->out);
    c->known = kind->ask == loopback ? GIVES_PAYLOAD : NOTHING;
    for (size_t i = 0; i < MOST; i++) {
        uint64_t bits = any();
        c->payload[i] = bits & 1;
        c->values[i] = kind->least +
                       (int32_t)((bits >> 8) % (uint64_t)(128 - kind->least));
        c->out[i] = (uint8_t)(bits >> 1);
    }
}

/* Makes the values a message; the numbers are accepted. */
static void send(struct call *c)
{
    static uint8_t coded[MOST];
    uint64_t r = spelt_encode(c->a, c->e, c->rnti, c->n_id, c->n_rnti,
                              c->payload, (size_t)c->a, coded, (size_t)c->e);
    if (r != 0)
        fail(c, "coding of a message", "no refusal applies", r);
    receive(coded, c->a, c->values_len, c->values);
    c->known = GIVES_PAYLOAD;
}

static void accepted(struct call *c, const struct kind *kind)
{
    for (size_t i = 0; i < PAIRS; i++) {
        fill(c, kind, pairs[i].a, pairs[i].e);
        make(c);
        if (kind->ask == decode) {
            send(c);
            make(c);
            c->n_rnti ^= 0x8000; /* falls out */
            make(c);
            c->known = GIVES_MISMATCH;
            c->n_rnti ^= (uint16_t)(1 << below(15));
            make(c);
            send(c);
            c->known = GIVES_MISMATCH;
            c->rnti ^= (uint16_t)(1 << below(16));
            make(c);
        }
    }
}

static void sizes_of(struct call *c, const struct kind *kind, uint64_t a,
                     uint64_t e)
{
    fill(c, kind, a, e);
    make(c);
    c->payload_len = c->values_len = c->out_len = 0;
    make(c);
}

static void sizes(struct call *c, const struct kind *kind)
{
    static const uint64_t outside[] = {0, 1, 11, 141, 255, UINT64_MAX};
    for (size_t i = 0; i < LENGTHS; i++) {
        uint64_t e = lengths[i];
        for (size_t k = 0; k < sizeof outside / sizeof *outside; k++)
            sizes_of(c, kind, outside[k], e);
        for (size_t k = 0; k < FAR; k++) {
            sizes_of(c, kind, far[k] + 12, e);
            sizes_of(c, kind, far[k] + 84, e);
            sizes_of(c, kind, 12, far[k] + e);
            sizes_of(c, kind, 84, far[k] + e);
            sizes_of(c, kind, far[k] + 40, far[k] + e);
        }
        sizes_of(c, kind, 12, e - 1);
        sizes_of(c, kind, 12, e + 1);
    }
    sizes_of(c, kind, 12, 0);
    sizes_of(c, kind, UINT64_MAX, UINT64_MAX);
    sizes_of(c, kind, 12, UINT64_MAX);
    for (uint64_t a = 83; a <= 140; a++)
        sizes_of(c, kind, a, 108);
}

static void wrong_length(struct call *c, size_t *length)
{
    size_t fits = *length, wrong[] = {0, 1, fits - 1, fits + 1, MOST};
    for (size_t i = 0; i < sizeof wrong / sizeof *wrong; i++) {
        *length = wrong[i];
        make(c);
    }
    *length = fits;
}

static void wrong_lengths(struct call *c, const struct kind *kind)
{
    for (size_t i = 0; i < PAIRS; i++) {
        fill(c, kind, pairs[i].a, pairs[i].e);
        if (kind->payload != NONE)
            wrong_length(c, &c->payload_len);
        if (kind->values != NONE)
            wrong_length(c, &c->values_len);
        wrong_length(c, &c->out_len);
    }
}

static void bad_entries(struct call *c, const struct kind *kind)
{
    const int32_t bad[] = {kind->least - 1, 128, INT32_MIN, INT32_MAX};
    for (size_t i = 0; i < PAIRS; i++) {
        fill(c, kind, pairs[i].a, pairs[i].e);
        size_t payload_places[] = {0, 1, c->payload_len - 1};
        size_t values_places[] = {0, 1, c->values_len - 1};
        for (size_t k = 0; k < 3 && kind->payload != NONE; k++) {
            uint8_t *entry = &c->payload[payload_places[k]], old = *entry;
            *entry = (uint8_t)(2 + below(254));
            make(c);
            *entry = old;
        }
        for (size_t k = 0; k < 3 && kind->values != NONE; k++) {
            int32_t *entry = &c->values[values_places[k]], old = *entry;
            for (size_t b = 0; b < sizeof bad / sizeof *bad; b++) {
                *entry = bad[b];
                make(c);
            }
            *entry = old;
        }
    }
}

static size_t random_length(size_t fits)
{
    switch (below(12)) {
    case 0:
        return below(MOST + 1);
    case 1:
        return fits < MOST ? fits + 1 : 0;
    case 2:
        return fits > 0 ? fits - 1 : 1;
    default:
        return fits;
    }
}

static void random_call(struct call *c, const struct kind *kind)
{
    size_t pair = below(PAIRS);
    uint64_t a = pairs[pair].a, e = pairs[pair].e;
    switch (below(8)) {
    case 0:
        a = any();
        break;
    case 1:
        e = any();
        break;
    case 2:
        a = far[below(FAR)] + below(256);
        break;
    case 3:
        a = below(160);
        e = lengths[below(LENGTHS)];
        break;
    case 4:
        a = 80 + below(61);
        e = 108;
        break;
    default:
        break;
    }
    fill(c, kind, a, e);
    if (kind->ask == decode && refusal(c) == 0 && below(2) == 0)
        send(c);
    c->payload_len = kind->payload != NONE ? random_length(c->payload_len) : 0;
    c->values_len = kind->values != NONE ? random_length(c->values_len) : 0;
    c->out_len = random_length(c->out_len);
    if (c->payload_len > 0 && below(6) == 0)
        c->payload[below(c->payload_len)] = (uint8_t)any();
    if (c->values_len > 0 && below(6) == 0) {
        c->values[below(c->values_len)] = (int32_t)(any() >> 33) - 0x3FFFFFFF;
        c->known = kind->ask == loopback ? GIVES_PAYLOAD : NOTHING;
    }
    make(c);
}

static int run_calls(unsigned long count)
{
    static struct call c;
    signal(SIGSEGV, on_access);
    for (size_t i = 0; i < KINDS; i++) {
        accepted(&c, &kinds[i]);
        sizes(&c, &kinds[i]);
        wrong_lengths(&c, &kinds[i]);
        bad_entries(&c, &kinds[i]);
    }
    for (unsigned long i = 0; i < count; i++)
        random_call(&c, &kinds[i % KINDS]);
    for (size_t i = 0; i < KINDS; i++)
        for (int number = 0; number < 8; number++)
            if ((kinds[i].given[number] >= 10) != can_give(&kinds[i], number)) {
                fprintf(stderr, "%s gave %d %lu times\n", kinds[i].name, number,
                        kinds[i].given[number]);
                return 1;
            }
    if (noisy < 10) {
        fprintf(stderr, "%lu calls gave a noise count\n", noisy);
        return 1;
    }
    printf("%lu calls, all as expected\n", calls);
    return 0;
}

/* ---- the stack ---- */

struct threaded {
    const struct call *call;
    uint8_t *out;
    uint64_t r;
};

static void ask_in_thread(void *argument)
{
    struct threaded *t = (struct threaded *)argument;
    const struct call *c = t->call;
    t->r = c->kind->ask(c, c->payload, c->values, t->out);
}

/* What a call takes of the stack of its own thread. */
static size_t stack_of_call(const struct call *c)
{
    static uint8_t out[MOST];
    struct threaded threaded = {c, out, 0};
    memcpy(out, c->out, c->out_len);
    size_t taken = stack_of(ask_in_thread, &threaded);
    calls++;
    const char *why = fault(c, threaded.r, out);
    if (why != NULL)
        fail(c, "in a thread of 64 kB", why, threaded.r);
    return taken;
}

static int run_stack(void)
{
    static struct call c;
    for (size_t i = 0; i < KINDS; i++) {
        size_t most = 0;
        for (size_t k = 0; k < PAIRS; k++) {
            fill(&c, &kinds[i], pairs[k].a, pairs[k].e);
            if (kinds[i].ask == decode)
                send(&c); /* noise is counted where a message is accepted */
            number_of(&c); /* so that memcpy and memset are linked */
            size_t taken = stack_of_call(&c);
            most = taken > most ? taken : most;
        }
        if (!stack_is(kinds[i].name, most, kinds[i].stack))
            return 1;
    }
    printf("%lu calls, all as expected\n", calls);
    return 0;
}

int main(int argc, char **argv)
{
    payload_room = room_for(MOST);
    values_room = room_for(MOST * sizeof(int32_t));
    out_room = room_for(MOST);
    if (argc == 3 && strcmp(argv[1], "calls") == 0)
        return run_calls(strtoul(argv[2], NULL, 10));
    if (argc == 2 && strcmp(argv[1], "stack") == 0)
        return run_stack();
    return 2;
}
