/*
 * call numbers
 * call roles
 * call limits
 * call candidate
 * call version
 * call parts R
 * call encode   A E RNTI N_ID N_RNTI OUT_LEN PAYLOAD
 * call decode   A E RNTI N_ID N_RNTI OUT_LEN SOFT
 * call loopback A E RNTI N_ID N_RNTI OUT_LEN PAYLOAD STRENGTHS
 * call describe A E RNTI N_ID N_RNTI OUT_LEN
 * call search   A E RNTI N_ID N_RNTI OUT_LEN REGION CANDIDATES COUNT
 * call list     A E RNTI N_ID N_RNTI OUT_LEN REGION NUMBERS
 *
 * One call through the header, from C or C++. The last arguments are lists with
 * a comma behind each entry; the output starts as 9s; describing takes sizes
 * alone, and searching N_ID alone. A candidate is five entries. COUNT may be
 * more than there are. Prints the number, the place or the candidate, the noise
 * count, and the output; or the numbers of the header in their order, its roles
 * and their count, the limits of a search, the size of a candidate and where its
 * members stand, its version twice, or what its macros take from an answer R.
 */
#include <stddef.h>
#include <stdio.h>
#include <stdlib.h>
#include <string.h>

#include "speltfeather.h"

enum { MOST = 8192 };

static int32_t soft[MOST], strengths[MOST];
static uint32_t list[MOST];
static spelt_candidate candidates[MOST / 5];
static uint8_t payload[MOST], out[MOST];

static size_t values_of(const char *list, int32_t *values)
{
    size_t count = 0;
    while (*list != '\0' && count < MOST) {
        char *comma;
        values[count++] = (int32_t)strtol(list, &comma, 10);
        list = comma + 1;
    }
    return count;
}

static size_t bytes_of(const char *list, uint8_t *bytes)
{
    static int32_t values[MOST];
    size_t count = values_of(list, values);
    for (size_t i = 0; i < count; i++)
        bytes[i] = (uint8_t)values[i];
    return count;
}

static size_t list_of(const char *text)
{
    size_t count = 0;
    while (*text != '\0' && count < MOST) {
        char *comma;
        list[count++] = (uint32_t)strtoul(text, &comma, 10);
        text = comma + 1;
    }
    return count;
}

static void candidates_of(const char *text)
{
    size_t count = list_of(text) / 5;
    for (size_t i = 0; i < count; i++) {
        candidates[i].first_cce = list[5 * i];
        candidates[i].level = list[5 * i + 1];
        candidates[i].a = list[5 * i + 2];
        candidates[i].rnti = list[5 * i + 3];
        candidates[i].n_rnti = list[5 * i + 4];
    }
}

static int print_numbers(void)
{
    printf("%d %d %d %d %d %d %d %d %d\n", SPELT_DONE, SPELT_PAYLOAD_SIZE,
           SPELT_CODED_LENGTH, SPELT_TOO_MANY_BITS, SPELT_INPUT_LENGTH,
           SPELT_OUTPUT_LENGTH, SPELT_BAD_ENTRY, SPELT_PARITY_MISMATCH,
           SPELT_NO_CANDIDATE);
    return 0;
}

static int print_limits(void)
{
    printf("%d %d %d %d\n", SPELT_CCE, SPELT_MAX_CCES, SPELT_MAX_CANDIDATES,
           SPELT_MAX_PAYLOAD);
    return 0;
}

static int print_candidate(void)
{
    printf("%zu: %zu %zu %zu %zu %zu\n", sizeof(spelt_candidate),
           offsetof(spelt_candidate, first_cce),
           offsetof(spelt_candidate, level), offsetof(spelt_candidate, a),
           offsetof(spelt_candidate, rnti), offsetof(spelt_candidate, n_rnti));
    return 0;
}

static int print_roles(void)
{
    printf("%d %d %d %d %d %d\n", SPELT_FROZEN, SPELT_INFORMATION,
           SPELT_PUNCTURED, SPELT_SHORTENED, SPELT_NONE, SPELT_ROLES);
    return 0;
}

static int print_version(void)
{
    printf("%d.%d.%d %s\n", SPELT_VERSION_MAJOR, SPELT_VERSION_MINOR,
           SPELT_VERSION_PATCH, SPELT_VERSION);
    return 0;
}

static int print_parts(uint64_t r)
{
    printf("%d %zu %zu %zu\n", SPELT_NUMBER(r), SPELT_PLACE(r),
           SPELT_CANDIDATE(r), SPELT_NOISE(r));
    return 0;
}

static int print_answered(uint64_t r, size_t place, size_t out_len)
{
    if (r >> 40 != 0)
        return 3;
    printf("%d %zu %zu ", SPELT_NUMBER(r), place, SPELT_NOISE(r));
    for (size_t i = 0; i < out_len; i++)
        putchar('0' + out[i]);
    putchar('\n');
    return 0;
}

static int print_answer(uint64_t r, size_t out_len)
{
    return print_answered(r, SPELT_PLACE(r), out_len);
}

static int print_found(uint64_t r, size_t out_len)
{
    return print_answered(r, SPELT_CANDIDATE(r), out_len);
}

int main(int argc, char **argv)
{
    if (argc == 2 && strcmp(argv[1], "numbers") == 0)
        return print_numbers();
    if (argc == 2 && strcmp(argv[1], "roles") == 0)
        return print_roles();
    if (argc == 2 && strcmp(argv[1], "limits") == 0)
        return print_limits();
    if (argc == 2 && strcmp(argv[1], "candidate") == 0)
        return print_candidate();
    if (argc == 2 && strcmp(argv[1], "version") == 0)
        return print_version();
    if (argc == 3 && strcmp(argv[1], "parts") == 0)
        return print_parts(strtoull(argv[2], NULL, 10));
    if (argc < 8)
        return 2;
    uint64_t a = strtoull(argv[2], NULL, 10), e = strtoull(argv[3], NULL, 10);
    uint16_t rnti = (uint16_t)strtoul(argv[4], NULL, 10);
    uint16_t n_id = (uint16_t)strtoul(argv[5], NULL, 10);
    uint16_t n_rnti = (uint16_t)strtoul(argv[6], NULL, 10);
    size_t out_len = (size_t)strtoull(argv[7], NULL, 10);
    if (out_len > MOST)
        return 2;
    memset(out, 9, sizeof out);

    if (argc == 9 && strcmp(argv[1], "encode") == 0) {
        size_t payload_len = bytes_of(argv[8], payload);
        return print_answer(spelt_encode(a, e, rnti, n_id, n_rnti, payload,
                                         payload_len, out, out_len),
                            out_len);
    }
    if (argc == 9 && strcmp(argv[1], "decode") == 0) {
        size_t soft_len = values_of(argv[8], soft);
        return print_answer(spelt_decode(a, e, rnti, n_id, n_rnti, soft,
                                         soft_len, out, out_len),
                            out_len);
    }
    if (argc == 10 && strcmp(argv[1], "loopback") == 0) {
        size_t payload_len = bytes_of(argv[8], payload);
        size_t strengths_len = values_of(argv[9], strengths);
        return print_answer(spelt_loopback(a, e, rnti, n_id, n_rnti, payload,
                                           payload_len, strengths,
                                           strengths_len, out, out_len),
                            out_len);
    }
    if (argc == 8 && strcmp(argv[1], "describe") == 0)
        return print_answer(spelt_describe(a, e, out, out_len), out_len);
    if (argc == 11 && strcmp(argv[1], "search") == 0) {
        size_t region_len = values_of(argv[8], soft);
        size_t count = (size_t)strtoull(argv[10], NULL, 10);
        candidates_of(argv[9]);
        return print_found(spelt_search(n_id, soft, region_len, candidates,
                                        count, out, out_len),
                           out_len);
    }
    if (argc == 10 && strcmp(argv[1], "list") == 0) {
        size_t region_len = values_of(argv[8], soft);
        size_t list_len = list_of(argv[9]);
        return print_found(spelt_search_list(n_id, soft, region_len, list,
                                             list_len, out, out_len),
                           out_len);
    }
    return 2;
}
