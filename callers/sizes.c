/* Tries every constant of galmuriec.h on the library: a call that is lent exactly so many elements is done, and with one more it refuses that
 * argument. What a compiler can see alone stands first. C11 and C++11. The status is 0 where all is as the header says. */
#include "galmuriec.h"
#include <assert.h>
#include <stdio.h>
#include <string.h>

#define MORE(a, b) ((a) > (b) ? (a) : (b))

/* ---- what the compiler sees */
static_assert(GALMURIEC_DONE == 0 && GALMURIEC_LENGTH == 1 && GALMURIEC_COEFFICIENT == 2, "the refusals' numbers");
static_assert(GALMURIEC_DIFFERS == 3 && GALMURIEC_INVERSE_OF_ZERO == 4 && GALMURIEC_NO_JOB == 5, "the refusals' numbers");
static_assert(sizeof(galmuriec_refusal) == 24 && offsetof(galmuriec_refusal, number) == 0, "three numbers of 8 bytes");
static_assert(offsetof(galmuriec_refusal, argument) == 8 && offsetof(galmuriec_refusal, place) == 16, "in this order");
static_assert(GALMURIEC_LONGEST_JOB == MORE(GALMURIEC_DEC_JOB_BYTES, MORE(GALMURIEC_KEYGEN_JOB_BYTES, GALMURIEC_ENC_JOB_BYTES)), "of three");
static_assert(GALMURIEC_LONGEST_JOB_ANSWER == MORE(MORE(GALMURIEC_KEYGEN_ANSWER_BYTES, GALMURIEC_ENC_ANSWER_BYTES),
                                                   MORE(GALMURIEC_DEC_ANSWER_BYTES, GALMURIEC_REFUSAL_ANSWER_BYTES)), "of four");
static_assert(GALMURIEC_VERSION_NUMBER == 10000 * GALMURIEC_VERSION_MAJOR + 100 * GALMURIEC_VERSION_MINOR + GALMURIEC_VERSION_PATCH, "one version");

/* ---- what is lent: as many elements as the header says, and room for one more */
static uint64_t result, lhs[GALMURIEC_RING_NUMBERS + 1], rhs[GALMURIEC_RING_NUMBERS + 1], out[GALMURIEC_RING_NUMBERS + 1];
static uint64_t matrix[GALMURIEC_MATRIX_NUMBERS + 1], vector[GALMURIEC_VECTOR_NUMBERS + 1], other[GALMURIEC_VECTOR_NUMBERS + 1];
static uint64_t embedding[GALMURIEC_EMBEDDING_NUMBERS + 1], numbers[GALMURIEC_CIPHERTEXT_NUMBERS + 1];
static uint8_t drawn_number[GALMURIEC_SHORT_NUMBER_BYTES + 1], drawn_short[GALMURIEC_SHORT_BYTES + 1], drawn_uniform[GALMURIEC_UNIFORM_BYTES + 1];
static uint8_t payload[GALMURIEC_MESSAGE_BYTES + 1], message[GALMURIEC_HASH_MESSAGE_MAX + 1];
static uint8_t stream[GALMURIEC_SHAKE256_OUTPUT_MAX + 1], digest[GALMURIEC_SHA3_256_BYTES + 1];
static uint8_t randomness[GALMURIEC_RANDOMNESS_BYTES + 1], secret[GALMURIEC_SECRET_KEY_BYTES + 1], public_key[GALMURIEC_PUBLIC_KEY_BYTES + 1];
static uint8_t packet[GALMURIEC_CIPHERTEXT_BYTES + 1], shared[GALMURIEC_SHARED_KEY_BYTES + 1], opened[GALMURIEC_SHARED_KEY_BYTES + 1];
static uint8_t input[GALMURIEC_LONGEST_JOB + 1], answer[GALMURIEC_LONGEST_JOB_ANSWER];
static galmuriec_refusal no;

static int tried, failed;
static size_t longer; /* the argument that gets one element too many, 0 where none does */

static void expect(int holds, const char *what)
{
    tried++;
    failed += !holds;
    if (!holds)
        printf("sizes: not as the header says: %s\n", what);
}

/* ---- the calls with slices: done where all have their size, refused where the argument `longer` has one element too many */
#define LENT(argument, slice) slice, sizeof slice / sizeof slice[0] - 1 + (longer == argument)
#define TRY(arguments, call)                                                                                    \
    for (longer = 0; longer <= arguments; longer++) {                                                           \
        uint64_t number = call;                                                                                 \
        int refused = number == GALMURIEC_LENGTH && no.number == number && no.argument == longer && no.place == 0; \
        expect(longer == 0 ? number == GALMURIEC_DONE : refused, #call);                                        \
    }

static void try_ring(void)
{
    TRY(1, galmuriec_coset_ntt_noswap_64(LENT(1, lhs), &no))
    TRY(1, galmuriec_coset_intt_noswap_64(LENT(1, lhs), &no))
    TRY(3, galmuriec_ring_add(LENT(1, lhs), LENT(2, rhs), LENT(3, out), &no))
    TRY(3, galmuriec_ring_sub(LENT(1, lhs), LENT(2, rhs), LENT(3, out), &no))
    TRY(3, galmuriec_ring_mul(LENT(1, lhs), LENT(2, rhs), LENT(3, out), &no))
    TRY(3, galmuriec_matrix_times_column(LENT(1, matrix), LENT(2, vector), LENT(3, other), &no))
    TRY(3, galmuriec_row_times_matrix(LENT(1, vector), LENT(2, matrix), LENT(3, other), &no))
    TRY(3, galmuriec_row_times_column(LENT(1, vector), LENT(2, other), LENT(3, out), &no))
}

static void try_lanes_and_hashes(void)
{
    TRY(1, galmuriec_sample_short_bfield_element(LENT(1, drawn_number), &result, &no))
    TRY(2, galmuriec_sample_short(LENT(1, drawn_short), LENT(2, out), &no))
    TRY(2, galmuriec_sample_uniform(LENT(1, drawn_uniform), LENT(2, out), &no))
    TRY(2, galmuriec_embed_msg(LENT(1, payload), LENT(2, embedding), &no))
    TRY(2, galmuriec_extract_msg(LENT(1, embedding), LENT(2, payload), &no))
    TRY(2, galmuriec_shake256(LENT(1, message), LENT(2, stream), &no))
    TRY(2, galmuriec_sha3_256(LENT(1, message), LENT(2, digest), &no))
}

/* The key pair and the packet of 32 zeros; both forms open, a damaged packet does not. */
static void try_keys(void)
{
    TRY(3, galmuriec_keygen(LENT(1, randomness), LENT(2, secret), LENT(3, public_key), &no))
    expect(memcmp(secret + GALMURIEC_SECRET_KEY_BYTES - GALMURIEC_SEED_BYTES, public_key, GALMURIEC_SEED_BYTES) == 0, "GALMURIEC_SEED_BYTES");
    TRY(4, galmuriec_enc(LENT(1, public_key), LENT(2, randomness), LENT(3, shared), LENT(4, packet), &no))
    TRY(3, galmuriec_dec(LENT(1, secret), LENT(2, packet), LENT(3, opened), &no))
    TRY(4, galmuriec_enc_numbers(LENT(1, public_key), LENT(2, randomness), LENT(3, shared), LENT(4, numbers), &no))
    TRY(3, galmuriec_dec_numbers(LENT(1, secret), LENT(2, numbers), LENT(3, opened), &no))
    expect(memcmp(shared, opened, GALMURIEC_SHARED_KEY_BYTES) == 0, "the shared key");
    longer = 0;
    numbers[0] ^= 1;
    expect(galmuriec_dec_numbers(LENT(1, secret), LENT(2, numbers), LENT(3, opened), &no) == GALMURIEC_DIFFERS, "GALMURIEC_DIFFERS");
}

/* ---- the others */
static void try_field(void)
{
    expect(galmuriec_field_new(GALMURIEC_P) == 0 && galmuriec_field_new(GALMURIEC_P - 1) == GALMURIEC_P - 1, "GALMURIEC_P");
    expect(galmuriec_field_value(GALMURIEC_P - 1, &result, &no) == GALMURIEC_DONE, "GALMURIEC_P - 1");
    expect(galmuriec_field_value(GALMURIEC_P, &result, &no) == GALMURIEC_COEFFICIENT, "GALMURIEC_COEFFICIENT");
    expect(galmuriec_field_inverse(0, &result, &no) == GALMURIEC_INVERSE_OF_ZERO, "GALMURIEC_INVERSE_OF_ZERO");
}

/* A job of this kind and length has an answer of so many bytes; one byte longer it is none. */
static void try_job(uint8_t kind, size_t length, size_t answered, const char *what)
{
    input[0] = kind;
    expect(galmuriec_job(input, length, answer, sizeof answer) == answered && answer[0] == GALMURIEC_DONE, what);
    expect(galmuriec_job(input, length + 1, answer, sizeof answer) == GALMURIEC_REFUSAL_ANSWER_BYTES && answer[0] == GALMURIEC_NO_JOB, what);
}

static void try_jobs(void)
{
    try_job(1, GALMURIEC_KEYGEN_JOB_BYTES, GALMURIEC_KEYGEN_ANSWER_BYTES, "the job of byte 1");
    memcpy(input + 1, public_key, GALMURIEC_PUBLIC_KEY_BYTES);
    try_job(2, GALMURIEC_ENC_JOB_BYTES, GALMURIEC_ENC_ANSWER_BYTES, "the job of byte 2");
    memcpy(input + 1, secret, GALMURIEC_SECRET_KEY_BYTES);
    memcpy(input + 1 + GALMURIEC_SECRET_KEY_BYTES, packet, GALMURIEC_CIPHERTEXT_BYTES);
    try_job(3, GALMURIEC_DEC_JOB_BYTES, GALMURIEC_DEC_ANSWER_BYTES, "the job of byte 3");
}

static void try_version(void)
{
    char text[40];
    snprintf(text, sizeof text, "%d.%d.%d", GALMURIEC_VERSION_MAJOR, GALMURIEC_VERSION_MINOR, GALMURIEC_VERSION_PATCH);
    expect(strcmp(text, GALMURIEC_VERSION) == 0, "GALMURIEC_VERSION");
}

int main(void)
{
    try_field();
    try_ring();
    try_lanes_and_hashes();
    try_keys();
    try_jobs();
    try_version();
    printf("sizes: %d of %d trials are as the header says\n", tried - failed, tried);
    return failed != 0;
}
