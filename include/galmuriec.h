/*
 * Galmuriec for C, C++ and every language that can call C: the archive that `tests/build galmuriec_c` makes.
 * examples/seal.c is a whole program over it.
 *
 * Each call behind this header is proved to meet its contract in crates/galmuriec_c/src/lib.rt: for all input, what it
 * returns, what the refusal record holds and what every lent buffer holds at the end.
 *
 * How to read a prototype
 *   A slice is two parameters, a pointer and then a count of elements (not of bytes).
 *   `const` slices are inputs; the others are buffers that a call fills, or turns in place.
 *   p is GALMURIEC_P. A number is canonical if it is below p. A ring element is 64 canonical numbers.
 *
 * What comes back
 *   Every call but galmuriec_field_new and galmuriec_job returns the refusal's number, or 0 where it is done, and always writes
 *   *refusal: number, argument and place of the refusal, or three zeros. docs/SCHEME.md, "When a call says no":
 *
 *   number                          | exactly when                                         | argument         | place
 *   1 GALMURIEC_LENGTH              | a count is not the allowed one                       | lowest such      | 0
 *   2 GALMURIEC_COEFFICIENT         | a number that must be canonical is p or more         | lowest such      | index of its first such number
 *   3 GALMURIEC_DIFFERS             | a packet does not open: what is sealed anew differs  | 0                | 0
 *   4 GALMURIEC_INVERSE_OF_ZERO     | the inverse of 0 is asked                            | 1                | 0
 *   5 GALMURIEC_NO_JOB              | galmuriec_job alone, in its answer: no such job      | 0                | 0
 *
 *   Arguments are counted from 1 in the order of the prototype, a slice being one; result and refusal do not count. A field
 *   value has the place 0. Numbers in bytes (in a public key behind its 32 bytes of seed, in a ciphertext from its start) are
 *   placed by their index, eight bytes each. The lowest number that applies is given: all counts are looked at before any
 *   number. Below, each call names the refusals that it can give.
 *
 * After a refusal every buffer, and *result, holds what it held (galmuriec_job writes its refusal as its answer)
 *   Where galmuriec_dec refuses, the shared key's buffer still has what was in it: last hour's key, if the same buffer was lent
 *   an hour ago. A caller who ignores the returned number goes on with that old key. Guard against it twice:
 *   - Look at the returned number before you look at a buffer. Every call that can refuse is marked GALMURIEC_MUST_CHECK: the
 *     compiler warns where its answer is thrown away, and -Werror=unused-result makes that an error.
 *   - Clear the buffer before the call, so that no old key is in it. Random bytes are better than zeros for that: a key of
 *     zeros is one that everybody knows.
 *
 * What this boundary does not check, and the caller owes
 *   - Each pointer is valid for as many elements as its count says: readable for an input, readable and writable for a
 *     buffer, *result and *refusal. Nothing is read or written through a pointer whose count is 0: it may be NULL.
 *   - Inputs are initialised, and so is what a call turns in place. A buffer that it fills, *result and *refusal need not be.
 *   - Pointers to uint64_t and to galmuriec_refusal are aligned for uint64_t (8 bytes), unless their count is 0.
 *   - What is lent to one call does not overlap, except that two inputs may be the same or overlap. No other thread
 *     writes what is lent, or reads a buffer, during the call.
 *   - A slice has at most 2^63 - 1 bytes.
 *   - The machine is an x86-64 with Linux and the System V calling convention; the caller's stack has 64 KiB left.
 *   On NULL and on memory never written: it is proved that the code touches nothing of an empty slice, and that what a call
 *   writes is the same whatever a buffer held. That C's NULL and C's uninitialised memory come under this is no theorem, since
 *   no reference of the proved language is NULL or leads to memory without a value; callers/README.md gives the reasons, and
 *   callers/run tries every call so.
 *   No call allocates, blocks, keeps a pointer or has state of its own: calls may run in several threads at once.
 *   Randomness is the caller's: 32 bytes that nobody can guess. What of a secret is left on the stack, and how long a call
 *   takes, is promised nowhere.
 */
#ifndef GALMURIEC_H
#define GALMURIEC_H

#include <stddef.h>
#include <stdint.h>

/* ---- The version of this interface. MAJOR changes where callers must: a prototype, a size, a number or an answer is another.
 * MINOR changes where something is added and callers may stay as they are; PATCH where a caller sees nothing new. While MAJOR is 0,
 * MINOR stands for both. The archive has no version of its own: take header and archive from one commit. */
#define GALMURIEC_VERSION_MAJOR 0
#define GALMURIEC_VERSION_MINOR 1
#define GALMURIEC_VERSION_PATCH 0
#define GALMURIEC_VERSION "0.1.0"
#define GALMURIEC_VERSION_NUMBER 100 /* 10000 MAJOR + 100 MINOR + PATCH */

/* ---- The mark of every call that can refuse: the compiler warns where its answer is thrown away. */
#if defined(__cplusplus) && __cplusplus >= 201703L
#define GALMURIEC_MUST_CHECK [[nodiscard]]
#elif defined(__STDC_VERSION__) && __STDC_VERSION__ >= 202311L
#define GALMURIEC_MUST_CHECK [[nodiscard]]
#elif defined(__GNUC__)
#define GALMURIEC_MUST_CHECK __attribute__((warn_unused_result))
#else
#define GALMURIEC_MUST_CHECK
#endif

/* ---- The numbers of the refusals: what a call returns, and records. */
enum galmuriec_number {
    GALMURIEC_DONE = 0,
    GALMURIEC_LENGTH = 1,
    GALMURIEC_COEFFICIENT = 2,
    GALMURIEC_DIFFERS = 3,
    GALMURIEC_INVERSE_OF_ZERO = 4,
    GALMURIEC_NO_JOB = 5
};

/* ---- Sizes. BYTES counts bytes, NUMBERS counts uint64_t; callers/sizes.c tries each of them. */
#define GALMURIEC_P UINT64_C(18446744069414584321) /* 2^64 - 2^32 + 1 */

/* the ring, and matrices of its elements */
#define GALMURIEC_RING_NUMBERS 64     /* a ring element */
#define GALMURIEC_VECTOR_NUMBERS 256  /* 4 ring elements: 4 by 1, or 1 by 4 */
#define GALMURIEC_MATRIX_NUMBERS 1024 /* 16 ring elements: 4 by 4 */

/* samplers and message lanes */
#define GALMURIEC_SHORT_NUMBER_BYTES 8 /* drawn for a short number, */
#define GALMURIEC_SHORT_BYTES 512      /* for a short ring element, */
#define GALMURIEC_UNIFORM_BYTES 576    /* for a uniform ring element */
#define GALMURIEC_MESSAGE_BYTES 32
#define GALMURIEC_EMBEDDING_NUMBERS 64

/* hashes: at most so many bytes of message, and of SHAKE256's output */
#define GALMURIEC_HASH_MESSAGE_MAX 135
#define GALMURIEC_SHAKE256_OUTPUT_MAX 9216
#define GALMURIEC_SHA3_256_BYTES 32

/* keys and packets */
#define GALMURIEC_RANDOMNESS_BYTES 32
#define GALMURIEC_SEED_BYTES 32
#define GALMURIEC_SECRET_KEY_BYTES 64    /* key 32, seed 32 */
#define GALMURIEC_PUBLIC_KEY_BYTES 2080  /* seed 32, then 256 numbers */
#define GALMURIEC_CIPHERTEXT_BYTES 2560  /* 320 numbers */
#define GALMURIEC_CIPHERTEXT_NUMBERS 320
#define GALMURIEC_SHARED_KEY_BYTES 32

/* jobs, and their answers */
#define GALMURIEC_KEYGEN_JOB_BYTES 33      /* byte 1, randomness */
#define GALMURIEC_ENC_JOB_BYTES 2113       /* byte 2, public key, randomness */
#define GALMURIEC_DEC_JOB_BYTES 2625       /* byte 3, secret key, ciphertext */
#define GALMURIEC_LONGEST_JOB 2625
#define GALMURIEC_KEYGEN_ANSWER_BYTES 2145 /* byte 0, secret key, public key */
#define GALMURIEC_ENC_ANSWER_BYTES 2593    /* byte 0, shared key, ciphertext */
#define GALMURIEC_DEC_ANSWER_BYTES 33      /* byte 0, shared key */
#define GALMURIEC_REFUSAL_ANSWER_BYTES 10  /* number, argument, place in eight bytes */
#define GALMURIEC_LONGEST_JOB_ANSWER 2593

#ifdef __cplusplus
extern "C" {
#endif

typedef struct {
    uint64_t number;
    uint64_t argument;
    uint64_t place;
} galmuriec_refusal;

/* ---- The field of p numbers. Values are plain numbers; *result is canonical. */

/* x modulo p, for any x. Never refuses, and returns the number itself. */
uint64_t galmuriec_field_new(uint64_t x);

/* *result = x. Refuses: 2. */
GALMURIEC_MUST_CHECK
uint64_t galmuriec_field_value(uint64_t x, uint64_t *result, galmuriec_refusal *refusal);

/* *result = a + b, a - b, a * b modulo p. Refuse: 2. */
GALMURIEC_MUST_CHECK
uint64_t galmuriec_field_add(uint64_t a, uint64_t b, uint64_t *result, galmuriec_refusal *refusal);
GALMURIEC_MUST_CHECK
uint64_t galmuriec_field_sub(uint64_t a, uint64_t b, uint64_t *result, galmuriec_refusal *refusal);
GALMURIEC_MUST_CHECK
uint64_t galmuriec_field_mul(uint64_t a, uint64_t b, uint64_t *result, galmuriec_refusal *refusal);

/* *result = -a modulo p. Refuses: 2. */
GALMURIEC_MUST_CHECK
uint64_t galmuriec_field_neg(uint64_t a, uint64_t *result, galmuriec_refusal *refusal);

/* *result * a = 1 modulo p. Refuses: 2; then 4, where a is 0. */
GALMURIEC_MUST_CHECK
uint64_t galmuriec_field_inverse(uint64_t a, uint64_t *result, galmuriec_refusal *refusal);

/* *result = a to the power exp modulo p; 0 to the power 0 is 1. Any exp is allowed. Refuses: 2 (a). */
GALMURIEC_MUST_CHECK
uint64_t galmuriec_field_mod_pow(uint64_t a, uint64_t exp, uint64_t *result, galmuriec_refusal *refusal);

/* ---- The ring modulo X^64 + 1 and p. An element is GALMURIEC_RING_NUMBERS. */

/* The forward transform and its inverse, in place. array: an element, canonical. Refuse: 1, 2. */
GALMURIEC_MUST_CHECK
uint64_t galmuriec_coset_ntt_noswap_64(uint64_t *array, size_t array_len, galmuriec_refusal *refusal);
GALMURIEC_MUST_CHECK
uint64_t galmuriec_coset_intt_noswap_64(uint64_t *array, size_t array_len, galmuriec_refusal *refusal);

/* out = lhs + rhs, lhs - rhs, lhs * rhs. lhs, rhs: an element each, canonical. out: an element. Refuse: 1, 2. */
GALMURIEC_MUST_CHECK
uint64_t galmuriec_ring_add(const uint64_t *lhs, size_t lhs_len, const uint64_t *rhs, size_t rhs_len, uint64_t *out,
                            size_t out_len, galmuriec_refusal *refusal);
GALMURIEC_MUST_CHECK
uint64_t galmuriec_ring_sub(const uint64_t *lhs, size_t lhs_len, const uint64_t *rhs, size_t rhs_len, uint64_t *out,
                            size_t out_len, galmuriec_refusal *refusal);
GALMURIEC_MUST_CHECK
uint64_t galmuriec_ring_mul(const uint64_t *lhs, size_t lhs_len, const uint64_t *rhs, size_t rhs_len, uint64_t *out,
                            size_t out_len, galmuriec_refusal *refusal);

/* ---- Products of matrices of transformed ring elements, 64 numbers an element, row by row; lhs and rhs canonical. Below,
 * a matrix is GALMURIEC_MATRIX_NUMBERS, a row or a column GALMURIEC_VECTOR_NUMBERS. */

/* 4 by 4 times 4 by 1. lhs: a matrix. rhs, out: a column. Refuses: 1, 2. */
GALMURIEC_MUST_CHECK
uint64_t galmuriec_matrix_times_column(const uint64_t *lhs, size_t lhs_len, const uint64_t *rhs, size_t rhs_len,
                                       uint64_t *out, size_t out_len, galmuriec_refusal *refusal);

/* 1 by 4 times 4 by 4. lhs, out: a row. rhs: a matrix. Refuses: 1, 2. */
GALMURIEC_MUST_CHECK
uint64_t galmuriec_row_times_matrix(const uint64_t *lhs, size_t lhs_len, const uint64_t *rhs, size_t rhs_len,
                                    uint64_t *out, size_t out_len, galmuriec_refusal *refusal);

/* 1 by 4 times 4 by 1. lhs: a row. rhs: a column. out: a ring element. Refuses: 1, 2. */
GALMURIEC_MUST_CHECK
uint64_t galmuriec_row_times_column(const uint64_t *lhs, size_t lhs_len, const uint64_t *rhs, size_t rhs_len,
                                    uint64_t *out, size_t out_len, galmuriec_refusal *refusal);

/* ---- Samplers and message lanes. */

/* *result = the short number that GALMURIEC_SHORT_NUMBER_BYTES of randomness give. Refuses: 1. */
GALMURIEC_MUST_CHECK
uint64_t galmuriec_sample_short_bfield_element(const uint8_t *randomness, size_t randomness_len, uint64_t *result,
                                               galmuriec_refusal *refusal);

/* out = the short ring element that GALMURIEC_SHORT_BYTES of randomness give. Refuses: 1. */
GALMURIEC_MUST_CHECK
uint64_t galmuriec_sample_short(const uint8_t *randomness, size_t randomness_len, uint64_t *out, size_t out_len,
                                galmuriec_refusal *refusal);

/* out = the uniform ring element that GALMURIEC_UNIFORM_BYTES of randomness give. Refuses: 1. */
GALMURIEC_MUST_CHECK
uint64_t galmuriec_sample_uniform(const uint8_t *randomness, size_t randomness_len, uint64_t *out, size_t out_len,
                                  galmuriec_refusal *refusal);

/* out = GALMURIEC_MESSAGE_BYTES of payload in the lanes of GALMURIEC_EMBEDDING_NUMBERS. Refuses: 1. */
GALMURIEC_MUST_CHECK
uint64_t galmuriec_embed_msg(const uint8_t *msg, size_t msg_len, uint64_t *out, size_t out_len,
                             galmuriec_refusal *refusal);

/* The way back: out = the payload that the lanes are nearest to. embedding: canonical. Refuses: 1, 2. */
GALMURIEC_MUST_CHECK
uint64_t galmuriec_extract_msg(const uint64_t *embedding, size_t embedding_len, uint8_t *out, size_t out_len,
                               galmuriec_refusal *refusal);

/* ---- Hashes (FIPS 202) of a message of 0 to GALMURIEC_HASH_MESSAGE_MAX bytes. */

/* output = as many bytes of SHAKE256 as it has, 0 to GALMURIEC_SHAKE256_OUTPUT_MAX. Refuses: 1. */
GALMURIEC_MUST_CHECK
uint64_t galmuriec_shake256(const uint8_t *message, size_t message_len, uint8_t *output, size_t output_len,
                            galmuriec_refusal *refusal);

/* output = the GALMURIEC_SHA3_256_BYTES of SHA3-256. Refuses: 1. */
GALMURIEC_MUST_CHECK
uint64_t galmuriec_sha3_256(const uint8_t *message, size_t message_len, uint8_t *output, size_t output_len,
                            galmuriec_refusal *refusal);

/* ---- Keys and packets: GALMURIEC_SECRET_KEY_BYTES, .._PUBLIC_KEY_BYTES, .._CIPHERTEXT_BYTES or .._CIPHERTEXT_NUMBERS,
 * .._SHARED_KEY_BYTES, .._RANDOMNESS_BYTES. */

/* A key pair. Refuses: 1. */
GALMURIEC_MUST_CHECK
uint64_t galmuriec_keygen(const uint8_t *randomness, size_t randomness_len, uint8_t *secret, size_t secret_len,
                          uint8_t *public_key, size_t public_key_len, galmuriec_refusal *refusal);

/* Seals: a shared key and the packet that opens to it, in bytes or as numbers. The numbers of public_key are canonical.
 * Refuse: 1, 2 (public_key). */
GALMURIEC_MUST_CHECK
uint64_t galmuriec_enc(const uint8_t *public_key, size_t public_key_len, const uint8_t *randomness,
                       size_t randomness_len, uint8_t *shared, size_t shared_len, uint8_t *ciphertext,
                       size_t ciphertext_len, galmuriec_refusal *refusal);
GALMURIEC_MUST_CHECK
uint64_t galmuriec_enc_numbers(const uint8_t *public_key, size_t public_key_len, const uint8_t *randomness,
                               size_t randomness_len, uint8_t *shared, size_t shared_len, uint64_t *ciphertext,
                               size_t ciphertext_len, galmuriec_refusal *refusal);

/* Opens a packet, in bytes or as numbers: its shared key. The numbers of ciphertext are canonical. Refuse: 1, 2 (ciphertext);
 * then 3, where the packet was not sealed for this key, is damaged, or its noise was too large. The buffer `shared` then holds
 * what it held: see "After a refusal" above. */
GALMURIEC_MUST_CHECK
uint64_t galmuriec_dec(const uint8_t *secret, size_t secret_len, const uint8_t *ciphertext, size_t ciphertext_len,
                       uint8_t *shared, size_t shared_len, galmuriec_refusal *refusal);
GALMURIEC_MUST_CHECK
uint64_t galmuriec_dec_numbers(const uint8_t *secret, size_t secret_len, const uint64_t *ciphertext,
                               size_t ciphertext_len, uint8_t *shared, size_t shared_len, galmuriec_refusal *refusal);

/* Clears a secret key: all zeros. Copies held elsewhere stay. Refuses: 1. */
GALMURIEC_MUST_CHECK
uint64_t galmuriec_clear(uint8_t *secret, size_t secret_len, galmuriec_refusal *refusal);

/* ---- One job in bytes. input: byte 1 and randomness; byte 2, a public key and randomness; byte 3, a secret key and a
 * ciphertext. The answer: byte 0 and then secret and public key, or shared key and ciphertext, or shared key; on a refusal ten
 * bytes, its number, its argument and its place as eight little-endian bytes. What is no such job gets the answer 5 0 0.
 * Returns the answer's length, at most GALMURIEC_LONGEST_JOB_ANSWER. The answer is written to the front of output where it
 * fits, and what is behind it stays; where it does not fit, output holds what it held. */
GALMURIEC_MUST_CHECK
size_t galmuriec_job(const uint8_t *input, size_t input_len, uint8_t *output, size_t output_len);

#ifdef __cplusplus
}
#endif

#endif
