/* Throws away the answer of every call that can refuse. With -Werror=unused-result a compiler must refuse each line; callers/run sees to it. */
#include "galmuriec.h"

void ignores(const uint8_t *b, const uint64_t *c, uint8_t *bytes, uint64_t *numbers, galmuriec_refusal *r);

void ignores(const uint8_t *b, const uint64_t *c, uint8_t *bytes, uint64_t *numbers, galmuriec_refusal *r)
{
    galmuriec_field_value(0, numbers, r);
    galmuriec_field_add(0, 0, numbers, r);
    galmuriec_field_sub(0, 0, numbers, r);
    galmuriec_field_mul(0, 0, numbers, r);
    galmuriec_field_neg(0, numbers, r);
    galmuriec_field_inverse(0, numbers, r);
    galmuriec_field_mod_pow(0, 0, numbers, r);
    galmuriec_coset_ntt_noswap_64(numbers, 0, r);
    galmuriec_coset_intt_noswap_64(numbers, 0, r);
    galmuriec_ring_add(c, 0, c, 0, numbers, 0, r);
    galmuriec_ring_sub(c, 0, c, 0, numbers, 0, r);
    galmuriec_ring_mul(c, 0, c, 0, numbers, 0, r);
    galmuriec_matrix_times_column(c, 0, c, 0, numbers, 0, r);
    galmuriec_row_times_matrix(c, 0, c, 0, numbers, 0, r);
    galmuriec_row_times_column(c, 0, c, 0, numbers, 0, r);
    galmuriec_sample_short_bfield_element(b, 0, numbers, r);
    galmuriec_sample_short(b, 0, numbers, 0, r);
    galmuriec_sample_uniform(b, 0, numbers, 0, r);
    galmuriec_embed_msg(b, 0, numbers, 0, r);
    galmuriec_extract_msg(c, 0, bytes, 0, r);
    galmuriec_shake256(b, 0, bytes, 0, r);
    galmuriec_sha3_256(b, 0, bytes, 0, r);
    galmuriec_keygen(b, 0, bytes, 0, bytes, 0, r);
    galmuriec_enc(b, 0, b, 0, bytes, 0, bytes, 0, r);
    galmuriec_enc_numbers(b, 0, b, 0, bytes, 0, numbers, 0, r);
    galmuriec_dec(b, 0, b, 0, bytes, 0, r);
    galmuriec_dec_numbers(b, 0, c, 0, bytes, 0, r);
    galmuriec_clear(bytes, 0, r);
    galmuriec_job(b, 0, bytes, 0);
}
