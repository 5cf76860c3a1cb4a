//! The archive's functions. A number, a pointer and a count are one word each on x86-64, so each is declared by its words.

pub type Word = u64;

/// A function by its words; the last is the refusal's pointer, but for `new`, which never refuses.
#[derive(Clone, Copy)]
#[rustfmt::skip]
pub enum Symbol {
    New(unsafe extern "C" fn(Word) -> u64),
    Three(unsafe extern "C" fn(Word, Word, Word) -> u64),
    Four(unsafe extern "C" fn(Word, Word, Word, Word) -> u64),
    Five(unsafe extern "C" fn(Word, Word, Word, Word, Word) -> u64),
    Seven(unsafe extern "C" fn(Word, Word, Word, Word, Word, Word, Word) -> u64),
    Nine(unsafe extern "C" fn(Word, Word, Word, Word, Word, Word, Word, Word, Word) -> u64),
}

impl Symbol {
    /// # Safety
    /// The words are what the function's declaration in the header asks for.
    pub unsafe fn call(&self, words: &[Word]) -> u64 {
        unsafe {
            match (*self, words) {
                (Symbol::New(f), [a]) => f(*a),
                (Symbol::Three(f), [a, b, c]) => f(*a, *b, *c),
                (Symbol::Four(f), [a, b, c, d]) => f(*a, *b, *c, *d),
                (Symbol::Five(f), [a, b, c, d, e]) => f(*a, *b, *c, *d, *e),
                (Symbol::Seven(f), [a, b, c, d, e, g, h]) => f(*a, *b, *c, *d, *e, *g, *h),
                (Symbol::Nine(f), [a, b, c, d, e, g, h, i, j]) => {
                    f(*a, *b, *c, *d, *e, *g, *h, *i, *j)
                }
                _ => unreachable!("{} words for another function", words.len()),
            }
        }
    }
}

#[rustfmt::skip]
unsafe extern "C" {
    pub fn galmuriec_field_new(_: Word) -> u64;
    pub fn galmuriec_field_value(_: Word, _: Word, _: Word) -> u64;
    pub fn galmuriec_field_neg(_: Word, _: Word, _: Word) -> u64;
    pub fn galmuriec_field_inverse(_: Word, _: Word, _: Word) -> u64;
    pub fn galmuriec_coset_ntt_noswap_64(_: Word, _: Word, _: Word) -> u64;
    pub fn galmuriec_coset_intt_noswap_64(_: Word, _: Word, _: Word) -> u64;
    pub fn galmuriec_clear(_: Word, _: Word, _: Word) -> u64;
    pub fn galmuriec_field_add(_: Word, _: Word, _: Word, _: Word) -> u64;
    pub fn galmuriec_field_sub(_: Word, _: Word, _: Word, _: Word) -> u64;
    pub fn galmuriec_field_mul(_: Word, _: Word, _: Word, _: Word) -> u64;
    pub fn galmuriec_field_mod_pow(_: Word, _: Word, _: Word, _: Word) -> u64;
    pub fn galmuriec_sample_short_bfield_element(_: Word, _: Word, _: Word, _: Word) -> u64;
    pub fn galmuriec_sample_short(_: Word, _: Word, _: Word, _: Word, _: Word) -> u64;
    pub fn galmuriec_sample_uniform(_: Word, _: Word, _: Word, _: Word, _: Word) -> u64;
    pub fn galmuriec_embed_msg(_: Word, _: Word, _: Word, _: Word, _: Word) -> u64;
    pub fn galmuriec_extract_msg(_: Word, _: Word, _: Word, _: Word, _: Word) -> u64;
    pub fn galmuriec_shake256(_: Word, _: Word, _: Word, _: Word, _: Word) -> u64;
    pub fn galmuriec_sha3_256(_: Word, _: Word, _: Word, _: Word, _: Word) -> u64;
    pub fn galmuriec_ring_add(_: Word, _: Word, _: Word, _: Word, _: Word, _: Word, _: Word) -> u64;
    pub fn galmuriec_ring_sub(_: Word, _: Word, _: Word, _: Word, _: Word, _: Word, _: Word) -> u64;
    pub fn galmuriec_ring_mul(_: Word, _: Word, _: Word, _: Word, _: Word, _: Word, _: Word) -> u64;
    pub fn galmuriec_matrix_times_column(_: Word, _: Word, _: Word, _: Word, _: Word, _: Word, _: Word) -> u64;
    pub fn galmuriec_row_times_matrix(_: Word, _: Word, _: Word, _: Word, _: Word, _: Word, _: Word) -> u64;
    pub fn galmuriec_row_times_column(_: Word, _: Word, _: Word, _: Word, _: Word, _: Word, _: Word) -> u64;
    pub fn galmuriec_keygen(_: Word, _: Word, _: Word, _: Word, _: Word, _: Word, _: Word) -> u64;
    pub fn galmuriec_dec(_: Word, _: Word, _: Word, _: Word, _: Word, _: Word, _: Word) -> u64;
    pub fn galmuriec_dec_numbers(_: Word, _: Word, _: Word, _: Word, _: Word, _: Word, _: Word) -> u64;
    pub fn galmuriec_enc(_: Word, _: Word, _: Word, _: Word, _: Word, _: Word, _: Word, _: Word, _: Word) -> u64;
    pub fn galmuriec_enc_numbers(_: Word, _: Word, _: Word, _: Word, _: Word, _: Word, _: Word, _: Word, _: Word) -> u64;
    pub fn galmuriec_job(input: *const u8, size: usize, output: *mut u8, room: usize) -> usize;
}
