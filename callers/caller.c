/* Puts each question of standard input to the library and writes its answer; tests/calls/README.md describes both. With the argument `bare`, outputs
 * are lent as malloc gives them, and a slice of no elements as NULL; nobody knows then what an output held, so no answer ends with `kept`. */
#include "galmuriec.h"
#include <stdio.h>
#include <stdlib.h>
#include <string.h>

/* What is behind each lent slice, and no call may touch: in elements. */
enum { MARGIN = 8 };

static int bare;

/* ---- a question: a word, parts of a length and a seed, two places */
struct part {
    size_t count;
    uint64_t seed;
    size_t width;  /* bytes an element: 8 for numbers, 1 for bytes, 0 where nothing is lent */
    void *at;      /* what is lent, */
    void *before;  /* and a copy from before the call; both with the margin */
    void *lent;    /* the pointer that the call gets */
};

struct place {
    unsigned argument;
    size_t index;
    uint64_t value;
};

struct question {
    char word[8];
    struct part part[4];
    struct place place[2];
    uint64_t *result;
};

static int read_question(struct question *q)
{
    memset(q, 0, sizeof *q);
    if (scanf("%7s", q->word) != 1)
        return 0;
    for (int k = 0; k < 4; k++)
        if (scanf("%zx %lx", &q->part[k].count, &q->part[k].seed) != 2)
            return 0;
    for (int k = 0; k < 2; k++)
        if (scanf("%x %zx %lx", &q->place[k].argument, &q->place[k].index, &q->place[k].value) != 3)
            return 0;
    return 1;
}

/* ---- what an argument holds */
static uint64_t draw(uint64_t *x)
{
    *x ^= *x << 13;
    *x ^= *x >> 7;
    *x ^= *x << 17;
    return *x;
}

static void draw_bytes(uint8_t *s, size_t n, uint64_t *x)
{
    for (size_t i = 0; i < n; i++)
        s[i] = (uint8_t)draw(x);
}

static void draw_numbers(uint64_t *s, size_t n, uint64_t *x, uint64_t below)
{
    for (size_t i = 0; i < n; i++)
        s[i] = draw(x) % below;
}

/* The places that the question sets in argument k (from 0). */
static void put(const struct question *q, unsigned k, uint64_t *s, size_t n)
{
    for (int i = 0; i < 2; i++)
        if (q->place[i].argument == k + 1 && q->place[i].index < n)
            s[q->place[i].index] = q->place[i].value;
}

static void pack(const uint64_t *s, size_t n, uint8_t *out)
{
    for (size_t i = 0; i < 8 * n; i++)
        out[i] = (uint8_t)(s[i / 8] >> (8 * (i % 8)));
}

static void stop(const char *why)
{
    fprintf(stderr, "caller: %s\n", why);
    exit(2);
}

static void public_key(const struct question *q, unsigned k, uint8_t out[32 + 8 * 257])
{
    uint64_t x = q->part[k].seed, numbers[257];
    draw_bytes(out, 32, &x);
    draw_numbers(numbers, 257, &x, GALMURIEC_P);
    put(q, k, numbers, 257);
    pack(numbers, 257, out + 32);
}

/* The key pair of 32 bytes drawn from a seed, by the library itself. */
static void key_pair(uint64_t seed, uint8_t secret[64], uint8_t public[2080])
{
    uint8_t randomness[32];
    galmuriec_refusal refusal = {0, 0, 0};
    draw_bytes(randomness, 32, &seed);
    memset(secret, 0, 64);
    memset(public, 0, 2080);
    if (galmuriec_keygen(randomness, 32, secret, 64, public, 2080, &refusal) != 0)
        stop("no key pair");
}

/* A packet sealed by the library for the key of seed 4, and the secret key of seed 1. */
static void sealed(const struct question *q, uint8_t secret[64], uint64_t ciphertext[321])
{
    uint8_t other[64], public[2080], randomness[32], shared[32] = {0};
    uint64_t x = q->part[1].seed;
    galmuriec_refusal refusal = {0, 0, 0};
    key_pair(q->part[0].seed, secret, public);
    key_pair(q->part[3].seed, other, public);
    draw_bytes(randomness, 32, &x);
    memset(ciphertext, 0, 321 * 8);
    if (galmuriec_enc_numbers(public, 2080, randomness, 32, shared, 32, ciphertext, 320, &refusal) != 0)
        stop("no packet");
    put(q, 1, ciphertext, 320);
}

/* A job of any bytes, */
static void job_of_bytes(const struct question *q, uint8_t *s, size_t n)
{
    uint64_t x = q->part[0].seed;
    draw_bytes(s, n, &x);
    for (int i = 0; i < 2; i++)
        if (q->place[i].argument == 1 && q->place[i].index < n)
            s[q->place[i].index] = (uint8_t)q->place[i].value;
}

/* of a sealing, */
static void job_of_sealing(const struct question *q, uint8_t out[1 + 2080 + 32])
{
    uint64_t x = q->part[1].seed;
    out[0] = 2;
    public_key(q, 0, out + 1);
    draw_bytes(out + 1 + 2080, 32, &x);
}

/* and of an opening. */
static void job_of_opening(const struct question *q, uint8_t out[1 + 64 + 8 * 321])
{
    uint64_t numbers[321];
    out[0] = 3;
    sealed(q, out + 1, numbers);
    pack(numbers, 321, out + 65);
}

/* Kinds of arguments. Inputs: bytes b, coefficients c, public key k, packet in bytes p; secret key s and packet, in bytes x or numbers y, of a
 * sealed packet; jobs j, e, o. Outputs: bytes B, numbers N, coefficients turned in place C. A field value has v, a part that lends nothing '.'. */
static int is_output(char kind)
{
    return kind == 'B' || kind == 'N' || kind == 'C';
}

/* In place, what is lent is an input too. */
static int is_filled(char kind)
{
    return kind == 'B' || kind == 'N';
}

static size_t width(char kind)
{
    return strchr("v.", kind) ? 0 : strchr("cyNC", kind) ? 8 : 1;
}

/* Fills the part by its kind; what is made whole first is cut to the part's length, or followed by zeros. */
static void fill(const struct question *q, unsigned k, char kind)
{
    const struct part *p = &q->part[k];
    uint64_t x = p->seed, numbers[321] = {0};
    uint8_t secret[64], bytes[1 + 64 + 8 * 321] = {0};
    const void *whole = bytes;
    size_t n = p->count, size = n * p->width, most = sizeof bytes;
    switch (kind) {
    case 'b': case 'B': draw_bytes(p->at, n, &x); return;
    case 'N': draw_numbers(p->at, n, &x, UINT64_MAX); return;
    case 'c': case 'C': draw_numbers(p->at, n, &x, GALMURIEC_P); put(q, k, p->at, n); return;
    case 'j': job_of_bytes(q, p->at, n); return;
    case 'k': public_key(q, k, bytes); break;
    case 'p': draw_numbers(numbers, 321, &x, GALMURIEC_P); put(q, k, numbers, 321); pack(numbers, 321, bytes); break;
    case 's': sealed(q, bytes, numbers); break;
    case 'x': sealed(q, secret, numbers); pack(numbers, 321, bytes); break;
    case 'y': sealed(q, secret, numbers); whole = numbers; most = sizeof numbers; break;
    case 'e': job_of_sealing(q, bytes); break;
    case 'o': job_of_opening(q, bytes); break;
    }
    memset(p->at, 0, size);
    memcpy(p->at, whole, size < most ? size : most);
}

static void *room(size_t size)
{
    void *at = malloc(size);
    if (at == NULL)
        stop("no memory");
    return at;
}

static void lend(struct question *q, const char *kinds)
{
    for (unsigned k = 0; kinds[k]; k++) {
        struct part *p = &q->part[k];
        p->width = width(kinds[k]);
        if (p->width == 0)
            continue;
        size_t size = (p->count + MARGIN) * p->width;
        p->at = room(size);
        p->before = room(size);
        memset((char *)p->at + p->count * p->width, 0xa5, MARGIN * p->width);
        if (!bare || !is_filled(kinds[k]))
            fill(q, k, kinds[k]);
        memcpy(p->before, p->at, size);
        p->lent = bare && p->count == 0 ? NULL : p->at;
    }
}

/* Whether part k is what it was, from element `from` on, the margin too. */
static int same(const struct part *p, size_t from)
{
    size_t skip = from * p->width, size = (p->count + MARGIN) * p->width;
    return p->width == 0 || memcmp((char *)p->at + skip, (char *)p->before + skip, size - skip) == 0;
}

/* ---- the calls: word, kinds of the arguments ('=' in front: it gives a number), and how it is asked */
#define S(k) q->part[k].lent, q->part[k].count
#define V(k) q->part[k].seed
#define CALLS(ROW)                                                                              \
    ROW(fnew, "=v", (memset(r, 0, sizeof *r), *q->result = galmuriec_field_new(V(0)), 0))       \
    ROW(fval, "=v", galmuriec_field_value(V(0), q->result, r))                                  \
    ROW(fadd, "=vv", galmuriec_field_add(V(0), V(1), q->result, r))                             \
    ROW(fsub, "=vv", galmuriec_field_sub(V(0), V(1), q->result, r))                             \
    ROW(fmul, "=vv", galmuriec_field_mul(V(0), V(1), q->result, r))                             \
    ROW(fneg, "=v", galmuriec_field_neg(V(0), q->result, r))                                    \
    ROW(finv, "=v", galmuriec_field_inverse(V(0), q->result, r))                                \
    ROW(fpow, "=vv", galmuriec_field_mod_pow(V(0), V(1), q->result, r))                         \
    ROW(nttf, "C", galmuriec_coset_ntt_noswap_64(S(0), r))                                      \
    ROW(ntti, "C", galmuriec_coset_intt_noswap_64(S(0), r))                                     \
    ROW(radd, "ccN", galmuriec_ring_add(S(0), S(1), S(2), r))                                   \
    ROW(rsub, "ccN", galmuriec_ring_sub(S(0), S(1), S(2), r))                                   \
    ROW(rmul, "ccN", galmuriec_ring_mul(S(0), S(1), S(2), r))                                   \
    ROW(mtco, "ccN", galmuriec_matrix_times_column(S(0), S(1), S(2), r))                        \
    ROW(rtma, "ccN", galmuriec_row_times_matrix(S(0), S(1), S(2), r))                           \
    ROW(rtco, "ccN", galmuriec_row_times_column(S(0), S(1), S(2), r))                           \
    ROW(sbfe, "=b", galmuriec_sample_short_bfield_element(S(0), q->result, r))                  \
    ROW(ssho, "bN", galmuriec_sample_short(S(0), S(1), r))                                      \
    ROW(suni, "bN", galmuriec_sample_uniform(S(0), S(1), r))                                    \
    ROW(embd, "bN", galmuriec_embed_msg(S(0), S(1), r))                                         \
    ROW(extr, "cB", galmuriec_extract_msg(S(0), S(1), r))                                       \
    ROW(shak, "bB", galmuriec_shake256(S(0), S(1), r))                                          \
    ROW(sha3, "bB", galmuriec_sha3_256(S(0), S(1), r))                                          \
    ROW(kgen, "bBB", galmuriec_keygen(S(0), S(1), S(2), r))                                     \
    ROW(encb, "kbBB", galmuriec_enc(S(0), S(1), S(2), S(3), r))                                 \
    ROW(encn, "kbBN", galmuriec_enc_numbers(S(0), S(1), S(2), S(3), r))                         \
    ROW(decb, "bpB", galmuriec_dec(S(0), S(1), S(2), r))                                        \
    ROW(decn, "bcB", galmuriec_dec_numbers(S(0), S(1), S(2), r))                                \
    ROW(opnb, "sxB", galmuriec_dec(S(0), S(1), S(2), r))                                        \
    ROW(opnn, "syB", galmuriec_dec_numbers(S(0), S(1), S(2), r))                                \
    ROW(cler, "B", galmuriec_clear(S(0), r))                                                    \
    ROW(jobb, "j.B", galmuriec_job(S(0), S(2)))                                                 \
    ROW(jobe, "e.B", galmuriec_job(S(0), S(2)))                                                 \
    ROW(jobo, "o.B", galmuriec_job(S(0), S(2)))

#define ASK(name, kinds, call)                                                                  \
    static uint64_t ask_##name(struct question *q, galmuriec_refusal *r)                        \
    {                                                                                           \
        (void)r;                                                                                \
        return call;                                                                            \
    }
CALLS(ASK)

struct call {
    const char *word, *kinds;
    uint64_t (*ask)(struct question *, galmuriec_refusal *);
};

#define ENTRY(name, kinds, call) {#name, kinds, ask_##name},
static const struct call calls[] = {CALLS(ENTRY)};
enum { COUNT = sizeof calls / sizeof calls[0] };

static int gives(const struct call *c)
{
    return c->kinds[0] == '=';
}

static const char *kinds_of(const struct call *c)
{
    return c->kinds + gives(c);
}

/* Which slices of each call were lent as NULL. */
static int was_null[COUNT][4];

static void see_null(const struct question *q, const struct call *c)
{
    for (int k = 0; k < 4; k++)
        if (q->part[k].width != 0 && q->part[k].lent == NULL)
            was_null[c - calls][k] = 1;
}

/* Bare, every slice of every call must have been. */
static void all_were_null(void)
{
    for (int i = 0; i < COUNT; i++) {
        const char *kinds = kinds_of(&calls[i]);
        for (int k = 0; kinds[k]; k++)
            if (width(kinds[k]) != 0 && !was_null[i][k])
                stop("a slice was never NULL");
    }
}

/* ---- telling an answer */
static void tell_bytes(const uint8_t *s, size_t n)
{
    putchar(' ');
    for (size_t i = 0; i < n; i++)
        printf("%02x", s[i]);
}

static void tell_numbers(const uint64_t *s, size_t n)
{
    for (size_t i = 0; i < n; i++)
        printf(" %016lx", s[i]);
}

static void tell_done(const struct question *q, const char *kinds, int given)
{
    if (given)
        printf("given %016lx", *q->result);
    else
        printf("done");
    for (int k = 0; kinds[k]; k++)
        if (kinds[k] == 'B')
            tell_bytes(q->part[k].at, q->part[k].count);
        else if (is_output(kinds[k]))
            tell_numbers(q->part[k].at, q->part[k].count);
}

static void tell_refused(const struct question *q, const char *kinds, int given, const galmuriec_refusal *r, uint64_t before)
{
    printf("refused %02lx %02lx %016lx", r->number, r->argument, r->place);
    if (bare)
        return;
    int kept = *q->result == before;
    for (int k = 0; kinds[k]; k++)
        kept = kept && same(&q->part[k], 0);
    if (!given || !kept)
        printf(kept ? " kept" : " changed");
}

static void tell_job(const struct question *q, uint64_t length)
{
    const struct part *out = &q->part[2];
    int fits = length <= out->count;
    printf(fits ? "wrote %016lx" : "needs %016lx", length);
    if (fits)
        tell_bytes(out->at, length);
    if (!bare)
        printf(same(out, fits ? length : 0) ? " kept" : " changed");
}

/* Nothing but the outputs may change, and nothing behind any slice. */
static int spilled(const struct question *q, const char *kinds)
{
    for (int k = 0; kinds[k]; k++)
        if (!same(&q->part[k], is_output(kinds[k]) ? q->part[k].count : 0))
            return 1;
    return 0;
}

static void answer(struct question *q, const struct call *c)
{
    const char *kinds = kinds_of(c);
    galmuriec_refusal *refusal = room(sizeof *refusal), rubbish = {~q->part[0].seed, ~q->part[1].seed, ~q->part[2].seed};
    uint64_t before = ~q->part[0].seed;
    lend(q, kinds);
    see_null(q, c);
    q->result = room(sizeof *q->result);
    if (!bare) {
        *q->result = before;
        *refusal = rubbish;
    }
    uint64_t returned = c->ask(q, refusal);
    if (strchr("jeo", kinds[0]))
        tell_job(q, returned);
    else if (returned != refusal->number)
        printf("returned %016lx and recorded %016lx", returned, refusal->number);
    else if (returned != 0)
        tell_refused(q, kinds, gives(c), refusal, before);
    else if (refusal->argument != 0 || refusal->place != 0)
        printf("recorded a refusal of a call that is done");
    else
        tell_done(q, kinds, gives(c));
    puts(spilled(q, kinds) ? " spilled" : "");
    for (int k = 0; k < 4; k++) {
        free(q->part[k].at);
        free(q->part[k].before);
    }
    free(q->result);
    free(refusal);
}

int main(int count, char **words)
{
    struct question q;
    bare = count > 1 && strcmp(words[1], "bare") == 0;
    while (read_question(&q)) {
        int i = 0;
        while (i < COUNT && strcmp(calls[i].word, q.word) != 0)
            i++;
        if (i < COUNT)
            answer(&q, &calls[i]);
        else
            printf("unknown %s\n", q.word);
    }
    if (bare)
        all_were_null();
    return 0;
}
