"""The rules of docs/SCHEME.md in Python, on Python's integers and by the definitions; the hashes are Python's hashlib. Nothing of the Rattle code is read.

A call is told as its refusal (number, argument, place) or what it gives. Bytes are `bytes`, coefficients are lists.
"""
import hashlib

P = 2**64 - 2**32 + 1
PSI = 2**41 - 2**25 - 2**9
TOP = 2**64 - 1


# ---- when a call says no
def refusal(arguments):
    """arguments: (length is allowed, coefficients that must be canonical). The number, argument and place, or None."""
    for k, (fits, _) in enumerate(arguments, 1):
        if not fits:
            return 1, k, 0
    for k, (_, coefficients) in enumerate(arguments, 1):
        for i, x in enumerate(coefficients):
            if x >= P:
                return 2, k, i
    return None


def numbers(n, values):
    return len(values) == n, values


def room(n, values):
    return len(values) == n, []


def at_most(n, values):
    return len(values) <= n, []


def packed(n, offset, data):
    """Bytes whose coefficients begin at the offset."""
    return len(data) == n, words(data[offset:]) if len(data) == n else []


def value(x):
    return True, [x]


# ---- layouts
def words(data):
    return [int.from_bytes(data[i : i + 8], "little") for i in range(0, len(data), 8)]


def packing(values):
    return b"".join(x.to_bytes(8, "little") for x in values)


# ---- the ring
def reversed_bits(k):
    return int(format(k, "06b")[::-1], 2)


POINTS = [pow(PSI, 2 * reversed_bits(k) + 1, P) for k in range(64)]
POWERS = [[pow(x, j, P) for j in range(64)] for x in POINTS]
# row j: what each value gives to coefficient j, which is a mean over the points, 64 of the 128th roots of 1
MEANS = [[pow(64, -1, P) * pow(x, -j, P) % P for x in POINTS] for j in range(64)]


def applied(rows, vector):
    return [sum(x * y for x, y in zip(row, vector)) % P for row in rows]


def transform(polynomial):
    """Its values at the points."""
    return applied(POWERS, polynomial)


def untransform(values):
    """The polynomial of these values."""
    return applied(MEANS, values)


def plus(a, b):
    return [(x + y) % P for x, y in zip(a, b)]


def minus(a, b):
    return [(x - y) % P for x, y in zip(a, b)]


def product(a, b):
    out = [0] * 64
    for i, x in enumerate(a):
        for j, y in enumerate(b):
            if i + j < 64:
                out[i + j] += x * y
            else:
                out[i + j - 64] -= x * y
    return [x % P for x in out]


def element(flat, i):
    return flat[64 * i : 64 * i + 64]


def matrix(height, inner, width, a, b):
    out = []
    for row in range(height):
        for column in range(width):
            sums = [0] * 64
            for q in range(inner):
                x, y = element(a, row * inner + q), element(b, q * width + column)
                sums = [s + u * v for s, u, v in zip(sums, x, y)]
            out += [s % P for s in sums]
    return out


# ---- samplers and message lanes
def short(eight):
    def half(four):
        return sum(bin(b).count("1") << shift for b, shift in zip(four, (48, 32, 16, 0)))

    return (half(eight[:4]) - half(eight[4:])) % P


def sample_short(s):
    return [short(s[8 * k : 8 * k + 8]) for k in range(64)]


def sample_uniform(s):
    return [int.from_bytes(s[9 * k : 9 * k + 9], "big") % P for k in range(64)]


def embed(message):
    out = []
    for b in message:
        for nibble in (b & 15, b >> 4):
            out.append(sum((nibble >> j & 1) << 15 + 16 * j for j in range(4)))
    return out


def extract(coefficients):
    bits = []
    for c in coefficients:
        for j in range(4):
            chunk = c >> 16 * j & 0xFFFF
            bits.append(0 if chunk < 16384 or chunk > 49152 else 1)
    return bytes(sum(bits[8 * i + j] << j for j in range(8)) for i in range(32))


# ---- keys and packets
def shake256(message, n):
    return hashlib.shake_256(message).digest(n)


def sha3_256(message):
    return hashlib.sha3_256(message).digest()


def uniform_matrix(seed):
    drawn = shake256(seed, 9216)
    return [x for i in range(16) for x in sample_uniform(drawn[576 * i : 576 * i + 576])]


def short_vectors(key):
    """Both vectors of four short elements, transformed."""
    drawn = shake256(key, 4096)
    flat = [x for i in range(8) for x in transform(sample_short(drawn[512 * i : 512 * i + 512]))]
    return flat[:256], flat[256:]


def public_of(key, seed):
    a, c = short_vectors(key)
    return plus(matrix(4, 4, 1, uniform_matrix(seed), a), c)


def sealing(seed, ga, payload):
    b, d = short_vectors(payload)
    bg = plus(matrix(1, 4, 4, b, uniform_matrix(seed)), d)
    return bg + plus(matrix(1, 4, 1, b, ga), transform(embed(payload)))


def keys(randomness):
    seed, key = shake256(randomness + b"\0", 32), shake256(randomness + b"\1", 32)
    return key + seed, seed + packing(public_of(key, seed))


def sealed(public, randomness):
    payload = shake256(randomness, 32)
    return sha3_256(payload), sealing(public[:32], words(public[32:]), payload)


def opened(secret, ciphertext):
    """The shared key, or None."""
    key, seed = secret[:32], secret[32:]
    a, _ = short_vectors(key)
    bg, bga_m = ciphertext[:256], ciphertext[256:]
    payload = extract(untransform(minus(bga_m, matrix(1, 4, 1, bg, a))))
    return sha3_256(payload) if sealing(seed, public_of(key, seed), payload) == ciphertext else None


# ---- the calls of the kem: a refusal (a tuple of three numbers), or the outputs (a list)
def keygen(randomness, secret, public):
    return refusal([room(32, randomness), room(64, secret), room(2080, public)]) or list(keys(randomness))


def enc_numbers(public, randomness, shared, ciphertext, n=320):
    arguments = [packed(2080, 32, public), room(32, randomness), room(32, shared), room(n, ciphertext)]
    return refusal(arguments) or list(sealed(public, randomness))


def enc(public, randomness, shared, ciphertext):
    answer = enc_numbers(public, randomness, shared, ciphertext, 2560)
    return answer if isinstance(answer, tuple) else [answer[0], packing(answer[1])]


def dec(secret, ciphertext, shared):
    r = refusal([room(64, secret), packed(2560, 0, ciphertext), room(32, shared)])
    return r or told(opened(secret, words(ciphertext)))


def dec_numbers(secret, ciphertext, shared):
    r = refusal([room(64, secret), numbers(320, ciphertext), room(32, shared)])
    return r or told(opened(secret, ciphertext))


def told(shared):
    return (3, 0, 0) if shared is None else [shared]


def clear(secret):
    return refusal([room(64, secret)]) or [bytes(64)]


# ---- the job program
JOBS = {1: 33, 2: 2113, 3: 2625}


def job(data):
    if not data or JOBS.get(data[0]) != len(data):
        answer = 5, 0, 0
    elif data[0] == 1:
        answer = keygen(data[1:], bytes(64), bytes(2080))
    elif data[0] == 2:
        answer = enc(data[1:2081], data[2081:], bytes(32), bytes(2560))
    else:
        answer = dec(data[1:65], data[65:], bytes(32))
    if isinstance(answer, tuple):
        number, argument, place = answer
        return bytes([number, argument]) + place.to_bytes(8, "little")
    return b"\0" + b"".join(answer)
