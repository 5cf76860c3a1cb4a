#!/usr/bin/env python3
"""Puts each question of standard input to the library and writes its answer; tests/calls/README.md describes both.

Usage: caller.py SHARED_OBJECT < questions > answers"""
import ctypes
import sys

P = 2**64 - 2**32 + 1
MARGIN = 8  # what is behind each lent slice, and no call may touch: in elements


class Refusal(ctypes.Structure):
    _fields_ = [("number", ctypes.c_uint64), ("argument", ctypes.c_uint64), ("place", ctypes.c_uint64)]


# Word: kinds of the arguments, and the call. Inputs: bytes b, coefficients c, public key k, packet in bytes p; secret key s and packet, in bytes x or
# numbers y, of a sealed packet; jobs j, e, o. Outputs: bytes B, numbers N, coefficients turned in place C. A field value has v, a part that
# lends nothing '.'; '=' in front: the call gives a number.
CALLS = {
    "fnew": ("=v", "field_new"),
    "fval": ("=v", "field_value"),
    "fadd": ("=vv", "field_add"),
    "fsub": ("=vv", "field_sub"),
    "fmul": ("=vv", "field_mul"),
    "fneg": ("=v", "field_neg"),
    "finv": ("=v", "field_inverse"),
    "fpow": ("=vv", "field_mod_pow"),
    "nttf": ("C", "coset_ntt_noswap_64"),
    "ntti": ("C", "coset_intt_noswap_64"),
    "radd": ("ccN", "ring_add"),
    "rsub": ("ccN", "ring_sub"),
    "rmul": ("ccN", "ring_mul"),
    "mtco": ("ccN", "matrix_times_column"),
    "rtma": ("ccN", "row_times_matrix"),
    "rtco": ("ccN", "row_times_column"),
    "sbfe": ("=b", "sample_short_bfield_element"),
    "ssho": ("bN", "sample_short"),
    "suni": ("bN", "sample_uniform"),
    "embd": ("bN", "embed_msg"),
    "extr": ("cB", "extract_msg"),
    "shak": ("bB", "shake256"),
    "sha3": ("bB", "sha3_256"),
    "kgen": ("bBB", "keygen"),
    "encb": ("kbBB", "enc"),
    "encn": ("kbBN", "enc_numbers"),
    "decb": ("bpB", "dec"),
    "decn": ("bcB", "dec_numbers"),
    "opnb": ("sxB", "dec"),
    "opnn": ("syB", "dec_numbers"),
    "cler": ("B", "clear"),
    "jobb": ("j.B", "job"),
    "jobe": ("e.B", "job"),
    "jobo": ("o.B", "job"),
}

NUMBERS = "cyNC"
OUTPUTS = "BNC"


# ---- calling
def function(library, name):
    call = getattr(library, "galmuriec_" + name)
    call.restype = ctypes.c_size_t if name == "job" else ctypes.c_uint64
    return call


def lent(content, n, number):
    """The content cut to n elements, or followed by zeros, and then the margin."""
    whole = (list(content) + [0] * n)[:n] + [0xA5] * MARGIN
    return ((ctypes.c_uint64 if number else ctypes.c_uint8) * len(whole))(*whole)


def slices(buffers):
    """The parameters that lend them: a pointer and a count each."""
    return [x for b in buffers for x in (ctypes.byref(b), ctypes.c_size_t(len(b) - MARGIN))]


def must(library, name, *contents):
    """A call that is done, on these contents; what it leaves in them."""
    buffers = [lent(c, len(c), number) for c, number in contents]
    if function(library, name)(*slices(buffers), ctypes.byref(Refusal())) != 0:
        sys.exit(f"caller: {name} refuses what it must take")
    return [list(b)[:-MARGIN] for b in buffers]


# ---- what an argument holds
def draws(x):
    while True:
        x ^= x << 13 & 2**64 - 1
        x ^= x >> 7
        x ^= x << 17 & 2**64 - 1
        yield x


def some(source, n, below):
    return [next(source) % below for _ in range(n)]


def packed(numbers):
    return b"".join(x.to_bytes(8, "little") for x in numbers)


class Question:
    def __init__(self, library, line):
        words = line.split()
        numbers = [int(w, 16) for w in words[1:]]
        self.library, self.word = library, words[0]
        self.counts, self.seeds = numbers[:-6:2], numbers[1:-6:2]
        self.places = [numbers[-6:-3], numbers[-3:]]

    def put(self, k, numbers):
        for argument, index, value in self.places:
            if argument == k + 1 and index < len(numbers):
                numbers[index] = value
        return numbers

    def public_key(self, k):
        source = draws(self.seeds[k])
        seed = bytes(some(source, 32, 256))
        return seed + packed(self.put(k, some(source, 257, P)))

    def key_pair(self, k):
        randomness = some(draws(self.seeds[k]), 32, 256)
        return must(self.library, "keygen", (randomness, False), ([0] * 64, False), ([0] * 2080, False))[1:]

    def sealed(self):
        """The secret key of seed 1, and a packet sealed by the library for the key of seed 4."""
        secret, _ = self.key_pair(0)
        _, public = self.key_pair(3)
        randomness = some(draws(self.seeds[1]), 32, 256)
        out = must(self.library, "enc_numbers", (public, False), (randomness, False), ([0] * 32, False), ([0] * 320, True))
        return secret, self.put(1, out[3])

    def job_of_bytes(self):
        job = some(draws(self.seeds[0]), self.counts[0], 256)
        for argument, index, value in self.places:
            if argument == 1 and index < len(job):
                job[index] = value % 256
        return job

    def job_of_sealing(self):
        return bytes([2]) + self.public_key(0)[:2080] + bytes(some(draws(self.seeds[1]), 32, 256))

    def job_of_opening(self):
        secret, ciphertext = self.sealed()
        return bytes([3] + secret) + packed(ciphertext)

    def content(self, k, kind):
        n, source = self.counts[k], draws(self.seeds[k])
        if kind in "bB":
            return some(source, n, 256)
        if kind == "N":
            return some(source, n, 2**64 - 1)
        if kind in "cC":
            return self.put(k, some(source, n, P))
        if kind == "k":
            return self.public_key(k)
        if kind == "p":
            return packed(self.put(k, some(source, 321, P)))
        if kind == "s":
            return self.sealed()[0]
        if kind == "x":
            return packed(self.sealed()[1])
        if kind == "y":
            return self.sealed()[1]
        return {"j": self.job_of_bytes, "e": self.job_of_sealing, "o": self.job_of_opening}[kind]()

    def lend(self, kinds):
        return {k: lent(self.content(k, kind), self.counts[k], kind in NUMBERS) for k, kind in enumerate(kinds) if kind not in "v."}


# ---- telling an answer
def written(s, kind):
    return "".join(f" {x:016x}" for x in s) if kind in NUMBERS else " " + bytes(s).hex()


def kept(same):
    return " kept" if same else " changed"


def tell_job(length, before, after):
    size = len(after) - MARGIN
    if length > size:
        return f"needs {length:016x}" + kept(before == after)
    return f"wrote {length:016x}" + written(after[:length], "B") + kept(before[length:] == after[length:])


def answer(library, line):
    q = Question(library, line)
    if q.word not in CALLS:
        return "unknown " + q.word
    kinds, name = CALLS[q.word]
    gives, kinds = kinds.startswith("="), kinds.lstrip("=")
    buffers = q.lend(kinds)
    before = {k: list(b) for k, b in buffers.items()}
    untouched = ~q.seeds[0] % 2**64
    result, refusal = ctypes.c_uint64(untouched), Refusal(*(~s % 2**64 for s in q.seeds[:3]))
    values = [ctypes.c_uint64(q.seeds[k]) for k, kind in enumerate(kinds) if kind == "v"]
    call, arguments = function(library, name), values + slices(buffers.values())
    if name == "field_new":
        result.value, refusal, returned = call(*arguments), Refusal(), 0
    elif name == "job":
        returned = call(*arguments)
    else:
        returned = call(*arguments, *([ctypes.byref(result)] if gives else []), ctypes.byref(refusal))
    after = {k: list(b) for k, b in buffers.items()}
    if name == "job":
        told = tell_job(returned, before[2], after[2])
    elif returned != refusal.number:
        told = f"returned {returned:016x} and recorded {refusal.number:016x}"
    elif returned != 0:
        same = before == after and result.value == untouched
        told = f"refused {refusal.number:02x} {refusal.argument:02x} {refusal.place:016x}" + ("" if gives and same else kept(same))
    elif refusal.argument != 0 or refusal.place != 0:
        told = "recorded a refusal of a call that is done"
    elif gives:
        told = f"given {result.value:016x}"
    else:
        told = "done" + "".join(written(after[k][:-MARGIN], kinds[k]) for k in after if kinds[k] in OUTPUTS)
    # nothing but the outputs may change, and nothing behind any slice
    spilled = any(before[k][-MARGIN:] != s[-MARGIN:] or kinds[k] not in OUTPUTS and before[k] != s for k, s in after.items())
    return told + (" spilled" if spilled else "")


def main():
    library = ctypes.CDLL(sys.argv[1])
    for line in sys.stdin:
        print(answer(library, line))


main()
