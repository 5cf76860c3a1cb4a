"""Jobs with the published Rust's answers, from the stored sample crates/test_answers (oracle/README.md describes its lines)."""
import os

ROOT = os.path.join(os.path.dirname(os.path.abspath(__file__)), "..", "..")
P = 2**64 - 2**32 + 1
NO_JOB = bytes([5] + [0] * 9)


def refusal(number, argument, place):
    return bytes([number, argument]) + place.to_bytes(8, "little")


def as_bytes(numbers):
    """Bytes are packed eight to a number there, the first the highest."""
    return b"".join(x.to_bytes(8, "big") for x in numbers)


def coefficients(numbers):
    """Coefficients in bytes are eight each, the first the lowest: docs/SCHEME.md, "Layouts"."""
    return b"".join(x.to_bytes(8, "little") for x in numbers)


def read_lines(name):
    with open(os.path.join(ROOT, "crates", "test_answers", name)) as lines:
        return lines.read().splitlines()


def job_and_answer(question, answer):
    word, numbers = question[:4], [int(x, 16) for x in question[4:].split()]
    if answer.startswith("refused"):
        told, given = refusal(3, 0, 0), None
    else:
        given = [int(x, 16) for x in answer.split()]
    if word == "kgen":
        return bytes([1]) + as_bytes(numbers), bytes([0]) + as_bytes(given[:12]) + coefficients(given[12:])
    if word == "encr":
        job = bytes([2]) + as_bytes(numbers[:4]) + coefficients(numbers[4:260]) + as_bytes(numbers[260:])
        return job, bytes([0]) + as_bytes(given[:4]) + coefficients(given[4:])
    job = bytes([3]) + as_bytes(numbers[:8]) + coefficients(numbers[8:])
    return job, told if given is None else bytes([0]) + as_bytes(given)


def rust_jobs():
    lines = zip(read_lines("stdin"), read_lines("stdout"))
    return [job_and_answer(q, a) for q, a in lines if q[:4] in ("kgen", "encr", "decr")]
