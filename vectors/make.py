"""Writes crates/test_tokens/src/vectors.rt: tokens made by Python's hmac, hashlib and base64.

    python3 vectors/make.py > crates/test_tokens/src/vectors.rt

The random numbers come from a fixed seed, so each run writes the same table. Every row is checked once
more before it is written: the token is cut at its dots, decoded, and its MAC compared by
hmac.compare_digest.
"""

import base64
import hashlib
import hmac
import json
import random

HEADER = '{"typ":"JWT","alg":"HS256"}'
LAST = 2**64 - 1
ROWS = 56


def encoded(data: bytes) -> str:
    return base64.urlsafe_b64encode(data).rstrip(b"=").decode()


def decoded(text: str) -> bytes:
    return base64.urlsafe_b64decode(text + "=" * (-len(text) % 4))


def token(key: bytes, claims: str) -> str:
    signed = encoded(HEADER.encode()) + "." + encoded(claims.encode())
    mac = hmac.new(key, signed.encode(), hashlib.sha256).digest()
    return signed + "." + encoded(mac)


def checked(key: bytes, job: int, text: str) -> str:
    header, claims, mac = text.split(".")
    wanted = hmac.new(key, (header + "." + claims).encode(), hashlib.sha256).digest()
    assert hmac.compare_digest(decoded(mac), wanted)
    assert json.loads(decoded(header)) == {"typ": "JWT", "alg": "HS256"}
    assert json.loads(decoded(claims)) == {"exp": 0, "job_id": job}
    return text


def rows():
    source = random.Random("tokens of jobs")
    lengths = [1, 2, 31, 32, 33, 63, 64, 65, 127, 128, 129, 199, 200]
    jobs = [0, 1, 9, 10, 99, 100, 2**31, 2**32 - 1, 2**32, 2**53, 2**63, LAST - 1, LAST]
    for row in range(ROWS):
        length = lengths[row] if row < len(lengths) else source.randint(1, 200)
        job = jobs[row] if row < len(jobs) else source.randint(0, 2 ** source.randint(1, 64) - 1)
        key = source.randbytes(length)
        claims = '{"exp":0,"job_id":%d}' % job
        yield key, job, checked(key, job, token(key, claims))


def main():
    print("//! Keys, in hex, jobs, and the tokens of the jobs under the keys, as Python's `hmac` and `base64` make")
    print("//! them. The file is written by `vectors/make.py`.")
    made = list(rows())
    for name, half in (("FIRST", made[: ROWS // 2]), ("SECOND", made[ROWS // 2 :])):
        print()
        print(f"/// The {name.lower()} half: a key in hex, a job and its token.")
        print(f"pub(crate) const {name}: &[(&str, u64, &str)] = &[")
        for key, job, text in half:
            print("    (")
            print(f'        "{key.hex()}",')
            print(f"        {job},")
            print(f'        "{text}",')
            print("    ),")
        print("];")


main()
