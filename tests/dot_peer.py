"""Holds the wire bytes of `flowed carry` to Python's own dot-stuffing, on random bodies."""
import random
import smtplib
import subprocess
import sys

FLOWED = sys.argv[1]
SEED = int(sys.argv[2]) if len(sys.argv) > 2 else 5321


def peer(body):
    """Leading periods doubled by smtplib itself, and the end mark."""
    return smtplib._quote_periods(body) + b".\r\n"


def body(rng):
    line = lambda: bytes(rng.choice(b".. ab-\x00\xff") for _ in range(rng.randrange(6)))
    return b"".join(line() + b"\r\n" for _ in range(rng.randrange(8)))


def main():
    rng = random.Random(SEED)
    for _ in range(200):
        text = body(rng)
        ran = subprocess.run([FLOWED, "carry", "--wire", "-"], input=text, capture_output=True)
        if ran.returncode != 0 or ran.stdout != peer(text):
            print(f"dot-stuffing differs (seed {SEED}): {text!r} gave {ran.stdout!r}, not {peer(text)!r}")
            return 1
    return 0


sys.exit(main())
