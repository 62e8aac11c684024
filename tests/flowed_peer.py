"""Reads what `flowed compose` wrote by the rules of RFC 3676, section 4, and compares with the text."""
import random
import subprocess
import sys

SIGNATURE = b"-- "


def paragraphs(wire):
    """The paragraphs (quote depth, text) of a format=flowed body with DelSp=no."""
    lines = wire.split(b"\r\n")
    assert lines.pop() == b"", "the last line has no end"
    read = []
    flowing = None
    for line in lines:
        text = line.lstrip(b">")
        depth = len(line) - len(text)
        if text.startswith(b" "):
            text = text[1:]
        signature = text == SIGNATURE
        if flowing is not None and (flowing != depth or signature):
            raise AssertionError("a flowed line is not followed by its paragraph's next line")
        if flowing is None:
            read.append((depth, text))
        else:
            read[-1] = (depth, read[-1][1] + text)
        flowing = depth if text.endswith(b" ") and not signature else None
    assert flowing is None, "the last line is flowed"
    return read


def settled(text):
    return text if text == SIGNATURE else text.rstrip(b" ")


def undotted(wire):
    body, mark = wire[:-3], wire[-3:]
    assert mark == b".\r\n", "no end mark"
    lines = body.split(b"\r\n")
    return b"\r\n".join(line[1:] if line.startswith(b".") else line for line in lines)


def main(flowed):
    rng = random.Random(3676)
    words = [b"--", b"-- ", b">", b">>", b".", b"", b"a", b"From", b"supplier's", b"terms", b"x" * 30, b"\xc3\xbc", b"\t", b"  "]
    for trial in range(300):
        texts = [b" ".join(rng.choice(words) for _ in range(rng.randrange(40))) for _ in range(rng.randrange(6))]
        width = rng.choice([20, 21, 30, 72, 998])
        depth = rng.choice([0, 0, 1, 2, 19, 100])
        dot = rng.random() < 0.5
        words_in = ["compose", "--width", str(width), "--depth", str(depth)] + (["--dot"] if dot else [])
        ran = subprocess.run([flowed] + words_in, input=b"".join(t + b"\n" for t in texts), capture_output=True)
        if ran.returncode != 0:
            sys.exit(f"FAILED flowed_peer: trial {trial}: {ran.stderr.decode()}")
        wire = undotted(ran.stdout) if dot else ran.stdout
        if paragraphs(wire) != [(depth, settled(t)) for t in texts]:
            sys.exit(f"FAILED flowed_peer: trial {trial}: {words_in} {texts!r} came back as {paragraphs(wire)!r}")


main(sys.argv[1])
