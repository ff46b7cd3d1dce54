#!/usr/bin/env python3
"""Turns NIST's SHA-256 vectors, nist-sha256/*.rsp, into the data and the expected output of the program crates/vectors.

    pack.py            writes crates/vectors/data/messages and crates/vectors/stdout
    pack.py --check    writes nothing; exits 1 if either file differs from what it would write

Nothing is hashed here: every line of stdout is a digest that NIST's files print.
"""

import pathlib
import sys

HERE = pathlib.Path(__file__).resolve().parent
NIST = HERE / "nist-sha256"
CRATE = HERE.parent.parent / "crates" / "vectors"

LONGEST = 4096  # bytes; the longest message that the crate sha256 hashes
END = 0xFFFF  # stands where a length does, after the last message
CHECKPOINTS = 100


def fields(name):
    """The `KEY = VALUE` lines of a file, in order. Comments and `[L = 32]` are passed over."""
    for line in (NIST / name).read_text().splitlines():
        if " = " in line and not line.startswith(("#", "[")):
            key, value = line.split(" = ")
            yield key.strip(), value.strip()


def digest(text):
    if len(bytes.fromhex(text)) != 32:
        sys.exit(f"not a digest: {text}")
    return text.lower()


def cases(name):
    """The messages and digests of a file. The empty message is printed as `00`, so the length decides."""
    keys = fields(name)
    for key, value in keys:
        bits = int(value)
        message_key, message = next(keys)
        digest_key, md = next(keys)
        if (key, message_key, digest_key) != ("Len", "Msg", "MD") or bits % 8:
            sys.exit(f"{name}: an unknown form at Len = {value}")
        yield bytes.fromhex(message)[: bits // 8], digest(md)


def monte(name):
    """The seed and the checkpoints, whose counts go up by one from 0."""
    keys = list(fields(name))
    counts = [int(value) for key, value in keys if key == "COUNT"]
    digests = [digest(value) for key, value in keys if key == "MD"]
    if keys[0][0] != "Seed" or counts != list(range(CHECKPOINTS)) or len(digests) != CHECKPOINTS:
        sys.exit(f"{name}: not a seed and {CHECKPOINTS} checkpoints")
    return bytes.fromhex(digest(keys[0][1])), digests


def pack():
    messages = bytearray()
    lines = []
    for name in ("SHA256ShortMsg.rsp", "SHA256LongMsg.rsp"):
        for message, md in cases(name):
            if len(message) <= LONGEST:
                messages += len(message).to_bytes(2, "little") + message
                lines.append(md)
    seed, checkpoints = monte("SHA256Monte.rsp")
    messages += END.to_bytes(2, "little") + seed
    lines += checkpoints
    text = "".join(line + "\n" for line in lines)
    return {CRATE / "data" / "messages": bytes(messages), CRATE / "stdout": text.encode()}


def main(words):
    if words not in ([], ["--check"]):
        sys.exit(__doc__)
    bad = False
    for path, content in pack().items():
        if not words:
            path.parent.mkdir(parents=True, exist_ok=True)
            path.write_bytes(content)
        elif not path.is_file() or path.read_bytes() != content:
            print(f"{path.relative_to(CRATE.parent.parent)}: not what NIST's files give")
            bad = True
    sys.exit(1 if bad else 0)


if __name__ == "__main__":
    main(sys.argv[1:])
