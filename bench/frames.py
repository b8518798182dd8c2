#!/usr/bin/env python3
"""frames.py: measures the program `frames` against a plain Rust program that does the same (frames.rs), side by side.

A trace of about 100 MB goes through both to /dev/null, in turn, five times each; then the peak memory of `frames` is measured on a
single line of 400 MB. Build `frames` first, at the top: (cd crates/frames && rt run < /dev/null). The plain program is built here with rustc -O.
"""
import os
import random
import statistics
import subprocess
import sys
import tempfile
import time

HERE = os.path.dirname(os.path.abspath(__file__))
FRAMES = os.path.join(HERE, "..", "crates", "frames", "out", "frames")
ROUNDS = 5


def frame(*bytes_):
    return bytes(bytes_ + (-sum(bytes_) % 256,)).hex().upper()


def big_trace(path, size):
    """Hot and cold pages: eight writes of ten frames, one read, one discard."""
    rng = random.Random(5)
    lines = []
    for _ in range(20000):
        page = rng.randrange(512)
        kind = rng.choice((2, 2, 2, 2, 2, 2, 2, 2, 3, 4))
        tail = (rng.randrange(256),) if kind == 2 else ()
        lines.append(frame(kind, page >> 8, page & 255, *tail))
    block = "\n".join(lines) + "\n"
    with open(path, "w") as out:
        out.write(frame(1, 0, 64, 16, 0, 16, 0, 0, 39, 16, 0, 0, 100, 0, 2, 0) + "\n")
        for _ in range(size // len(block) + 1):
            out.write(block)


def seconds(program, path):
    with open(path) as trace, open(os.devnull, "w") as null:
        start = time.perf_counter()
        subprocess.run([program], stdin=trace, stdout=null, check=True)
        return time.perf_counter() - start


def main():
    if not os.path.exists(FRAMES):
        sys.exit("build it first: (cd crates/frames && rt run < /dev/null)")
    with tempfile.TemporaryDirectory() as folder:
        plain = os.path.join(folder, "plain")
        subprocess.run(["rustc", "-O", "-o", plain, os.path.join(HERE, "frames.rs")], check=True)
        line = os.path.join(folder, "line")
        with open(line, "wb") as out:
            for _ in range(400):
                out.write(b"0" * 1_000_000)
        # GNU time, since a child of this program would count this program's memory as its own
        with open(line) as text:
            ran = subprocess.run(["/usr/bin/time", "-f", "%M", FRAMES], stdin=text, capture_output=True, check=True)
        trace = os.path.join(folder, "trace")
        big_trace(trace, 100_000_000)
        same = subprocess.run(["bash", "-c", f"cmp <('{FRAMES}' < '{trace}') <('{plain}' < '{trace}')"])
        times = [(seconds(FRAMES, trace), seconds(plain, trace)) for _ in range(ROUNDS)]
    ours = statistics.median(t[0] for t in times)
    theirs = statistics.median(t[1] for t in times)
    print("both wrote the same" if same.returncode == 0 else "they DIFFER")
    print(f"100 MB: frames {ours:.2f} s, plain Rust {theirs:.2f} s, ratio {ours / theirs:.2f} (medians of {ROUNDS})")
    print(f"a line of 400 MB: wrote {ran.stdout.decode().strip()!r}, peak memory {int(ran.stderr) / 1024:.1f} MB")


main()
