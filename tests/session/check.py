#!/usr/bin/env python3
"""The compiled session against the second text of the session (model.py).

    python3 check.py PROGRAM

Each run has 64 MB of address space, whatever the input's size; an emulated one (tests/emulated) has what its emulator takes.
"""
import platform
import random
import resource
import select
import socket
import struct
import subprocess
import sys

from model import answers

PROGRAM = sys.argv[1]
LIMIT = 64 << 20


def limited():
    if platform.machine() == "x86_64":
        resource.setrlimit(resource.RLIMIT_AS, (LIMIT, LIMIT))


def start(stdin=subprocess.PIPE, **more):
    return subprocess.Popen([PROGRAM], stdin=stdin, stdout=subprocess.PIPE,
                            stderr=subprocess.PIPE, preexec_fn=limited, **more)


def expect(name, got, wanted):
    if got != wanted:
        at = next((i for i, (a, b) in enumerate(zip(got, wanted)) if a != b), min(len(got), len(wanted)))
        sys.exit("tests/session: %s differs at byte %d: got %r, wanted %r"
                 % (name, at, got[at - 20:at + 40], wanted[at - 20:at + 40]))


def run(name, text, wanted=None):
    """The whole text at once: its answer, nothing on standard error, status 0."""
    program = start()
    got, errors = program.communicate(text)
    expect(name, got, answers(text) if wanted is None else wanted)
    if errors or program.returncode:
        sys.exit("tests/session: %s: status %d, %r" % (name, program.returncode, errors))


def run_cut(name, text, rng):
    """The text in pieces of any length, each written by itself."""
    program = start(bufsize=0)
    at = 0
    while at < len(text):
        size = rng.choice((1, 1, 2, 3, 7, 50))
        program.stdin.write(text[at:at + size])
        at += size
    got, _ = program.communicate()
    expect(name, got, answers(text))


def one_by_one(name, text):
    """Each line is answered before the next is written."""
    program = start(bufsize=0)
    wanted = answers(text)
    for line, answer in zip(text.split(b"\n"), wanted.splitlines(keepends=True)):
        program.stdin.write(line + b"\n")
        got = b""
        while not got.endswith(b"\n"):
            if not select.select([program.stdout], [], [], 20)[0]:
                sys.exit("tests/session: %s: no answer to %r" % (name, line))
            got += program.stdout.read(1)
        expect(name, got, answer)
    program.stdin.close()
    expect(name, program.stdout.read(), b"")
    program.wait()


def random_line(rng):
    kind = rng.randrange(12)
    if kind < 3:
        return b"W %d %02X" % (rng.choice((0, 0, 0, 2, 3, 6, 7, 8, 9, 10, 12, 14, 15, rng.randrange(18))), rng.randrange(256))
    if kind < 5:
        return b"R %d" % rng.choice((0, 1, 7, 8, 9, rng.randrange(100)))
    if kind == 5:
        return b"X"
    if kind < 9:
        return b"C %d" % rng.choice((rng.randrange(-32770, 32770), rng.randrange(-40, 40), -1))
    if kind == 9:
        return b"W 0 00"
    if kind == 10:              # a command with one byte changed
        line = bytearray(random_line(rng))
        if line:
            line[rng.randrange(len(line))] = rng.choice(b" 0123456789ABCDEFabcdefWRXC+-\t\r\0\xff")
        return bytes(line).replace(b"\n", b"")
    return bytes(rng.choice(b" 09afAFWRXC-+\0\r\t\xc3") for _ in range(rng.randrange(12)))


def random_text(rng, lines):
    text = b"\n".join(random_line(rng) for _ in range(lines))
    return text + rng.choice((b"", b"\n"))


def zeros(size):
    """So many zero bytes through a pipe: one bad line."""
    program = start()
    piece = bytes(1 << 20)
    for _ in range(size >> 20):
        program.stdin.write(piece)
    got, _ = program.communicate()
    expect("zeros", got, b"1 bad\n")


def cut_off(name, fails, wanted):
    """A line and the beginning of another over a connection, which then comes to its end, or fails: a reset makes the read that waits for more fail."""
    with socket.create_server(("127.0.0.1", 0)) as server:
        host = socket.create_connection(server.getsockname())
        guest, _ = server.accept()
    with guest:
        program = start(stdin=guest)
    host.sendall(b"R 7\nR 8")
    first = program.stdout.readline()
    if fails:
        host.setsockopt(socket.SOL_SOCKET, socket.SO_LINGER, struct.pack("ii", 1, 0))
    host.close()
    got, errors = program.communicate()
    expect(name, first + got, wanted)
    if errors or program.returncode:
        sys.exit("tests/session: %s: status %d, %r" % (name, program.returncode, errors))


run("nothing", b"", b"")
run("one newline", b"\n", b"1 bad\n")
run("NUL, CR, tab, UTF-8", b"\0\nX\r\nR\t7\n\xce\xa9\nR 7", b"1 bad\n2 bad\n3 bad\n4 bad\n5 80\n")
run("a line of 10 MB", b"C " + b"1" * 10_000_000 + b"\nR 7\n", b"1 bad\n2 80\n")
run("spaces of 10 MB, no newline", b" " * 10_000_000, b"1 bad\n")
run("a million lines", b"X\n" * 1_000_000, b"".join(b"%d empty\n" % n for n in range(1, 1_000_001)))
run("a million newlines", b"\n" * 1_000_000, b"".join(b"%d bad\n" % n for n in range(1, 1_000_001)))
for seed in range(20):
    rng = random.Random(seed)
    run("random text %d" % seed, random_text(rng, 1500))
    run_cut("random text %d in pieces" % seed, random_text(rng, 60), rng)
one_by_one("line by line", random_text(random.Random(99), 300))
zeros(256 << 20)
cut_off("the end of the input in a line", False, b"1 80\n2 60\n")
cut_off("a failed read in a line", True, b"1 80\n")
print("tests/session: the compiled session and the second text agree")
