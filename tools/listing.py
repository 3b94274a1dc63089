"""What the tools share that write what a program of the gate must print: the tables of its cases, its lines, and the comparison."""
import functools
import os
import re
import sys

from plates import written

ROOT = os.path.dirname(os.path.dirname(os.path.abspath(__file__)))


def source(crate, name):
    """A source file of a crate, with no comments."""
    return re.sub(r"//[^\n]*", "", open(os.path.join(ROOT, "crates", crate, "src", name)).read())


def tables(crate):
    """The tables of a crate, as lists of numbers or of rows. A fault is its number."""
    faults = dict(re.findall(r"(\w+) = (\d+),", source("replayed", "fault.rt")))
    found = {}
    for name, body in re.findall(r"pub (?:const|static) (\w+): [^=]*= (\[.*?\]);", source(crate, "tables.rt"), re.S):
        body = re.sub(r"Fault::(\w+)", lambda fault: faults[fault.group(1)], body)
        found[name] = eval(body)
    return found


def plain(table, size):
    """The bytes of a plain file: the header of the tables, and bytes by a rule behind it."""
    head = b"".join(v.to_bytes(4, "little") for v in table["PLAIN"])
    return bytearray(head + bytes((37 * i + 11) % 251 for i in range(len(head), size)))


def draw(count, state):
    """So many drawn numbers of 16 bits, and the generator's state afterwards."""
    numbers = []
    for _ in range(count):
        state = (state * 1103515245 + 12345) % 2**31
        numbers.append(state >> 15)
    return numbers, state


def draw_bytes(count, state):
    """So many drawn bytes, an even number, two of each drawn number, and the state afterwards."""
    numbers, state = draw(count // 2, state)
    return b"".join(v.to_bytes(2, "little") for v in numbers), state


def draw_words(count, state):
    """So many drawn words, each of two drawn numbers, the lower half first."""
    numbers, _ = draw(2 * count, state)
    return [low | high << 16 for low, high in zip(numbers[::2], numbers[1::2])]


def put(file, at, v):
    file[at:at + 4] = v.to_bytes(4, "little")


def checksum(numbers, factor, modulus):
    total = 0
    for v in numbers:
        total = (total * factor + v) % modulus
    return total


def sum_of(data):
    """The checksum of bytes."""
    return checksum(data, 31, 2147483647)


def sum_of_words(words):
    """The checksum of words."""
    return checksum(words, 1103515245, 8589934583)


@functools.cache
def output(file):
    """What `plate` writes for a file, worked out once: a refusal's line as it is; of a picture, how many bytes and their checksum."""
    out = written(file)
    return out.decode() if len(out) < 12 else "%d bytes, sum %d\n" % (len(out), sum_of(out))


def finish(crate, listing):
    """Prints a listing, or with --check compares it with the crate's `stdout`. Answers the exit status."""
    if sys.argv[1:] != ["--check"]:
        sys.stdout.write(listing)
        return 0
    same = listing == open(os.path.join(ROOT, "crates", crate, "stdout")).read()
    print("%s: crates/%s/stdout is %s" % (crate, crate, "unchanged" if same else "not what tools/%s gives" % crate))
    return not same
