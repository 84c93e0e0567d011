#!/usr/bin/env python3
"""Makes the list of the program `replay`, crates/replay/data/answers, and its stdout.

Usage, from the repository's root: tools/replay.py

The source of the list is two files of request lines with the oracle's answers to them: examples/replay.txt and
examples/replay.answers, and examples/filters.txt and examples/filters.answers. tools/replay-list asks the oracle; this
only converts, so it gives the same list each time. Comments, blank lines and lines that the oracle answers with `error`
are left out: those are no requests of the library.

The list is a text of words, 16 hexadecimal digits each, parted by a space or a line's end. The first line is the number of
requests. Each other line is a request: its kind's number, how many words it asks, how many its answer has, the words
asked and the answer's words. A float's word is its bits, and any NaN's is 7FF8000000000000.

The words asked are those of the line behind its kind. Of a design and of ready-made taps they begin with the form, 0 for the
default one and 1 for the raw one: a low pass asks form, order, cutoff and rate, a FIR design form, taps, cutoff and window,
ready-made taps form and the numbers. Both forms are of one kind. A window is its code, a block's output length stands before its
samples, a pulse's number of samples is left out, and each byte of a rival's block is a word of its own. The answer's words:

- an elementary function: the number
- a design or ready-made taps: the refusal number or 0, the answer's two counts, which are 0 of a refused one's blank record,
  and its numbers
- a step: 0 (clear) or 1 (clouded) and the number; or 2 and the refusal number
- a block: the refusal number or 0, the count of Clouded, and the output's places
- a reset: the refusal number or 0
- a pulse through a channel class: the refusal number or 0, and the buffer's places
- a channel of a rival's block: the refusal number or 0, the sample count, which is 0 where refused, and the output's places
"""
import re
import struct

SOURCES = ["examples/replay", "examples/filters"]
KINDS = ["lowpass", "highpass", "bandpass", "chebyshev1", "chebyshev2", "cstep", "cblock", "creset", "fir", "taps", "fstep", "fblock",
         "freset", "j211", "rival", "sqrt", "sin", "cos", "tan", "exp", "ln", "sinh", "cosh", "pow10"]
DESIGNS = KINDS[:5] + ["fir", "taps"]
WINDOWS = ["rectangular", "hamming", "hanning", "blackman"]
NAN = 0x7FF8000000000000
LONGEST = 8192


def number(token):
    """A float's word: 16 hexadecimal digits are its bits, anything else is a decimal, an infinity or NaN."""
    if re.fullmatch("[0-9A-Fa-f]{16}", token):
        word = int(token, 16)
    else:
        word = struct.unpack("<Q", struct.pack("<d", float(token)))[0]
    return NAN if word % 2**63 > 0x7FF0000000000000 else word


def numbers(tokens):
    return [number(t) for t in tokens]


def asked(kind, rest):
    """The words asked, but for the form."""
    if kind == "fir":
        return [int(rest[0]), number(rest[1]), WINDOWS.index(rest[2])]
    if kind in ("cblock", "fblock"):
        return [int(rest[0]), int(rest[-1])] + numbers(rest[1:-1])
    if kind == "j211":
        return [int(rest[0]), number(rest[1])] + numbers(rest[3:])
    if kind == "rival":
        return [int(rest[0]), int(rest[1])] + list(bytes.fromhex(rest[2].strip("-")))
    if kind in KINDS[:5]:
        return [int(rest[0])] + numbers(rest[1:])
    return numbers(rest)


def request(line):
    """The kind of a line that is a request, and the words asked."""
    form = int(line[0] == "raw")
    kind, *rest = line[form:]
    return kind, ([form] if kind in DESIGNS else []) + asked(kind, rest)


def answered(kind, word, rest):
    if kind == "j211":
        refusal = int(rest.pop(0)) if word == "refused" else 0
        return [refusal] + numbers(rest)
    if word == "refused":
        refusal = int(rest[0])
        if kind in ("cstep", "fstep"):
            return [2, refusal]
        if kind in ("cblock", "fblock", "rival"):
            return [refusal, 0] + numbers(rest[1:])
        return [refusal] if kind in ("creset", "freset") else [refusal, 0, 0]
    if word == "done":
        return [0] + [int(t) for t in rest[:1]] + numbers(rest[1:])
    if word in ("clear", "clouded"):
        return [["clear", "clouded"].index(word), number(rest[0])]
    if word in ("cascade", "taps"):
        return [0, int(rest[0]), int(rest[1])] + numbers(rest[2:])
    return [number(word)]


def lines(path):
    """Each line's tokens; none of a comment, but for one that is too long for a line and so answered with `error`."""
    with open(path, newline="") as text:
        for line in text.read().split("\n"):
            line = line.removesuffix("\r")
            if len(line) > LONGEST or not line.startswith("#"):
                yield [t for t in line.split(" ") if t]


def pairs(source):
    """The tokens of each line that draws an answer, and those of the answer."""
    return zip(filter(None, lines(f"{source}.txt")), filter(None, lines(f"{source}.answers")), strict=True)


def main():
    count = {kind: 0 for kind in KINDS}
    rows = []
    for line, (word, *more) in (pair for source in SOURCES for pair in pairs(source)):
        if word == "error":
            continue
        kind, words = request(line)
        answer = answered(kind, word, more)
        rows.append([KINDS.index(kind), len(words), len(answer)] + words + answer)
        count[kind] += 1
    with open("crates/replay/data/answers", "w") as out:
        for row in [[len(rows)]] + rows:
            out.write(" ".join(f"{w:016X}" for w in row) + "\n")
    with open("crates/replay/stdout", "w") as out:
        out.write(f"{len(rows)} requests, {len(rows)} agree with the oracle\n")
        for kind, n in count.items():
            out.write(f"{kind:<10} {n}, {n} agree\n")


if __name__ == "__main__":
    main()
