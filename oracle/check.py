#!/usr/bin/env python3
"""Recomputes every answer of a list with exact integers.

    python3 check.py LIST

Takes nothing from the crate: what bits stand for, and what a load is in
another form, comes from `exact.py`, and numbers are compared as fractions.
The `convert` lines come from there too, so for them this shows that the list
is whole and well formed; for all others that the crate answers exactly.
A line behind `not` must have another answer than the recomputed one, well
formed and with just one part altered. Prints how often each answer and each
altered part occurs. At the first line that is not as it should be, or that
stands there twice, it prints that line and exits with 1.
"""

import sys
from collections import Counter

from exact import FLOATS, Fixed, conversion, convert, decimal, form_length, form_of
from exact import hex_bits, load_of

# What an altered line begins with.
ALTERED = "not "


def kind_answer(words):
    float_name, bits = words
    form = FLOATS[float_name]
    read = form.read(hex_bits(bits, form.width))
    if read[0] == "finite":
        _, sign, size, scale = read
        return ["finite", sign, f"{size:x}", str(scale)]
    return list(read)


def neg_abs_answer(words):
    form = form_of([*words[:2], "0"])
    _, sign, size, _ = form.read(hex_bits(words[2], form.width))
    return [sign, f"{size:x}"]


def order(left, right):
    """The word for left against right."""
    if left < right:
        return "less"
    return "more" if left > right else "equal"


def fixed_against_float(fixed, read):
    """The word for a fixed number against a float that was read."""
    if read[0] == "nan":
        return "none"
    if read[0] == "infinite":
        return "less" if read[1] == "+" else "more"
    return order(fixed, load_of(read))


MIRRORED = {"less": "more", "more": "less", "equal": "equal", "none": "none"}


def compare_answer(words):
    *form_words, fixed_bits, float_name, float_bits = words
    fixed_form, float_form = form_of(form_words), FLOATS[float_name]
    fixed = load_of(fixed_form.read(hex_bits(fixed_bits, fixed_form.width)))
    read = float_form.read(hex_bits(float_bits, float_form.width))
    word = fixed_against_float(fixed, read)
    equality = "eq" if word == "equal" else "ne"
    return [word, MIRRORED[word], equality, equality]


def to_float_answer(words):
    source, bits, target = conversion(words)
    if not isinstance(source, Fixed) or isinstance(target, Fixed):
        raise ValueError("is not from a fixed form to a float")
    return convert(source, bits, target)[:1]


def from_float_answer(words):
    source, bits, target = conversion(words)
    if isinstance(source, Fixed) or not isinstance(target, Fixed):
        raise ValueError("is not from a float to a fixed form")
    return convert(source, bits, target)


def convert_answer(words):
    return convert(*conversion(words))


# For each kind of line the words of its recomputed answer.
ANSWERS = {
    "kind": kind_answer,
    "neg_abs": neg_abs_answer,
    "compare": compare_answer,
    "to_float": to_float_answer,
    "from_float": from_float_answer,
    "convert": convert_answer,
}

# The kinds that answer with what a load is in a form.
CONVERSIONS = ("to_float", "from_float", "convert")


def question_length(words):
    """How many words of a line after the first are its question."""
    if words[0] in CONVERSIONS:
        source = form_length(words[1])
        return source + 1 + form_length(words[source + 2])
    return {"kind": 2, "neg_abs": 3, "compare": 6}[words[0]]


# The words of an answer, and the parts of one with several words.
SIGNS = ("+", "-")
ORDERS = tuple(MIRRORED)
EQUALITIES = ("eq", "ne")
DIRECTIONS = ("below", "equal", "above")
FLAGS = ("fits", "over")
PARTS = {
    "kind": ("word", "sign", "size", "scale"),
    "neg_abs": ("sign", "size"),
    "compare": ("A", "B", "EQ1", "EQ2"),
    "to_float": ("bits",),
    "from_float": ("bits", "direction", "flag", "clamped"),
    "convert": ("bits", "direction", "flag", "clamped"),
}


def is_size(word):
    """Whether a word is a size of at most 64 bits."""
    return word == format(int(word, 16), "x") and int(word, 16) < 1 << 64


def is_scale(word):
    """Whether a word is a scale of 32 bits."""
    return -(1 << 31) <= decimal(word) < 1 << 31


def are_bits(width, *words):
    """Whether words are bits of that width; raises ValueError if not."""
    return all(hex_bits(word, width) >= 0 for word in words)


def kind_is_well_formed(_, words):
    if words[0] == "finite":
        _, sign, size, scale = words
        return sign in SIGNS and is_size(size) and is_scale(scale)
    if words[0] == "infinite":
        _, sign = words
        return sign in SIGNS
    return words == ["nan"]


def neg_abs_is_well_formed(_, words):
    sign, size = words
    return sign in SIGNS and is_size(size)


def compare_is_well_formed(_, words):
    a, b, eq1, eq2 = words
    return a in ORDERS and b in ORDERS and eq1 in EQUALITIES and eq2 in EQUALITIES


def to_float_is_well_formed(question, words):
    _, _, target = conversion(question)
    (bits,) = words
    return are_bits(target.width, bits)


def conversion_is_well_formed(question, words):
    _, _, target = conversion(question)
    if words[0] == "nan":
        return words == ["nan"]
    if words[0] == "infinite":
        _, clamped = words
        return are_bits(target.width, clamped)
    bits, direction, flag, clamped = words
    return direction in DIRECTIONS and flag in FLAGS and are_bits(target.width, bits, clamped)


# For each kind whether an answer to a question is well formed.
WELL_FORMED = {
    "kind": kind_is_well_formed,
    "neg_abs": neg_abs_is_well_formed,
    "compare": compare_is_well_formed,
    "to_float": to_float_is_well_formed,
    "from_float": conversion_is_well_formed,
    "convert": conversion_is_well_formed,
}


def split(line):
    """The kind, the words of the question, and those of the answer."""
    words = line.split(" ")
    length = question_length(words)
    return words[0], words[1 : 1 + length], words[1 + length :]


def answer_name(kind, question, answer):
    """The name under which an answer is counted: its first word, or the
    direction and the flag, which `to_float` does not show."""
    if kind == "to_float":
        answer = convert_answer(question)
    if kind in CONVERSIONS and len(answer) > 2:
        return " ".join(answer[1:3])
    return answer[0]


def parts_of(kind, answer):
    """The words of an answer by the names of its parts. If a float is finite,
    a conversion does not say so with a word of its own."""
    if kind in CONVERSIONS:
        if answer[0] in ("nan", "infinite"):
            return dict(zip(("word", "clamped"), answer))
        return dict(zip(PARTS[kind], answer), word="finite")
    return dict(zip(PARTS[kind], answer))


def part_altered(kind, right, said):
    """The one part in which an answer is altered. If that is the word for
    what a float is, only a sign, or clamped bits, that both answers have must
    be the same."""
    right, said = parts_of(kind, right), parts_of(kind, said)
    common = right.keys() & said.keys()
    if right.get("word") != said.get("word"):
        common &= {"word", "sign", "clamped"}
    altered = [part for part in common if right[part] != said[part]]
    if len(altered) != 1:
        raise ValueError(f"{len(altered)} parts are altered")
    return altered[0]


def check_right(line):
    """The kind of a line and the name of its answer, which must be the
    recomputed one."""
    kind, question, said = split(line)
    right = ANSWERS[kind](question)
    if said != right:
        raise ValueError(f"should be {' '.join(right)}")
    return kind, answer_name(kind, question, said)


def check_altered(line):
    """The kind of a line behind `not` and the part that is altered."""
    kind, question, said = split(line)
    right = ANSWERS[kind](question)
    if not WELL_FORMED[kind](question, said):
        raise ValueError("malformed")
    if said == right:
        raise ValueError("is the recomputed answer")
    return kind, part_altered(kind, right, said)


def check_line(line):
    """The names under which a line is counted."""
    if line.startswith(ALTERED):
        kind, part = check_altered(line.removeprefix(ALTERED))
        return "not", f"not {kind}", f"not {kind} {part}"
    kind, word = check_right(line)
    return kind, f"{kind} {word}"


def check(lines):
    """Counts of the answers; raises ValueError at the first bad line."""
    seen, tally = set(), Counter()
    for number, line in enumerate(lines, start=1):
        try:
            names = check_line(line)
        except (ValueError, KeyError, IndexError) as problem:
            raise ValueError(f"line {number}: {line}\n  {problem}") from problem
        if line in seen:
            raise ValueError(f"line {number} stands there twice: {line}")
        seen.add(line)
        tally.update(names)
    return tally


def main():
    if len(sys.argv) != 2:
        print("usage: python3 check.py LIST")
        return 1
    with open(sys.argv[1], encoding="ascii", newline="\n") as file:
        lines = file.read().removesuffix("\n").split("\n")
    try:
        tally = check(lines)
    except ValueError as problem:
        print(problem)
        return 1
    altered = tally["not"]
    print(f"{len(lines)} lines: {len(lines) - altered} as recomputed, {altered} altered")
    for name, count in sorted(tally.items()):
        print(f"{count:6} {name}")
    return 0


if __name__ == "__main__":
    sys.exit(main())
