#!/usr/bin/env python3
"""Prints the `convert` lines of the list, always the same ones.

    python3 convert_list.py

The crate has no such answers, so they come from `exact.py`. Here is only the
choice of questions: for each pair of forms some bits that matter, and some
pseudo-random ones. Behind the lines with right answers stand altered ones.
"""

from fractions import Fraction
from functools import lru_cache

from exact import FLOATS, WIDTHS, Fixed, conversion, convert, hex_word, power_of_two

SEED = 7
ALTERED_SEED = 8

HALF = Fraction(1, 2)
QUARTER = Fraction(1, 4)

# Questions that are asked whatever else is chosen.
KNOWN = (
    "u 16 0 0801 f16",
    "u 16 0 0803 f16",
    "u 16 0 ffef f16",
    "u 16 0 fff0 f16",
    "u 16 0 ffff f16",
    "i 64 64 ffffffffffffffff f16",
    "f32 3f000000 u 8 0",
    "f32 bf000000 u 8 0",
    "f32 bf800000 u 8 0",
    "f32 437f8000 u 8 0",
    "f32 43000000 i 8 0",
    "f32 c3000000 i 8 0",
    "f32 7f7fffff u 64 64",
    # Just off the point half-way between two numbers of the target, and on it
    # after rounding to f32 (f64 in the last one).
    "f64 3ff0020010000000 f16",
    "f64 3ff005fff0000000 f16",
    "f64 3e60000010000000 f16",
    "f64 3ff0100010000000 bf16",
    "u 64 0 8000008000000400 f32",
)

# How many bits of each sort a pair of forms gets.
FIXED_TO_FIXED = {
    "edge": 1,
    "half_way": 1,
    "small": 1,
    "inside": 1,
    "beyond": 1,
    "special": 1,
}
FIXED_TO_FLOAT = {"edge": 2, "half_way": 2, "trap": 1, "round_up": 1, "small": 1, "special": 1}
FLOAT_TO_FIXED = {"edge": 1, "half_way": 1, "small": 1, "beyond": 1, "special": 1}
FLOAT_TO_FLOAT = {
    "edge": 14,
    "half_way": 15,
    "trap": 6,
    "round_up": 6,
    "small": 12,
    "inside": 14,
    "beyond": 4,
    "special": 16,
    "any": 6,
}


class Random:
    """The generator SplitMix64."""

    def __init__(self, seed):
        self.state = seed

    def bits(self):
        """The next 64 bits."""
        mask = (1 << 64) - 1
        self.state = (self.state + 0x9E3779B97F4A7C15) & mask
        mixed = (self.state ^ (self.state >> 30)) * 0xBF58476D1CE4E5B9 & mask
        mixed = (mixed ^ (mixed >> 27)) * 0x94D049BB133111EB & mask
        return mixed ^ (mixed >> 31)

    def below(self, end):
        """A number below `end`, which is not zero."""
        return self.bits() % end

    def one_of(self, choices):
        """One of the choices, of which there is at least one."""
        return choices[self.below(len(choices))]

    def some_of(self, choices, count):
        """`count` of the choices, or all of them if there are fewer, in any order."""
        left, chosen = list(choices), []
        while left and len(chosen) < count:
            chosen.append(left.pop(self.below(len(left))))
        return chosen


def is_fixed(form):
    return isinstance(form, Fixed)


def smallest_exponent(form):
    """The exponent of the smallest number above zero."""
    if is_fixed(form):
        return -form.fraction
    return form.least_exponent() - form.precision + 1


def largest_exponent(form):
    """The exponent of the largest number."""
    if is_fixed(form):
        return form.highest().bit_length() - 1 - form.fraction
    return form.greatest_exponent()


def furthest(form):
    """The numbers furthest from zero on either side."""
    if is_fixed(form):
        unit = power_of_two(-form.fraction)
        return [form.highest() * unit, form.lowest() * unit]
    return [form.largest(), -form.largest()]


def has_sign(form, negative):
    """Whether the form has numbers of that sign."""
    return not negative or not is_fixed(form) or form.signed


@lru_cache(maxsize=None)
def finer_exponents(source, target):
    """The exponents at which the source has numbers half-way between two
    neighbours of the target, just above the target's range included."""
    first = max(smallest_exponent(source), smallest_exponent(target) - 1)
    last = min(largest_exponent(source), largest_exponent(target) + 1)
    powers = ((exponent, power_of_two(exponent)) for exponent in range(first, last + 1))
    return [e for e, power in powers if source.grain(power) < target.grain(power)]


def around(source, load):
    """The bits of the source for the number closest to a load, and next to it."""
    if not load:
        return [0]
    bits = source.rounded(load).clamped
    if is_fixed(source):
        return [source.wrapped(bits + step) for step in (-1, 0, 1)]
    size = bits % (1 << (source.width - 1))
    sizes = {max(size - 1, 0), size, min(size + 1, source.infinity())}
    return [source.signed(load < 0, size) for size in sorted(sizes)]


def both_signs(loads):
    return [sign * load for load in loads for sign in (1, -1)]


def edge_loads(source, target, random):
    """The numbers of the target furthest from zero, the points one half step
    to both sides, and the first number that it has no more."""
    loads = []
    for edge, sign in zip(furthest(target), (1, -1)):
        step = sign * power_of_two(target.grain(edge or Fraction(1)))
        loads += [edge, edge + HALF * step, edge - HALF * step, edge + step]
    return loads


def whole_at(target, exponent, random):
    """A number at that exponent in steps of the target, an even or an odd one."""
    size = power_of_two(exponent)
    steps = size / power_of_two(target.grain(size))
    if steps < 1:
        return 0
    return int(steps) + random.below(int(steps))


def half_way_load(source, target, random):
    """A load that the source has, half-way between two numbers of the target."""
    exponent = random.one_of(finer_exponents(source, target))
    unit = power_of_two(target.grain(power_of_two(exponent)))
    return (whole_at(target, exponent, random) + HALF) * unit


def half_way_loads(source, target, random):
    if not finer_exponents(source, target):
        return []
    return both_signs(half_way_load(source, target, random) for _ in range(6))


def trap_loads(source, target, random):
    """Loads close to half-way between two numbers of the target, that would
    be just half-way if they were first rounded to a finer float."""
    loads = []
    for load in half_way_loads(source, target, random):
        for finer in (FLOATS["f32"], FLOATS["f64"]):
            off = finer.grain(load) - 1
            if source.grain(load) <= off < target.grain(load) - 1:
                loads += [load + power_of_two(off), load - power_of_two(off)]
    return loads


def round_up_loads(source, target, random):
    """Loads one half step of the target below a power of two."""
    exponents = finer_exponents(source, target)
    if not exponents:
        return []
    loads = []
    for exponent in (random.one_of(exponents) for _ in range(4)):
        power = power_of_two(exponent)
        loads.append(2 * power - HALF * power_of_two(target.grain(power)))
    return both_signs(loads)


def small_loads(source, target, random):
    """The target's smallest numbers, and points between zero and these; of a
    float also those around its smallest normal number."""
    unit = power_of_two(smallest_exponent(target))
    loads = [unit * size for size in (QUARTER, HALF, 3 * QUARTER, 1, 3 * HALF)]
    if not is_fixed(target):
        normal = power_of_two(target.least_exponent())
        loads += [normal, normal - unit, normal - HALF * unit]
    return both_signs(loads)


def load_at(source, exponent, random):
    """A pseudo-random load of the source with that exponent, of both signs."""
    power = power_of_two(exponent)
    unit = power_of_two(source.grain(power))
    return both_signs([whole_at(source, exponent, random) * unit])


def inside_loads(source, target, random):
    """Loads within the ranges of both forms."""
    first = max(smallest_exponent(source), smallest_exponent(target) - 2)
    last = min(largest_exponent(source), largest_exponent(target))
    if first > last:
        return []
    exponents = [first + random.below(last - first + 1) for _ in range(4)]
    return [load for exponent in exponents for load in load_at(source, exponent, random)]


def beyond_loads(source, target, random):
    """Loads too large for the target by so little that a fixed target still
    sees some of their bits."""
    first = largest_exponent(target) + 1
    last = min(largest_exponent(source), first + source.width)
    if first > last:
        return []
    return load_at(source, first + random.below(last - first + 1), random)


def special_bits(source, target, random):
    """Zeros, the smallest numbers, the edges, and of a float infinities, no
    numbers and the ends of its subnormals; pseudo-random bits."""
    top = 1 << (source.width - 1)
    if is_fixed(source):
        bits = [0, 1, top - 1, top, top + 1, 2 * top - 1]
    else:
        infinity, normal = source.infinity(), 1 << (source.precision - 1)
        quiet = infinity | normal >> 1
        payload = random.below(normal >> 1)
        sizes = [0, 1, normal - 1, normal, infinity - 1, infinity, infinity, infinity + 1]
        sizes += [quiet, quiet | payload]
        bits = [source.signed(negative, size) for size in sizes for negative in (False, True)]
    return bits + any_bits(source, target, random)


def any_bits(source, target, random):
    return [random.bits() % (1 << source.width) for _ in range(4)]


# For each sort of bits how its loads are found.
LOADS = {
    "edge": edge_loads,
    "half_way": half_way_loads,
    "trap": trap_loads,
    "round_up": round_up_loads,
    "small": small_loads,
    "inside": inside_loads,
    "beyond": beyond_loads,
}


def bits_of_sort(sort, source, target, random):
    """Bits of the source that are of that sort for the target."""
    if sort == "special":
        return special_bits(source, target, random)
    if sort == "any":
        return any_bits(source, target, random)
    loads = LOADS[sort](source, target, random)
    return [
        bits for load in loads if has_sign(source, load < 0) for bits in around(source, load)
    ]


def fractions(width):
    """The fractions that matter."""
    return [0, 1, width // 2 - 1, width // 2, width - 1, width]


def fixed_forms():
    return [
        Fixed(signed, width, fraction)
        for width in WIDTHS
        for signed in (True, False)
        for fraction in fractions(width)
    ]


def fixed_pairs(random):
    """Two fixed forms: each width and signedness with each other, at fractions
    that are equal, far apart and pseudo-random."""
    kinds = [(signed, width) for width in WIDTHS for signed in (True, False)]
    for a_signed, a in kinds:
        for b_signed, b in kinds:
            pairs = [(0, 0), (a // 2, b // 2), (a, 0), (0, b), (a - 1, 1), (1, b - 1)]
            pairs += [(random.below(a + 1), random.below(b + 1)) for _ in range(2)]
            for a_fraction, b_fraction in pairs:
                yield Fixed(a_signed, a, a_fraction), Fixed(b_signed, b, b_fraction)


def pairs(random):
    """All pairs of forms asked for, each with its shares."""
    for source, target in fixed_pairs(random):
        yield source, target, FIXED_TO_FIXED
    for fixed in fixed_forms():
        for float_form in FLOATS.values():
            yield fixed, float_form, FIXED_TO_FLOAT
    for fixed in fixed_forms():
        for float_form in FLOATS.values():
            yield float_form, fixed, FLOAT_TO_FIXED
    for source in FLOATS.values():
        for target in FLOATS.values():
            yield source, target, FLOAT_TO_FLOAT


def questions():
    """All questions, each once, as form, bits and form."""
    random = Random(SEED)
    asked = dict.fromkeys(conversion(question.split(" ")) for question in KNOWN)
    for source, target, shares in pairs(random):
        for sort, share in shares.items():
            choices = bits_of_sort(sort, source, target, random)
            for bits in random.some_of(choices, share):
                asked[source, bits, target] = None
    return list(asked)


def line(question, answer):
    source, bits, target = question
    bits = hex_word(bits, source.width)
    return f"convert {source.words()} {bits} {target.words()} {' '.join(answer)}"


def group(question, answer):
    """What lines have in common that are altered together: the float or the
    width that they convert to, and the word or the flag of the answer."""
    _, _, target = question
    form = f"fixed {target.width}" if is_fixed(target) else target.name
    return form, answer[2] if len(answer) > 2 else answer[0]


# How many lines of a group are altered: so many that each part has the same share.
ALTERED_SHARES = {"fits": 10, "over": 10, "infinite": 2, "nan": 1}


def other_bits(word, random):
    """Bits with the lowest one or any one flipped."""
    width = 4 * len(word)
    flipped = random.one_of([1, 1 << random.below(width)])
    return hex_word(int(word, 16) ^ flipped, width)


def other_of(choices, word, random):
    return random.one_of([choice for choice in choices if choice != word])


def alterations(answer, target, random):
    """For each part of an answer, the answer with just that part altered. With
    the word `nan` or `infinite`, what stands behind it comes or goes."""
    zero = hex_word(0, target.width)
    if answer == ["nan"]:
        return [random.one_of([["infinite", zero], [zero, "equal", "fits", zero]])]
    if answer[0] == "infinite":
        _, clamped = answer
        word = random.one_of([["nan"], [clamped, "equal", "fits", clamped]])
        return [word, ["infinite", other_bits(clamped, random)]]
    bits, direction, flag, clamped = answer
    return [
        random.one_of([["nan"], ["infinite", clamped]]),
        [other_bits(bits, random), direction, flag, clamped],
        [bits, other_of(("below", "equal", "above"), direction, random), flag, clamped],
        [bits, direction, other_of(("fits", "over"), flag, random), clamped],
        [bits, direction, flag, other_bits(clamped, random)],
    ]


def altered_lines(right):
    """Altered lines out of right ones, some from each group. In a group the
    parts of the answers are altered in turn."""
    random = Random(ALTERED_SEED)
    groups = {}
    for question, answer in right:
        groups.setdefault(group(question, answer), []).append((question, answer))
    for (_, word), members in sorted(groups.items(), key=lambda item: item[0]):
        chosen = random.some_of(members, ALTERED_SHARES[word])
        for turn, (question, answer) in enumerate(chosen):
            altered = alterations(answer, question[2], random)
            yield "not " + line(question, altered[turn % len(altered)])


def lines():
    """All lines: those with right answers, then altered ones."""
    right = [(question, convert(*question)) for question in questions()]
    yield from (line(question, answer) for question, answer in right)
    yield from altered_lines(right)


if __name__ == "__main__":
    for each in lines():
        print(each)
