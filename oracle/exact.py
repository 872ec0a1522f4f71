"""What bits stand for, and what a load is in another form, by exact arithmetic.

Takes nothing from the crate: floats are read by the rule of IEEE 754 from
their width and precision alone, loads are fractions, and a conversion is
nothing but rounding to the nearest whole number, ties to even.

Both the list of `convert` lines (`convert_list.py`) and the check of all
lines (`check.py`) rest on this one definition.
"""

from dataclasses import dataclass
from fractions import Fraction

WIDTHS = (8, 16, 32, 64)
SIGNEDNESSES = ("i", "u")


def power_of_two(exponent):
    return Fraction(2) ** exponent


def decimal(word):
    """The number that a word is written for."""
    if word != str(int(word)):
        raise ValueError(f"{word} is no number in decimal")
    return int(word)


def hex_bits(word, width):
    """The number that bits of that width are written as."""
    bits = int(word, 16)
    if word != hex_word(bits, width) or bits >= 1 << width:
        raise ValueError(f"{word} is not {width} bits in hex")
    return bits


def hex_word(bits, width):
    """Bits of that width as lines show them."""
    return format(bits, f"0{width // 4}x")


@dataclass(frozen=True)
class Rounded:
    """A load in a form."""

    bits: int
    direction: str
    flag: str
    clamped: int


def direction(shown, load):
    """The word for what a form shows against the load."""
    if shown < load:
        return "below"
    return "above" if shown > load else "equal"


def flag(over):
    """The word for whether a form cannot show what a load was rounded to."""
    return "over" if over else "fits"


@dataclass(frozen=True)
class Fixed:
    """A fixed form: an integer over 2^fraction."""

    signed: bool
    width: int
    fraction: int

    def __post_init__(self):
        if self.width not in WIDTHS or not 0 <= self.fraction <= self.width:
            raise ValueError(f"no such form: {self.words()}")

    def words(self):
        return f"{'i' if self.signed else 'u'} {self.width} {self.fraction}"

    def lowest(self):
        """The integer furthest below zero."""
        return -(1 << (self.width - 1)) if self.signed else 0

    def highest(self):
        """The integer furthest above zero."""
        return (1 << (self.width - int(self.signed))) - 1

    def integer(self, bits):
        """The integer that bits stand for."""
        return bits - (1 << self.width) if bits > self.highest() else bits

    def read(self, bits):
        """('finite', SIGN, SIZE, SCALE) of bits, worth SIZE / 2^SCALE."""
        integer = self.integer(bits)
        return ("finite", "-" if integer < 0 else "+", abs(integer), self.fraction)

    def wrapped(self, integer):
        """The bits of an integer modulo 2^width."""
        return integer % (1 << self.width)

    def edge(self, negative):
        """The bits of the number furthest from zero on one side."""
        return self.wrapped(self.lowest() if negative else self.highest())

    def grain(self, load):
        """The exponent of the distance between numbers around a load."""
        return -self.fraction

    def rounded(self, load):
        """A load, not zero, in this form."""
        whole, shown = nearest(load, self.grain(load))
        over = not self.lowest() <= whole <= self.highest()
        bits = self.wrapped(whole)
        clamped = self.edge(load < 0) if over else bits
        return Rounded(bits, direction(shown, load), flag(over), clamped)


@dataclass(frozen=True)
class Float:
    """A float form. The precision includes the implicit one."""

    name: str
    width: int
    precision: int

    def words(self):
        return self.name

    def greatest_exponent(self):
        return (1 << (self.width - self.precision - 1)) - 1

    def least_exponent(self):
        return 1 - self.greatest_exponent()

    def infinity(self):
        """The bits of plus infinity."""
        ones = (1 << (self.width - self.precision)) - 1
        return ones << (self.precision - 1)

    def largest(self):
        """The largest finite number."""
        significand = (1 << self.precision) - 1
        grain = self.greatest_exponent() - self.precision + 1
        return significand * power_of_two(grain)

    def read(self, bits):
        """('nan',), ('infinite', SIGN), or ('finite', SIGN, SIZE, SCALE) of
        bits, worth SIZE / 2^SCALE."""
        fraction_bits = self.precision - 1
        exponent_bits = self.width - self.precision
        sign = "-" if bits >> (self.width - 1) else "+"
        field = (bits >> fraction_bits) % (1 << exponent_bits)
        fraction = bits % (1 << fraction_bits)
        bias = (1 << (exponent_bits - 1)) - 1
        if field == (1 << exponent_bits) - 1:
            return ("nan",) if fraction else ("infinite", sign)
        if field == 0:
            size, exponent = fraction, 1 - bias
        else:
            size, exponent = fraction + (1 << fraction_bits), field - bias
        if size == 0:
            return ("finite", "+", 0, 0)
        return ("finite", sign, size, fraction_bits - exponent)

    def signed(self, negative, bits):
        """Bits with that sign before them."""
        return bits + (int(negative) << (self.width - 1))

    def edge(self, negative):
        """The bits of an infinity."""
        return self.signed(negative, self.infinity())

    def grain(self, load):
        """The exponent of the distance between numbers around a load."""
        return max(exponent(load), self.least_exponent()) - self.precision + 1

    def rounded(self, load):
        """A load, not zero, in this form."""
        negative = load < 0
        whole, shown = nearest(load, self.grain(load))
        if abs(shown) > self.largest():
            bits = self.edge(negative)
            return Rounded(bits, "below" if negative else "above", flag(True), bits)
        # A significand without its implicit one is a subnormal; one that is
        # too long is the next power of two.
        steps = self.grain(load) + self.precision - 1 - self.least_exponent()
        bits = self.signed(negative, (steps << (self.precision - 1)) + abs(whole))
        return Rounded(bits, direction(shown, load), flag(False), bits)


FLOATS = {
    form.name: form
    for form in (
        Float("f16", 16, 11),
        Float("bf16", 16, 8),
        Float("f32", 32, 24),
        Float("f64", 64, 53),
    )
}


def exponent(load):
    """The e with 2^e <= |load| < 2^(e + 1), the load having a power of two
    below its line."""
    return abs(load.numerator).bit_length() - load.denominator.bit_length()


def nearest(load, grain):
    """The whole number closest to the load over 2^grain, the even one of two,
    and what that many times 2^grain is."""
    unit = power_of_two(grain)
    # Python rounds fractions to the nearest, ties to even.
    whole = round(load / unit)
    return whole, whole * unit


def load_of(read):
    """The load that was read, which is finite."""
    _, sign, size, scale = read
    load = size * power_of_two(-scale)
    return -load if sign == "-" else load


def convert(source, bits, target):
    """The answer that bits of one form get in another, as its words."""
    read = source.read(bits)
    if read[0] == "nan":
        return ["nan"]
    if read[0] == "infinite":
        return ["infinite", hex_word(target.edge(read[1] == "-"), target.width)]
    load = load_of(read)
    rounded = target.rounded(load) if load else Rounded(0, "equal", flag(False), 0)
    return [
        hex_word(rounded.bits, target.width),
        rounded.direction,
        rounded.flag,
        hex_word(rounded.clamped, target.width),
    ]


def form_length(word):
    """How many words a form has that begins with this one."""
    return 1 if word in FLOATS else 3


def form_of(words):
    """The form that all these words name."""
    if len(words) == 1:
        return FLOATS[words[0]]
    signedness, width, fraction = words
    if signedness not in SIGNEDNESSES:
        raise ValueError(f"{signedness} is neither i nor u")
    return Fixed(signedness == "i", decimal(width), decimal(fraction))


def conversion(words):
    """The form, the bits and the other form that the words of a question name."""
    length = form_length(words[0])
    source, target = form_of(words[:length]), form_of(words[length + 1 :])
    return source, hex_bits(words[length], source.width), target
