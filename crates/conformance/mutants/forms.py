"""What is done wrong at a place of the model, made mechanically: the forms of a block of `masks`.

- `field BITS [USED]`: a number of so many bits, of which the model's own values use the low ones. Each bit that may be 1 is
  taken for 0, and each for 1; it is cut to a width below, or extended from there by its sign; it is one more or one less.
- `bits CLEARED SET`, two masks: each bit of the first is taken for 0, each of the second for 1.
- `flags KNOWN BITS`: each bit of the mask KNOWN is taken for 0 and for 1, and each other one for each of those.
- `at K ..`: `{k}` is each of these numbers. `A..B` are the ends, each power of two between them, and the neighbours of all.
- `in COUNT [FIRST LAST]`: `{k}` is a position of a list of so many, from 0 on: the first two and last two, and those that counted
  from 1 are a power of two or beside one; none before FIRST or behind LAST.
- `each FIRST LAST`: `{k}` is each of these numbers, and those between them.
"""
import re

WIDTHS = (8, 15, 16, 31, 32, 63)
SIGNED = (8, 16, 32)
MARKED = re.compile("«(.*?)»")


def devices(form, new):
    """The devices of a form, each in words with its lines; in `new` the place stands between « and »."""
    word, *numbers = form.split(" ")
    if word in VALUES:
        return [(str(k), new.replace("{k}", str(k))) for k in VALUES[word](numbers)]
    return [(words, MARKED.sub(lambda match: change.format(match[1]), new)) for words, change in CHANGES[word](numbers)]


def listed(words):
    """The numbers of a list in which `A..B` may stand."""
    found = set()
    for word in words:
        first, _, last = word.partition("..")
        found |= near(int(first), int(last)) if last else {int(first)}
    return sorted(found)


def positions(words):
    count, first, last = map(int, words if len(words) == 3 else [words[0], 0, words[0]])
    return [place - 1 for place in sorted(near(1, count)) if first <= place - 1 <= last]


def near(first, last):
    """Both ends, each power of two between them, and the neighbours of all of these."""
    powers = [1 << bit for bit in range(last.bit_length() + 1)]
    return {at for one in [first, last, *powers] for at in (one - 1, one, one + 1) if first <= at <= last}


def taken_for_0(bit):
    return f"bit {bit} taken for 0", f"(({{}}) & ~{1 << bit:#x})"


def taken_for_1(bit):
    return f"bit {bit} taken for 1", f"(({{}}) | {1 << bit:#x})"


def of_field(numbers):
    bits, used = int(numbers[0]), int(numbers[-1])
    for bit in range(bits):
        if bit < used:
            yield taken_for_0(bit)
        yield taken_for_1(bit)
    for width in WIDTHS:
        if width < used:
            yield f"cut to {width} bits", f"(({{}}) & {(1 << width) - 1:#x})"
    for width in SIGNED:
        if width < used:
            sign = 1 << width - 1
            yield f"signed, of {width} bits", f"(((({{}}) & {2 * sign - 1:#x} ^ {sign:#x}) - {sign:#x}) % 2**{bits})"
    yield "one more", f"((({{}}) + 1) % 2**{bits})"
    yield "one less", f"((({{}}) - 1) % 2**{bits})"


def of_bits(numbers):
    cleared, put = (int(number, 16) for number in numbers)
    for bit in range(max(cleared, put).bit_length()):
        if cleared >> bit & 1:
            yield taken_for_0(bit)
        if put >> bit & 1:
            yield taken_for_1(bit)


def of_flags(numbers):
    known = [bit for bit in range(16) if int(numbers[0], 16) >> bit & 1]
    for bit in range(int(numbers[1])):
        if bit in known:
            yield taken_for_0(bit)
            yield taken_for_1(bit)
        else:
            for other in known:
                yield f"bit {bit} taken for bit {other}", f"(lambda flags: flags | (flags >> {bit} & 1) << {other})({{}})"


CHANGES = {"field": of_field, "bits": of_bits, "flags": of_flags}
VALUES = {"at": listed, "in": positions, "each": lambda words: range(int(words[0]), int(words[1]) + 1)}
