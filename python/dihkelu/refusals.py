"""The documents' refusals as exceptions: a number, a place and a sentence."""
from __future__ import annotations


class Refused(Exception):
    """A refusal of the documents. `place` is a word of the sheet or a byte of the text, counted from 0; 0 where there is none."""

    number: int
    place: int
    sentence = "refused"
    of = 0

    def __init__(self, number: int, place: int, call: str = ""):
        self.number, self.place, self.call = number, place, call
        super().__init__(number, place, call)

    def __str__(self) -> str:
        sentence = self.sentence.format(place=self.place)
        return f"{self.call + ': ' if self.call else ''}refused {self.number} {self.place}: {sentence}"


class InvalidParameter(Refused):
    """`argument` is the name of the one that earned it, where it is known."""

    of = 1

    def __init__(self, number: int, place: int, call: str = "", argument: str = ""):
        super().__init__(number, place, call)
        self.argument = argument

    @property
    def sentence(self) -> str:  # type: ignore[override]
        if not self.argument:
            return "an argument is none that the call takes: an index, a wavelength, a code, or a count of numbers"
        if self.argument == "code":
            return "there is no coating of this code; the codes are 1 to 8"
        if self.argument in ("field", "beam", "jones", "matrix", "left", "right"):
            return f"{self.argument} has not as many numbers as the call takes"
        return f"{self.argument} is not finite" + ("" if self.argument == "angle_rad" else " and above zero")


class NameRefused(Refused):
    of = 2

    @property
    def sentence(self) -> str:  # type: ignore[override]
        if self.call == "coating_name":
            return "there is no coating of this code"
        return "the name has more than 32 bytes" if self.place == 32 else "byte {place} of the name is no ASCII"


class TooManyLayers(Refused):
    sentence = "there are more than 64 layers, or more than 31 pairs"
    of = 3


class SheetLength(Refused):
    sentence = "the sheet's bytes are no multiple of 4, too few or too many"
    of = 4


class OutOfGrammar(Refused):
    sentence = "word {place} of the sheet is out of grammar"
    of = 5


class OutsideLimits(Refused):
    sentence = "the block at word {place} of the sheet is outside the limits"
    of = 6


class NoSuchSurface(Refused):
    sentence = "the sheet has no such surface"
    of = 7


class ListTooShort(Refused):
    sentence = "the list is too short"
    of = 8


class NoStack(Refused):
    sentence = "no stack can have the byte at place {place} of the text"
    of = 9


class StackTooLong(Refused):
    sentence = "the stack has more than 64 layers"
    of = 10


class WavelengthRefused(Refused):
    sentence = "the wavelength is outside 100 to 10,000 nm, or a layer still to come fails at it"
    of = 11


class Retuned(Refused):
    sentence = "a kind 7 stands in the sheet, the first at word {place}"
    of = 12


class NoRange(Refused):
    sentence = "a low end is above its high end, or an end is no number from 1 to 4"
    of = 13


class NoFilm(Refused):
    sentence = "the index is outside 1 to 4, the thickness outside 0 to 100,000 nm or the wavelength outside 100 to 10,000 nm"
    of = 14


class NoBand(Refused):
    of = 15

    @property
    def sentence(self) -> str:  # type: ignore[override]
        if self.place == 64:
            return "there are no lines, more than 64, or not as many weights as wavelengths"
        return "the weight of line {place} is no whole number from 1 to 1,000"


class LineRefused(Refused):
    sentence = "the wavelength of line {place} is outside 100 to 10,000 nm, or a layer of the sheet fails at it"
    of = 16


BY_NUMBER: dict[int, type[Refused]] = {c.of: c for c in Refused.__subclasses__()}


def answered(returned: int, call: str) -> int:
    """The low half of what a call returned; its refusal is raised."""
    number, low = returned >> 32, returned & 0xFFFFFFFF
    if number:
        raise BY_NUMBER.get(number, Refused)(number, low, call)
    return low
