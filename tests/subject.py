"""The library's calls on one lent store. Each call is held to what is true of every call, whatever the store holds."""

import collections
import operator

from lent import LIBRARY, words
from model import slots_for, words_needed

CHANGING = ("make", "mark", "clear", "load", "fill")
REFUSALS = {
    "make": (1, 2),
    "mark": (3, 4, 5, 6, 13),
    "clear": (3, 4, 7, 13),
    "load": (3, 10, 11, 12),
    "fill": (3, 4, 6, 14),
    "ask": (3, 4, 13),
    "nearest": (3, 4, 13, 15),
    "count": (3, 8, 13),
    "list": (3, 8, 9, 13),
    "save": (3, 9, 13),
    "check": (3,),
}
LARGEST_CODE, FARTHEST = 2**32 - 1, 2 * 65535**2


def largest_values(name, numbers, m, k, most):
    """The largest values of an answer, whatever the store holds."""
    slots = slots_for(k, most)
    if name == "ask":
        return 1, m, m, LARGEST_CODE
    if name == "nearest":
        return 1, LARGEST_CODE, FARTHEST, min(numbers[2], slots), FARTHEST, 1
    of_window = (most, slots)
    return {"count": of_window, "list": of_window, "save": (10 + 5 * (most + slots), 0), "check": (1, 0)}[name]


def told_by(name, answer):
    """An answer of the library in the model's order."""
    if name in CHANGING:
        return answer, 0, 0
    if name == "ask":
        return answer.refusal, answer.marked, answer.opened, answer.level, answer.code
    if name == "nearest":
        return answer.refusal, answer.found, answer.code, answer.distance, answer.opened, answer.limit, answer.complete
    return answer.refusal, answer.first, answer.second


class Difference(Exception):
    """What a call gave, and what was expected of it."""


def expect(what, got, expected):
    if got != expected:
        raise Difference(f"{what}\n  library: {got}\n  model:   {expected}")


class Subject:
    """A store and the calls on it; every call and refusal is counted."""

    def __init__(self, values, tally=None):
        self.store = words(values)
        self.tally = tally if tally is not None else collections.Counter()

    def made(self, m, k, most):
        """make; the formula's end is kept, since no call may write past it."""
        return self.call("make", m, k, most, end=words_needed(k, most))[0]

    def end(self):
        """The formula's end by the words' own k and most, or the whole store where they say none."""
        known = len(self.store) >= 4 and words_needed(self.store[2], self.store[3])
        return min(known or len(self.store), len(self.store))

    def call(self, name, *numbers, image=None, codes=None, output=None, end=None):
        """The answer, as the model gives it."""
        end = self.end() if end is None else end
        sizes = [self.store[at] for at in (1, 2, 3)] if len(self.store) >= 4 else None
        before, untouched = self.store.content(), None if output is None else output.content()
        lent = [*self.store.arguments, *numbers]
        for part in (image, codes, output):
            lent += part.arguments if part is not None else ()
        answer = getattr(LIBRARY, "pk_" + name)(*lent)
        told = told_by(name, answer)
        self.tally[name] += 1
        self.tally[told[0]] += 1
        self._hold(name, numbers, told, before, end)
        if name not in CHANGING and told[0] in (0, 9):
            self._hold_values(name, numbers, told, sizes)
        if output is not None:
            self._hold_output(name, told, output, untouched)
        return told

    def _hold(self, name, numbers, told, before, end):
        what = f"pk_{name}{numbers} gives {told}"
        refusal = told[0]
        expect(f"{what}: a refusal of this call", refusal == 0 or refusal in REFUSALS[name], True)
        if refusal == 13 and name in ("mark", "clear"):
            expect(f"{what}: word 0", self.store[0], 0)
        elif refusal or name not in CHANGING:
            expect(f"{what}: the store is unchanged", self.store.content() == before, True)
        expect(f"{what}: words past the formula are untouched", self.store.same_from(end, before), True)
        if refusal == 9:
            expect(f"{what}: second", told[2], 0)
        elif refusal:
            expect(f"{what}: zeros", any(told[1:]), False)

    @staticmethod
    def _hold_values(name, numbers, told, sizes):
        largest = largest_values(name, numbers, *sizes)
        expect(f"pk_{name}{numbers} gives {told}: at most {largest}", all(map(operator.le, told[1:], largest)), True)

    @staticmethod
    def _hold_output(name, told, output, untouched):
        refusal, first, _ = told
        if refusal == 0:
            expect(f"pk_{name}: {first} of {len(output)} fit", first <= len(output), True)
            expect(f"pk_{name}: the rest of the output", output.same_from(first, untouched), True)
        elif refusal == 13:
            expect(f"pk_{name}: past the output", output.same_from(len(output), untouched), True)
        else:
            expect(f"pk_{name}: the output is unchanged", output.content() == untouched, True)
        if refusal == 9:
            expect(f"pk_{name}: {len(output)} are fewer than the {first} needed", len(output) < first, True)
