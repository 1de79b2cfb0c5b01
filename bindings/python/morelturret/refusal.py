"""What is refused: a number and a value."""
from ._declared import REFUSALS


class Refusal(Exception):
    """A call that was refused.

    `number` says which refusal, `value` is what goes with it. `sentence` says when it is given, `advice` what to do about it, both as README has them;
    `found` tells more, where more is known.

    >>> import morelturret
    >>> morelturret.build(morelturret.Lines.chain([0, 1], [0, 2e9]))
    Traceback (most recent call last):
    morelturret.refusal.Refusal: refused 1, value 0: a coordinate is not finite, or above 1e9 in magnitude
    """

    def __init__(self, number, value, found=""):
        self.number, self.value, self.found = number, value, found
        self.sentence, self.value_is, self.advice = REFUSALS.get(number, ("the call is not one that the library has", "", ""))
        super().__init__(number, value, found)

    def __str__(self):
        return f"refused {self.number}, value {self.value}: {self.sentence}" + (f" ({self.found})" if self.found else "")
