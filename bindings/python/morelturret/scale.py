"""Axes: where a value stands on the paper, and round numbers to mark."""
import math


class Scale:
    """One axis: values from `low` to `high` on the paper from `start` to `stop`, either way round. An extent of nothing is widened."""

    def __init__(self, low, high, start, stop, margin=0.03):
        wider = (high - low) * margin or max(abs(low), 1.0) * 0.05
        self.low, self.high, self.start, self.stop = low - wider, high + wider, start, stop

    def __call__(self, value):
        return self.start + (value - self.low) * ((self.stop - self.start) / (self.high - self.low))

    def ticks(self, most):
        """At most so many round numbers within the axis, as (value, text): steps of 1, 2 or 5 times a power of ten.

        >>> from morelturret.scale import Scale
        >>> [text for _, text in Scale(281.2, 296.9, 0, 100).ticks(5)]
        ['285', '290', '295']
        """
        least = (self.high - self.low) / most
        power = math.floor(math.log10(least))
        step, power = next((m, p) for p in (power, power + 1) for m in (1, 2, 5) if m * 10.0**p >= least)
        size = step * 10.0**power
        first, last = math.ceil(self.low / size), math.floor(self.high / size)
        return [(k * size, short(k * step, power)) for k in range(first, last + 1)]


def short(whole, power):
    """whole times a power of ten, as text.

    >>> from morelturret.scale import short
    >>> short(285, 0), short(-25, -1), short(3, 5), short(2, 7), short(5, -9)
    ('285', '-2.5', '300000', '2e+07', '5e-09')
    """
    if -6 <= power < 0:
        return f"{whole / 10**-power:.{-power}f}"
    return str(whole * 10**power) if 0 <= power <= 5 else f"{whole * 10.0**power:.6g}"
