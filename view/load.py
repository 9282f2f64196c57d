"""The load of a bus: the part of a duration in which frames are on it, from SOF to EOF.

The three bits of intermission behind a frame are not counted, so a bus that is never free has less than all.
"""
import bisect
import itertools

WINDOWS = (1_000, 10_000, 100_000, 1_000_000)


class Load:
    """The frames of a bus, none of which begins before the one before it has ended."""

    def __init__(self, starts, ends):
        self.starts, self.ends = starts, ends
        self.before = [0, *itertools.accumulate(end - start for start, end in zip(starts, ends))]

    def busy(self, moment):
        """How long frames were on the bus before a moment."""
        begun = bisect.bisect_left(self.starts, moment)
        if begun == 0:
            return 0
        return self.before[begun] - max(0, self.ends[begun - 1] - moment)

    def mean(self, last):
        """The load from the start to a moment, as a part of 1."""
        return self.busy(last) / last if last else 0.0

    def greatest(self, window, last):
        """The greatest load of a window that lies in the run, and the moment at which it ends.

        It is greatest where the window ends with a frame or begins with one, since it changes evenly between.
        """
        if last < window:
            return None
        moments = [end for end in self.ends if window <= end <= last]
        moments += [start + window for start in self.starts if start + window <= last]
        moment = max(moments, key=lambda at: (self.busy(at) - self.busy(at - window), -at), default=window)
        return (self.busy(moment) - self.busy(moment - window)) / window, moment
