"""The ratios that micad is held to beside other servers, and which rows of a table fall short of them."""
import statistics

STORE, CACHE = "micad, store", "micad, cache"
RATE, TIME, _, TURNS = range(4)


def ratio_of(own, peer, number):
    """The ratio of two servers' numbers. Where these tell their turns, it is the median of the ratios of turns side by side: what disturbs a machine lasts for longer than a turn."""
    if len(own) > TURNS and len(peer) > TURNS:
        return statistics.median(mine[number] / theirs[number] for mine, theirs in zip(own[TURNS], peer[TURNS]))
    return own[number] / peer[number]


class Aim:
    """That a number of one server is at least, or at most, so many times that of another one, in the rows whose labels fit. Without a bound the ratio is told alone."""

    def __init__(self, what, own, peer, number, bound, is_of=lambda *labels: True):
        self.what, self.own, self.peer, self.number, self.bound, self.is_of = what, own, peer, number, bound, is_of
        self.is_least = number == RATE

    def ratios(self, rows):
        """The ratio of each row that it speaks of. Rows are labels, and the numbers of each server by its name."""
        here = ((labels, found) for labels, found in rows if self.is_of(*labels) and found.get(self.own) and found.get(self.peer))
        return [(ratio_of(found[self.own], found[self.peer], self.number), labels) for labels, found in here]

    def falls_short(self, ratio):
        return self.bound is not None and (ratio < self.bound if self.is_least else ratio > self.bound)


def beside(what, peer, number, bound, is_of=lambda *labels: True):
    """The same aim for both modes. Plain Rust is held beside micad of its own mode."""
    for own in (STORE, CACHE):
        yield Aim(what, own, own.replace("micad", peer) if peer == "plain Rust" else peer, number, bound, is_of)


def print_aims(aims, rows, columns):
    """A line for each aim, and one for each row that falls short of it."""
    rows = list(rows)
    for aim in aims:
        found = aim.ratios(rows)
        if not found:
            continue
        ratios = [ratio for ratio, _ in found]
        short = [(ratio, labels) for ratio, labels in found if aim.falls_short(ratio)]
        wanted = f"; {'at least' if aim.is_least else 'at most'} {aim.bound} is wanted; {len(short)} of {len(found)} rows fall short" if aim.bound else ""
        print(f"{aim.own}, {aim.what} beside {aim.peer}: {min(ratios):.2f} to {max(ratios):.2f}, by the median {statistics.median(ratios):.2f}{wanted}")
        for ratio, labels in short:
            print(f"    {ratio:.2f}: {', '.join(f'{label} {name}' if name != 'commands' else str(label) for name, label in zip(columns, labels))}")
