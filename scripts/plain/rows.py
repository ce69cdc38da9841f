"""A row at random: the words of its call, the lines that it asks, and how many were found to be what."""
import re, sys

from plain.dice import Dice
from plain.words import Stop, Words

ROW = re.compile(r"(?P<under>under (?P<text>\S+) )?random-\S+ (?P<order>le |be )?(?P<seed>\d+) (?P<count>\d+)(?P<rest>.*)")
# No row tries more.
MOST = 1_000_000


class Row:
    """`random-.. SEED COUNT` and more words. `under STRING` may stand before it, and `le` or `be` behind its name, as with any call."""

    def __init__(self, call):
        found = ROW.fullmatch(" ".join(call.split()))
        if not found:
            raise Stop("unreadable")
        self.under, self.order, self.data_layout = found["under"] or "", found["order"] or "", found["text"] or "-"
        self.dice, self.count, self.words = Dice(int(found["seed"])), int(found["count"]), Words(found["rest"])
        if self.count > MOST:
            raise Stop("asks count")

    def line(self, name, *words):
        """The line of a call with the same data layout and order of bytes."""
        return f"{self.under}{name} {self.order}{' '.join(map(str, words))}"


def asked(*lists):
    """Asks these lists of lines in one round, and returns the answers, list by list."""
    answers = iter((yield [line for lines in lists for line in lines]))
    return [[next(answers) for _ in lines] for lines in lists]


class Tally:
    """How many were found to be what. The first that is wrong is told on standard error."""

    def __init__(self, *verdicts):
        self.counts = dict.fromkeys([*verdicts, "wrong"], 0)

    def count(self, verdict, line, answer):
        if verdict == "wrong" and not self.counts["wrong"]:
            print(f"wrong: {line} -> {answer}", file=sys.stderr)
        self.counts[verdict] += 1

    def __str__(self):
        return " ".join(f"{verdict} {count}" for verdict, count in self.counts.items())
