"""Plain readings of the rules of docs/RULES.md, with which the answers of ./calls are compared for types at random: a row `random-..` of
cases/calls/ is answered by one of them (docs/FORMATS.md, "At random"), by lines that ./calls answers. No reading takes what it expects
from the call that it judges."""
