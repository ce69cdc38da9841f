"""The words of a text, one after another."""
import re


class Stop(Exception):
    """Why a row has no tally: what is answered instead."""


def listed(items):
    """These between parentheses."""
    return " ".join(["(", *map(str, items), ")"])


class Words:
    def __init__(self, text):
        self.words, self.at = re.findall(r"[()]|[^ ()]+", text), 0

    def takes(self, *words):
        """Whether the next word is one of these, which is read then."""
        is_next = self.at < len(self.words) and self.words[self.at] in words
        self.at += is_next
        return is_next

    def word(self):
        if self.at == len(self.words):
            raise Stop("unreadable")
        self.at += 1
        return self.words[self.at - 1]

    def number(self):
        word = self.word()
        if not word.isdecimal():
            raise Stop("unreadable")
        return int(word)

    def list(self, read):
        """What stands between the parentheses that are next, each read by this."""
        if not self.takes("("):
            raise Stop("unreadable")
        items = []
        while not self.takes(")"):
            items.append(read(self))
        return items

    def end(self):
        """No word may be left."""
        if self.at < len(self.words):
            raise Stop("unreadable")

    def since(self, first):
        """The text of the words that were read from this place on."""
        return " ".join(self.words[first : self.at])
