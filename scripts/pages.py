"""Whether a page of HTML is well-formed, names each type once, and asks for nothing from elsewhere."""
from html.parser import HTMLParser

EMPTY = {"meta", "input"}


class Reading(HTMLParser):
    """What is wrong with a page, as far as it is read, and which sections it has."""

    def __init__(self):
        super().__init__()
        self.open, self.faults, self.ids = [], [], []

    def handle_starttag(self, tag, attrs):
        if tag not in EMPTY:
            self.open.append(tag)
        for name, value in attrs:
            if name == "src" or name == "href" and not value.startswith("#"):
                self.faults.append(f"<{tag}> asks for {value}")
            if name == "id" and tag == "section":
                self.ids.append(value)

    def handle_endtag(self, tag):
        if not self.open or self.open.pop() != tag:
            self.faults.append(f"</{tag}> ends nothing at line {self.getpos()[0]}")


def faults_of_page(text, names):
    """What is wrong with a page of these types."""
    page = Reading()
    page.feed(text)
    page.close()
    faults = page.faults + [f"<{tag}> has no end" for tag in page.open]
    if sorted(page.ids) != sorted(names):
        faults.append(f"the sections are {page.ids}, and the types {names}")
    if "url(" in text or "@import" in text:
        faults.append("its style asks for something")
    return faults
