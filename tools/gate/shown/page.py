"""The page that `lrshow` writes, read as a browser reads it.

Whatever the names of the grammar are, a page has two scripts, loads nothing, and holds its data.
"""
import html.parser

from gate.shown.data import expect, read

# The elements that do something, with their attributes, in their order; and all that a page has.
ACTIVE = [("style", {}), ("script", {"id": "data", "type": "application/json"}), ("script", {})]
TAGS = {*"html head meta title style body header h1 h2 p form label input ol kbd main noscript section script".split()}
# Attributes that load something, or run it.
LOADING = {*"src href srcset action data style background formaction poster".split()}
POLICY = "default-src 'none'"


class Reader(html.parser.HTMLParser):
    """Keeps the elements, and the texts of styles and scripts."""

    def __init__(self, text):
        super().__init__()
        self.elements, self.texts, self.inside = [], [], None
        self.feed(text)
        self.close()

    def handle_starttag(self, tag, attrs):
        self.elements.append((tag, dict(attrs)))
        if tag in ("script", "style"):
            self.texts.append("")
            self.inside = tag

    def handle_endtag(self, tag):
        self.inside = None if tag == self.inside else self.inside

    def handle_data(self, data):
        if self.inside:
            self.texts[-1] += data


def held(text):
    """The text of the data that a page holds, after the check of its elements."""
    reader = Reader(text)
    active = [it for it in reader.elements if it[0] in ("script", "style")]
    expect(active == ACTIVE, f"the page has {active}")
    others = sorted({tag for tag, _ in reader.elements} - TAGS)
    expect(not others, f"the page has elements {others}")
    for tag, attributes in reader.elements:
        loads = [it for it in attributes if it in LOADING or it.startswith("on")]
        expect(not loads, f"{tag} has {loads}")
    metas = [it.get("content", "") for tag, it in reader.elements if tag == "meta"]
    expect(any(it.startswith(POLICY) for it in metas), "the page may load")
    data = reader.texts[1]
    expect("<" not in data and text.count(data) == 1, "the data have a sign that may end them")
    return data


def check(text, data):
    expect(read(held(text).encode()) == data, "the page holds other data")
