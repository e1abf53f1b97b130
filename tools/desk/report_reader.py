"""Follows the tags of a page, for the test of reports."""

import html.parser
import re

OUTSIDE = ("src", "href", "xlink:href", "action")  # attributes of a tag that would take something from outside
VOID = ("meta", "br", "link", "img", "input", "hr")
TAGS = {*"html head meta title style body h1 h2 p table thead tbody tr th td br span div pre script code a".split()}
TAGS |= {*"details summary b svg g polygon polyline path text ellipse a".split()}


class Reader(html.parser.HTMLParser):
    """Follows the tags of a page: which are open, what comes from outside, the headings, and the words of the picture."""

    def __init__(self) -> None:
        super().__init__()
        self.open, self.wrong, self.heads, self.drawn = [], [], [], ""

    def handle_starttag(self, tag: str, attributes: list) -> None:
        if tag not in VOID:
            self.open.append(tag)
        self.wrong += [f"{tag} has {name}" for name, to in attributes if name in OUTSIDE and to[:1] != "#"]
        self.wrong += [f"{tag} has no name among the tags"] if tag not in TAGS else []

    def handle_startendtag(self, tag: str, attributes: list) -> None:
        self.handle_starttag(tag, attributes)
        self.handle_endtag(tag)

    def handle_endtag(self, tag: str) -> None:
        if tag in VOID:
            return
        if not self.open or self.open.pop() != tag:
            self.wrong.append(f"</{tag}> closes what isn't open")

    def handle_data(self, text: str) -> None:
        if self.open[-1:] == ["h2"]:
            self.heads.append(text)
        if self.open[-1:] == ["text"]:
            self.drawn += text + " "
        if self.open[-1:] == ["style"] and re.search(r"url\(|@import", text):
            self.wrong.append("the style takes something from outside")
