"""Pages of HTML, read by Python's own parser: their elements, tables, texts and pictures, and that they need nothing from outside."""
import base64
import hashlib
import html.parser
import math
import re

VOID = "meta",
ELEMENTS = {
    "body", "button", "caption", "code", "div", "footer", "g", "h1", "h2", "head", "html", "li", "main", "meta", "p", "path", "rect",
    "script", "section", "strong", "style", "svg", "table", "tbody", "td", "th", "thead", "title", "tr", "ul",
}
ATTRIBUTES = {
    "aria-hidden", "aria-label", "aria-sort", "charset", "class", "content", "d", "data-key", "height", "http-equiv", "lang", "name",
    "preserveaspectratio", "role", "scope", "tabindex", "type", "viewbox", "width", "x", "y",
}


class Element:
    """An element with what stands in it: elements and texts."""

    def __init__(self, name, attributes):
        self.name, self.attributes, self.parts = name, attributes, []

    def text(self):
        """All text in it."""
        return "".join(part if isinstance(part, str) else part.text() for part in self.parts)

    def all(self, name):
        """The elements of a name in it, in their order."""
        below = [part for part in self.parts if not isinstance(part, str)]
        return [found for part in below for found in [part] * (name in (part.name, "*")) + part.all(name)]


class Page(html.parser.HTMLParser):
    """A page that was read."""

    def __init__(self, held):
        super().__init__(convert_charrefs=True)
        self.held, self.wrong = held, []
        self.root = Element("", {})
        self.open = [self.root]
        self.feed(held)
        self.close()
        self.wrong += [f"{each.name} is left open" for each in self.open[1:]]

    def handle_starttag(self, tag, attrs):
        made = Element(tag, dict(attrs))
        self.wrong += [f"{tag} has an attribute twice"] * (len(made.attributes) < len(attrs))
        self.open[-1].parts.append(made)
        self.open += [made] * (tag not in VOID)

    def handle_endtag(self, tag):
        if self.open[-1].name == tag:
            self.open.pop()
        else:
            self.wrong.append(f"{tag} ends {self.open[-1].name}")

    def handle_data(self, data):
        self.open[-1].parts.append(data)

    def handle_comment(self, data):
        self.wrong.append(f"a comment: {data}")

    def all(self, name):
        """All elements of a name."""
        return self.root.all(name)

    def section(self, title):
        """The section of a heading; None if there is none."""
        return next((each for each in self.all("section") if each.all("h2")[0].text() == title), None)

    def rows(self, title):
        """The texts of the rows of a section's table."""
        found = self.section(title)
        return [[cell.text() for cell in row.parts if not isinstance(cell, str)] for body in found.all("tbody") for row in body.all("tr")]

    def columns(self):
        """How many cells a row of the picture has."""
        return round(float(self.flash().attributes["viewbox"].split()[2]))

    def flash(self):
        """The picture."""
        return next(each for each in self.all("svg") if each.attributes["class"] == "flash")

    def drawn(self, name):
        """The blocks on which something of a class is drawn, with the title of each."""
        found, columns = {}, self.columns()
        for path in self.flash().all("path"):
            if path.attributes["class"] == name:
                found.update(dict.fromkeys(cells(path.attributes["d"], columns), path.text()))
        return found


def cells(outline, columns):
    """The numbers of the cells on which rectangles of an outline stand."""
    found = []
    for x, y, width, height in re.findall(r"M([\d.]+) ([\d.]+)h([\d.]+)v([\d.]+)h", outline):
        left, top = int(float(x)), int(float(y))
        right, foot = math.ceil(float(x) + float(width)), math.ceil(float(y) + float(height))
        found += [row * columns + column for row in range(top, foot) for column in range(left, right)]
    return found


def digest(text):
    """What a policy says of a text."""
    return f"'sha256-{base64.b64encode(hashlib.sha256(text.encode()).digest()).decode()}'"


def is_plain(counts, what, page):
    """A page is well formed, needs nothing from outside, may do nothing but sort, and can be read without looking at it."""
    counts.check(f"{what}: well formed", not page.wrong and page.held.startswith("<!DOCTYPE html>\n<html lang=\"en\">"), page.wrong[:3])
    elements = page.all("*")
    counts.check(f"{what}: elements", {each.name for each in elements} <= ELEMENTS, {each.name for each in elements} - ELEMENTS)
    attributes = {name for each in elements for name in each.attributes}
    counts.check(f"{what}: attributes", attributes <= ATTRIBUTES, attributes - ATTRIBUTES)
    styles, scripts = page.all("style"), page.all("script")
    counts.check(f"{what}: one style and one script", (len(styles), len(scripts)) == (1, 1))
    style, script = styles[0].text(), scripts[0].text()
    wanted = f"default-src 'none'; style-src {digest(style)}; script-src {digest(script)}; base-uri 'none'; form-action 'none'"
    policies = [each.attributes["content"] for each in page.all("meta") if each.attributes.get("http-equiv") == "Content-Security-Policy"]
    counts.check(f"{what}: policy", policies == [wanted], policies)
    counts.check(f"{what}: style and script", not re.search(r"url\(|@import|fetch|import|http|eval|innerHTML", style + script))
    odd = [each for each in page.held if not each.isprintable() and each != "\n"]
    counts.check(f"{what}: characters", not odd, odd[:3])
    can_be_read(counts, what, page)


def can_be_read(counts, what, page):
    """Tables have heads, captions and a region, what sorts is a button, and pictures have a text."""
    heads = page.all("th")
    counts.check(f"{what}: scopes", all(each.attributes.get("scope") in ("col", "row") for each in heads))
    tables = page.all("table")
    counts.check(f"{what}: captions", all(len(each.all("caption")) == 1 for each in tables))
    for each in tables:
        many = len(each.all("thead")[0].all("th"))
        rows = [len(row.all("th") + row.all("td")) for row in each.all("tbody")[0].all("tr")]
        counts.check(f"{what}: complete rows", {*rows} <= {many}, (many, rows))
    regions = [each for each in page.all("div") if each.attributes.get("role") == "region"]
    counts.check(f"{what}: regions", len(regions) == len(tables) and all(each.attributes["aria-label"] for each in regions))
    pictures = page.all("svg")
    is_told = [each.attributes.get("aria-hidden") == "true" or each.attributes.get("role") == "img" and each.attributes["aria-label"]
               for each in pictures]
    counts.check(f"{what}: pictures have a text", all(is_told))
    counts.check(f"{what}: title", [each.text() for each in page.all("head")[0].all("title")] != [""])
