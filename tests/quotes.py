"""Holds the quotes of docs/TRACE.md to the customer's documents, where their folder stands beside the project.

The page has a section for each of document 01's, with its heading, before them "The three demands", of the order, and after
them "Request N" for each request of document 02 that has landed. The quotes of a section, one after the other, are all the words of the document's section, so that no sentence is left out,
changed or invented, and no cutting into sentences is needed. A row of a table is quoted as it stands, with its bars, and so
is a list's item, with or without its mark. White space and the marks of markdown (backticks, `**`, bars, a list's dash) do
not count; no other section has quotes.
"""
import re

DEMANDS = "The three demands"
FILES = ("00-order.md", "01-scope.md", "02-change-requests.md")

# The requests that have landed, in their order.
LANDED = (2,)


def words_of(text):
    """The words of some markdown, without its marks."""
    text = re.sub(r"(?m)^ *(?:\|[-|: ]+$|- )", "", text)
    return re.sub(r"`|\*\*", "", text).replace("|", " ").split()


def sections_of(text):
    """The words under each heading of the second level; a title has none."""
    parts = re.split(r"(?m)^## (.*)$", re.sub(r"(?m)^# .*$", "", text))
    return {heading.strip(): words_of(words) for heading, words in zip([""] + parts[1::2], parts[0::2])}


def demands_of(order):
    """The words of the order's numbered demands."""
    return words_of("\n".join(re.findall(r"(?m)^> \d+\. (.*)$", order)))


def landed_of(requests):
    """The text of each request that has landed, by its heading on the page."""
    found = {int(number): text for number, text in re.findall(r"(?m)^(\d+)\) (.*)$", requests)}
    return {f"Request {number}": found[number] for number in LANDED}


def texts_of(folder):
    """What binds: the order, document 01, and the requests that have landed."""
    order, scope, requests = ((folder / name).read_text(encoding="utf-8") for name in FILES)
    return order, scope, landed_of(requests)


def due_sections(folder):
    """What each section of the page must quote, and the documents that are missing."""
    missing = [name for name in FILES if not (folder / name).is_file()]
    if missing:
        return {}, missing
    order, scope, landed = texts_of(folder)
    requests = {heading: words_of(text) for heading, text in landed.items()}
    return {**sections_of(scope), DEMANDS: demands_of(order), **requests}, []


def quotes_of(lines):
    """The quotes under each heading of the page: the line of each, and its words."""
    heading, quotes, before = "", {}, False
    for number, line in enumerate(lines, 1):
        if line.startswith("## "):
            heading = line[3:].strip()
        if line.startswith(">"):
            if not before:
                quotes.setdefault(heading, []).append((number, []))
            quotes[heading][-1][1].extend(words_of(line[1:]))
        before = line.startswith(">")
    return quotes


def place_of(words, text, start):
    """Where the words stand in the text, from a place on; nothing if they do not."""
    size = len(words)
    return next((at for at in range(start, len(text) - size + 1) if text[at:at + size] == words), None)


def differences(lines, due):
    """What the page's quotes have that the documents do not, and what they leave out, each with the page's line."""
    quotes = quotes_of(lines)
    for heading in sorted(set(quotes) - set(due)):
        yield quotes[heading][0][0], f"quotes under '{heading}', which is no section of the documents"
    for heading, text in due.items():
        at, line = 0, 1
        for line, words in quotes.get(heading, []):
            here = place_of(words, text, at)
            if here is None:
                yield line, f"not in the documents, or not in this order: {' '.join(words)[:80]}"
                continue
            if here > at:
                yield line, f"left out before it: {' '.join(text[at:here])[:80]}"
            at = here + len(words)
        if at < len(text):
            yield line, f"left out at the end of '{heading}': {' '.join(text[at:])[:80]}"
