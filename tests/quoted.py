#!/usr/bin/env python3
"""Holds what the sources quote to the customer's documents, where their folder stands beside the project: every text in
quotation marks in a comment of specs/ or src/ is words of the order, of document 01 or of a request that has landed. `..` and `(..)` stand for words left
out; capitals, quotation marks, a mark at the end and the marks of markdown do not count.

    tests/quoted.py [ROOT]
"""
import os
import pathlib
import re
import sys

from quotes import texts_of, words_of

ROOT = pathlib.Path(sys.argv[1]) if len(sys.argv) > 1 else pathlib.Path(__file__).resolve().parent.parent
FOLDER = pathlib.Path(os.environ.get("DOCUMENTS", pathlib.Path(__file__).resolve().parent.parent.parent / "shared"))


def plain(text):
    """The words in lower case, without quotation marks."""
    return re.sub(r"[\"'“”]", "", " ".join(words_of(text))).lower()


def comments_of(text, mark):
    """The comments, lines that follow one another put together, each with its first line's number."""
    found, before = [], 0
    for number, line in enumerate(text.split("\n"), 1):
        if made := re.match(rf"\s*{mark} ?(.*)", line):
            if before == number - 1 and found:
                found[-1][1] += " " + made[1]
            else:
                found.append([number, made[1]])
            before = number
    return found


def main():
    if not FOLDER.is_dir():
        print("the sources' quotes were not held to the documents, which are not beside the project")
        return 0
    order, scope, landed = texts_of(FOLDER)
    said = plain("\n".join(re.sub(r"(?m)^> ?", "", text) for text in (order, scope, *landed.values())))
    quotes, bad = 0, []
    for path in sorted([*ROOT.glob("crates/*/specs/*.antt"), *ROOT.glob("crates/*/src/**/*.rt")]):
        for line, comment in comments_of(path.read_text(encoding="utf-8"), "--" if path.suffix == ".antt" else "//"):
            for quote in re.findall(r'"([^"]+)"', comment):
                quotes += 1
                for piece in re.split(r"\(?\.\.\)?", quote):
                    if plain(piece).strip(" .,;:") not in said:
                        bad.append(f"{path.relative_to(ROOT)}:{line}: not in the documents: {piece.strip()[:80]}")
    print("\n".join(bad + [f"{quotes} quotes in the sources, {len(bad)} that are not the documents' words"]))
    return 1 if bad or quotes < 200 else 0


if __name__ == "__main__":
    sys.exit(main())
