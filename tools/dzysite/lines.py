"""The lines and words of a text, and words as a message quotes them."""
import re

from .kinds import Faults

LINE_END = re.compile(r"\r\n|\n|\r")
WORD = re.compile(r"[<=]|[^ \t\r\n<=]+")

# Characters that some editors take for the end of a line: a comment must not hide what follows them.
OTHER_ENDS = re.compile("[\v\f\x1c-\x1e\x85\u2028\u2029]")


def lines_of(text):
    """The words of each line that has any, with the line's number. A comment runs from # to the line's end: LF, CR LF or CR."""
    for number, line in enumerate(LINE_END.split(text), 1):
        words = WORD.findall(line.split("#", 1)[0])
        if words:
            yield number, words


def text_of(data, file):
    """The text of a file's bytes."""
    try:
        text = data.decode("utf-8")
    except UnicodeDecodeError as error:
        line = data[: error.start].count(b"\n") + 1
        raise Faults([f"{file}:{line}: expected UTF-8 text, found the byte {data[error.start]:02X}"]) from None
    other = OTHER_ENDS.search(text)
    if other:
        line = len(LINE_END.findall(text[: other.start()])) + 1
        raise Faults([f"{file}:{line}: expected lines ended by LF, CR LF or CR, found the character U+{ord(other[0]):04X}"])
    return text[1:] if text.startswith("\ufeff") else text


def shown(word):
    """A word as it is quoted in a message, printable and short."""
    text = "".join(c if c.isprintable() else "?" for c in word)
    return f"'{text[:40]}...'" if len(text) > 40 else f"'{text}'"


END = "the end of the line"


def found(words):
    """What stands where something else was expected."""
    return shown(" ".join(words)) if words else END
