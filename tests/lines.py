#!/usr/bin/env python3
"""Prints the crates' sources without comments, each line behind its place: tests/lines.py WHAT [ROOT]

WHAT is antt, definitions and proofs; contracts, what the clauses of Rattle say; or code, the rest of Rattle's text, without
what its strings hold.
"""
import os
import pathlib
import sys

sys.dont_write_bytecode = True
import sources  # noqa: E402

READ = {
    "antt": (".antt", sources.plain_lines),
    "contracts": (".rt", lambda text: sources.contracts_of(text).split("\n")),
    "code": (".rt", lambda text: sources.code_of(text).split("\n")),
}


def main():
    ending, read = READ[sys.argv[1]]
    root = pathlib.Path(sys.argv[2] if len(sys.argv) > 2 else pathlib.Path(__file__).parent.parent)
    for folder, folders, names in os.walk(root / "crates"):
        folders[:] = sorted(name for name in folders if name != "out")
        for path in sorted(pathlib.Path(folder, name) for name in names if name.endswith(ending)):
            for number, line in enumerate(read(path.read_text(encoding="utf-8")), 1):
                if line.strip():
                    print(f"{path.relative_to(root)}:{number}: {line}")


main()
