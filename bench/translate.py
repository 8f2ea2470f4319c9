#!/usr/bin/env python3
"""Turns the library's Rattle text into one plain Rust crate: translate.py OUT

The statements stay as they are. Left out: comments, 'ghost use' lines, the clauses 'requires { .. }' and 'ensures { .. }', ghost
fields and what an 'impl Model' says, the attributes 'tactic', and 'prove!', which costs nothing. Each crate becomes a module, so
paths that start at a crate start at that module. Entry points lose their C linkage, which no slice has in Rust."""
import pathlib
import re
import sys

ROOT = pathlib.Path(__file__).resolve().parent.parent
sys.dont_write_bytecode = True
sys.path.insert(0, str(ROOT / "tests"))
import sources  # noqa: E402

FACE = "dzyunagor"


def crates():
    """The library's face and all that it stands on, as crates.txt lists them."""
    lines = (ROOT / "crates.txt").read_text(encoding="utf-8").splitlines()
    sides = [line.partition("#")[0].split(":", 1) for line in lines]
    listed = {side[0].split()[0]: side[1].split() for side in sides if len(side) == 2}
    return listed[FACE] + [FACE]


CRATES = crates()
PATH = re.compile(r"(?<![\w:])(crate|" + "|".join(CRATES) + r")::")
MODEL = re.compile(r"(?m)^impl(?:<[^>]*>)? Model for [^{]*\{\s*\}\n")
BROUGHT = re.compile(r"(?m)^use std::marker::Model;\n")
DERIVE = re.compile(r"#\[derive\(([^)]*)\)\]")


def derived(found):
    """A derive without Rattle's own Drop, which Rust gives every type, and with Debug, which Rust's `unwrap_err` asks for."""
    names = [name.strip() for name in found[1].split(",") if name.strip() not in ("", "Drop")]
    return f"#[derive({', '.join([*names, 'Debug'])})]"


def translated(text, crate):
    body = sources.without_contracts(text) + "\n"
    # a crate's own module goes before a crate of the same name
    own = re.findall(r"^mod (\w+);$", body, flags=re.M)
    body = PATH.sub(lambda found: found[0] if found[1] in own else "crate::" + (crate if found[1] == "crate" else found[1]) + "::", body)
    body = DERIVE.sub(derived, MODEL.sub("", BROUGHT.sub("", body)))
    return body.replace("#[unsafe(no_mangle)]\n", "").replace('pub extern "C" fn', "pub fn")


def main():
    out = pathlib.Path(sys.argv[1])
    for crate in CRATES:
        (out / crate).mkdir(parents=True, exist_ok=True)
        for source in sorted((ROOT / "crates" / crate / "src").glob("*.rt")):
            name = "mod.rs" if source.stem == "lib" else source.stem + ".rs"
            (out / crate / name).write_text(translated(source.read_text(encoding="utf-8"), crate), encoding="utf-8")
    modules = "".join(f"pub mod {crate};\n" for crate in CRATES)
    # what is proved needs no test when it runs
    prove = "macro_rules! prove { ($($condition:tt)*) => {}; }\n"
    (out / "lib.rs").write_text("#![allow(dead_code, unused)]\n" + prove + modules, encoding="utf-8")


main()
