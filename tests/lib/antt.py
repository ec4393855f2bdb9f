"""How tests/names, tests/imports, tests/uncited, tests/twice and tests/stale read the files of the
repository: what their code is, what those of the proof language import, and how what they declare begins."""
import glob
import os
import re
from typing import NamedTuple

ROOT = os.path.dirname(os.path.dirname(os.path.dirname(os.path.realpath(__file__))))
KINDS = ("src/**/*.rt", "specs/**/*.antt", "proofs/**/*.antt")
COMMENTS = {".rt": re.compile(r"//.*"), ".antt": re.compile(r"(?:^|(?<=\s))--.*", re.M)}
IMPORT = re.compile(
    r"^ *(?:(?:ghost|unfoldable) )?(pub )?use ([\w.+-]+?)(?:\.\{([^}]*)\}| as ([\w+-]+))?;?$", re.M
)
MARKS = r"(?:(?:pub|abbrev|unfoldable) )*"  # what may stand before a declaration
NAME = r"([^\W\d][\w'+-]*)"  # one that is declared
WITH_PARTS = re.compile(rf"{MARKS}(?:data|record) {NAME} ")  # it declares fields or constructors below it


class Import(NamedTuple):
    """That of a module, or of names of it: of each how it is called there, and how here."""

    module: str
    alias: str  # the name of the module here, where it is given another
    names: tuple
    handed_on: bool
    line: int


def paths_of(kinds=KINDS, crate="*"):
    """The paths of a crate's files of these kinds, or of those of all crates, from the top."""
    found = (glob.glob(f"crates/{crate}/{kind}", root_dir=ROOT, recursive=True) for kind in kinds)
    return sorted(path for paths in found for path in paths)


def text_of(path):
    """The text of a file."""
    with open(f"{ROOT}/{path}", encoding="utf-8", errors="replace") as file:
        return file.read()


def code_of(path):
    """The text of a file, line by line, without its comments where it is known what these are."""
    comments = COMMENTS.get(os.path.splitext(path)[1])
    return comments.sub("", text_of(path)) if comments else text_of(path)


def module_of(path):
    """The name that imports have for a file."""
    return os.path.splitext(path)[0].replace("crates/", "Rattle/", 1).replace("/", ".")


def imports_of(code):
    """The imports of a file."""
    for found in IMPORT.finditer(code):
        on, module, names, alias = found.groups("")
        parts = [it.strip().partition(" as ") for it in names.split(",") if it.strip()]
        line = code.count("\n", 0, found.start()) + 1
        yield Import(module, alias, tuple((old, new or old) for old, _, new in parts), bool(on), line)


def without_imports(code):
    """The code of a file, line by line, without its imports."""
    return IMPORT.sub(lambda it: "\n" * it[0].count("\n"), code)
