#!/usr/bin/env python3
"""Writes a design text of the covergroups that stand in SystemVerilog sources, for `covd`.

    svcover.py [OPTIONS] FILE ..

The files are read one after the other, as they are or as `verilator -E` or `iverilog -E` writes them. Covergroups in
classes, modules, interfaces and packages are found, with the instances of modules and their parameters; what they name is
made into the profile of docs/FORMATS.md, "Design text": parameters are numbers, members are variables or arguments of the
function `sample`, and types are bits. Standard error lists all that was left out or changed, with file and line.

    -o FILE             the design text; standard output where it isn't said
    --dpi FILE          a SystemVerilog package with a function for each instance, to be called where it is sampled
    --package NAME      the name of that package, cov_pkg where it isn't said
    --paths FILE        a line NAME=PATH for each variable that a dump has, for vcdprep.py
    --tables FILE       what a hook has to announce, for covtables.py
    --covd PROGRAM      leaves out what `covd check` refuses of the text, piece by piece, and lists it
    --under SCOPE       the scope in which the dump has the top modules, as TOP of Verilator
    -I DIR              where included files are looked for, beside the file that includes them
    -D NAME[=VALUE]     a macro
    -G NAME=VALUE       a parameter of the top modules
    --top MODULE        the module at the top; where it isn't said, each one that no other makes

Status 0, or 1 where something that counts was left out, or 2 where the words or the files can't be read.
"""

import argparse
import os
import sys

sys.path.insert(0, os.path.dirname(os.path.abspath(__file__)))
from svtext.assembly import Assembly  # noqa: E402
from svtext.book import Book  # noqa: E402
from svtext.declarations import Parser  # noqa: E402
from svtext.dpi import package_text  # noqa: E402
from svtext.hierarchy import Design  # noqa: E402
from svtext.notes import Notes, SourceError  # noqa: E402
from svtext.refusals import settle  # noqa: E402
from svtext.source import Preprocessor, Scanner  # noqa: E402


def tokens_of(text, file, notes):
    reader = Preprocessor(notes)
    Scanner(reader, text, file, 1, 0).run()
    return reader.tokens


def read(words, notes):
    """The book of the design that the files have."""
    reader = Preprocessor(notes, list(words.include))
    for word in words.define:
        reader.define(word)
    for path in words.files:
        reader.read(path)
    overrides = {}
    for word in words.parameter:
        name, _, value = word.partition("=")
        overrides[name] = tokens_of(value, "-G", notes)
    design = Design(Parser(reader.tokens, notes).source(), notes, overrides, words.top)
    return Assembly(design, Book(notes), notes).run()


def paths_text(book, under):
    before = f"{under}." if under else ""
    return "".join(f"{it.name}={before}{it.path}\n" for it in book.signals if it.path)


def tables_text(book):
    """The signals, the instances and their arguments, in the form of covtables.py."""
    lines = [f"signal {k} {it.type.width} {int(it.type.signed)} {it.name}" for k, it in enumerate(book.signals)]
    for k, it in enumerate(book.instances):
        lines.append(f"instance {k} {it.group.name} {it.name}")
        own = it.group.arguments() if it.group.is_sampled else []
        lines += [f"argument {k} {place} {one.type.width} {int(one.type.signed)} {one.name}" for place, one in enumerate(own)]
    return "".join(f"{it}\n" for it in lines)


def write(path, text):
    if path is None:
        sys.stdout.write(text)
        return
    with open(path, "w", encoding="utf-8") as file:
        file.write(text)


def parsed(words):
    parser = argparse.ArgumentParser(prog="svcover.py", description=__doc__, formatter_class=argparse.RawTextHelpFormatter)
    parser.add_argument("-o", dest="output")
    parser.add_argument("--dpi")
    parser.add_argument("--package", default="cov_pkg")
    parser.add_argument("--paths")
    parser.add_argument("--covd")
    parser.add_argument("--tables")
    parser.add_argument("--under", default="")
    parser.add_argument("-I", dest="include", action="append", default=[])
    parser.add_argument("-D", dest="define", action="append", default=[])
    parser.add_argument("-G", dest="parameter", action="append", default=[])
    parser.add_argument("--top", default="")
    parser.add_argument("files", nargs="+")
    return parser.parse_args(words)


def main(words):
    words, notes = parsed(words), Notes()
    try:
        book = read(words, notes)
        if not book.groups:
            notes.left_out(None, "no covergroup was found")
        if words.covd:
            settle(book, words.covd, notes)
        write(words.output, book.text())
        if words.dpi:
            write(words.dpi, package_text(book, words.package, notes))
        if words.paths:
            write(words.paths, paths_text(book, words.under))
        if words.tables:
            write(words.tables, tables_text(book))
    except SourceError as error:
        print(f"{error.place}: {error.why}", file=sys.stderr)
        return 2
    except OSError as error:
        print(f"{error.filename}: {error.strerror}", file=sys.stderr)
        return 2
    finally:
        for note in notes.lines:
            print(note, file=sys.stderr)
    return 1 if notes.counts() else 0


if __name__ == "__main__":
    sys.exit(main(sys.argv[1:]))
