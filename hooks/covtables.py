#!/usr/bin/env python3
"""Writes what a hook has to announce as source text, so that nobody types tables: names, widths and signs of the signals, and
the instances with the arguments of their sample functions, in the order of the design.

    covtables.py TABLES --name NAME [--c FILE] [--sv FILE] [--python FILE]

TABLES, or standard input where it is `-`, has a line for each of them, numbered from 0:

    signal N WIDTH SIGN NAME
    instance N GROUP NAME
    argument N K WIDTH SIGN NAME        argument K of the instance N

SIGN is 0 or 1, or `unsigned` or `signed`. `covd tables DESIGN` prints such lines of a design text, and `svcover.py --tables FILE`
writes them for the one that it writes. What is written has the numbers as constants, and a function that announces all of it:

    C               NAME_tables.h: NAME_signal_v, NAME_instance_i, and int NAME_announce(covrec *rec)
    SystemVerilog   package NAME_tables: signal_v, instance_i, and function int announce(chandle rec)
    Python          SIGNALS["v"], INSTANCES["i"], and record = begin("t1", seed=7)
"""

import argparse
import re
import sys
from dataclasses import dataclass, field

SIGNS = {"0": 0, "1": 1, "unsigned": 0, "signed": 1}


@dataclass
class Instance:
    group: str
    name: str
    arguments: list = field(default_factory=list)


@dataclass
class Tables:
    """Signals as triples of width, sign and name; instances in order."""

    signals: list = field(default_factory=list)
    instances: list = field(default_factory=list)


class Refused(Exception):
    """A line that is none of the form, or out of its order."""


def numbered(word, wanted, line):
    if word != str(wanted):
        raise Refused(f"{line}: {wanted} is wanted in place of {word}")


def read(text):
    """The tables that the lines are."""
    found = Tables()
    for line in text.splitlines():
        words = line.split(" ")
        try:
            if words[0] == "signal" and len(words) == 5:
                numbered(words[1], len(found.signals), line)
                found.signals.append((int(words[2]), SIGNS[words[3]], words[4]))
            elif words[0] == "instance" and len(words) == 4:
                numbered(words[1], len(found.instances), line)
                found.instances.append(Instance(words[2], words[3]))
            elif words[0] == "argument" and len(words) == 6:
                own = found.instances[int(words[1])]
                numbered(words[2], len(own.arguments), line)
                own.arguments.append((int(words[3]), SIGNS[words[4]], words[5]))
            else:
                raise Refused(f"{line}: no line of tables")
        except (KeyError, ValueError, IndexError) as error:
            raise Refused(f"{line}: {error}") from error
    return found


def plain(name):
    return re.sub(r"[^A-Za-z0-9_]", "_", name)


def c_text(tables, name):
    lines = [
        f"/* {name}_tables.h: written by covtables.py. Include it behind covrec.h. */",
        f"#ifndef {name.upper()}_TABLES_H",
        f"#define {name.upper()}_TABLES_H",
        "",
    ]
    rows = [(f"{name}_signal_{plain(it)}", k) for k, (_, _, it) in enumerate(tables.signals)]
    rows += [(f"{name}_instance_{plain(it.name)}", k) for k, it in enumerate(tables.instances)]
    if rows:
        lines += ["enum {", *(f"    {word} = {number}," for word, number in rows[:-1]), f"    {rows[-1][0]} = {rows[-1][1]}", "};", ""]
    lines += ["/* Announces all signals and instances. Negative where one is refused. */", f"static int {name}_announce(covrec *rec) {{"]
    lines += [f'    covrec_signal(rec, "{it}", {width}, {sign});' for width, sign, it in tables.signals]
    for k, it in enumerate(tables.instances):
        lines.append(f'    covrec_instance(rec, "{it.name}", "{it.group}");')
        lines += [f"    covrec_argument(rec, {k}, {width}, {sign}); /* {own} */" for width, sign, own in it.arguments]
    return "\n".join([*lines, "    return covrec_error(rec) == NULL ? 0 : -1;", "}", "", "#endif", ""])


def sv_text(tables, name):
    lines = [f"// Written by covtables.py.", f"package {name}_tables;", "  import covrec_pkg::*;", ""]
    lines += [f"  localparam int signal_{plain(it)} = {k};" for k, (_, _, it) in enumerate(tables.signals)]
    lines += [f"  localparam int instance_{plain(it.name)} = {k};" for k, it in enumerate(tables.instances)]
    lines += [
        "",
        "  // Announces all signals and instances: how many were refused.",
        "  function automatic int announce(chandle rec);",
        "    int refused = 0;",
    ]
    lines += [f'    refused += int\'(covrec_signal(rec, "{it}", {width}, {sign}) < 0);' for width, sign, it in tables.signals]
    for k, it in enumerate(tables.instances):
        lines.append(f'    refused += int\'(covrec_instance(rec, "{it.name}", "{it.group}") < 0);')
        lines += [
            f"    refused += int'(covrec_argument(rec, {k}, {width}, {sign}) < 0);  // {own}" for width, sign, own in it.arguments
        ]
    return "\n".join([*lines, "    return refused;", "  endfunction", "endpackage", ""])


def python_text(tables, _name):
    signals = ", ".join(f'"{it}": {k}' for k, (_, _, it) in enumerate(tables.signals))
    instances = ", ".join(f'"{it.name}": {k}' for k, it in enumerate(tables.instances))
    lines = [
        '"""Written by covtables.py."""',
        "",
        "from covrec import Record",
        "",
        f"SIGNALS = {{{signals}}}",
        f"INSTANCES = {{{instances}}}",
        "",
        "",
        "def begin(test_id, **told):",
        '    """The record of a test, with all signals and instances."""',
        "    record = Record(test_id, **told)",
    ]
    lines += [f'    record.signal("{it}", {width}, {bool(sign)})' for width, sign, it in tables.signals]
    for it in tables.instances:
        words = "".join(f"({width}, {bool(sign)}), " for width, sign, _ in it.arguments)
        lines.append(f'    record.instance("{it.name}", "{it.group}", [{words.removesuffix(", ")}])')
    return "\n".join([*lines, "    return record", ""])


def main(words):
    parser = argparse.ArgumentParser(description=__doc__, formatter_class=argparse.RawTextHelpFormatter)
    parser.add_argument("tables")
    parser.add_argument("--name", required=True)
    for word in ("c", "sv", "python"):
        parser.add_argument(f"--{word}")
    words = parser.parse_args(words)
    try:
        if words.tables == "-":
            tables = read(sys.stdin.read())
        else:
            with open(words.tables, encoding="ascii") as file:
                tables = read(file.read())
        for path, text_of in ((words.c, c_text), (words.sv, sv_text), (words.python, python_text)):
            if path:
                with open(path, "w", encoding="ascii") as file:
                    file.write(text_of(tables, words.name))
    except (Refused, OSError, ValueError) as error:
        print(f"covtables: {error}", file=sys.stderr)
        return 1
    return 0


if __name__ == "__main__":
    sys.exit(main(sys.argv[1:]))
