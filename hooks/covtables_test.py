#!/usr/bin/env python3
"""Tests of covtables.py: the tables of crates/covd_rows/data/fifo.sv and calls.sv, by hand; what is written of them announces
what the records beside them have. Compilers that aren't there are left out with a line."""

import os
import shutil
import subprocess
import sys
import tempfile

HERE = os.path.dirname(os.path.abspath(__file__))
DATA = os.path.join(HERE, "..", "crates", "covd_rows", "data")
sys.path.insert(0, HERE)
sys.dont_write_bytecode = True
import covtables  # noqa: E402

FIFO = "signal 0 1 0 push\nsignal 1 1 0 pop\nsignal 2 1 0 clk\nsignal 3 3 0 level\ninstance 0 fifo_cg fifo\n"
CALLS = "instance 0 burst_cg bursts\nargument 0 0 4 unsigned beats\nargument 0 1 1 unsigned failed\n"


def same(got, wanted, what):
    if got != wanted:
        sys.exit(f"covtables_test: {what}: got {got!r}, wanted {wanted!r}")


def run(words, folder):
    done = subprocess.run(words, cwd=folder, capture_output=True, text=True, check=False)
    if done.returncode:
        sys.exit(f"covtables_test: {words[0]}: {done.stdout}{done.stderr}")


def tables_end(name):
    """The bytes of a record up to its events, without those that tell of the test."""
    with open(os.path.join(DATA, name), "rb") as file:
        return file.read()


def in_python(text):
    names = {}
    exec(covtables.python_text(covtables.read(text), ""), names)  # pylint: disable=exec-used
    return names


def test_python():
    names = in_python(FIFO)
    same((names["SIGNALS"]["level"], names["INSTANCES"]), (3, {"fifo": 0}), "the numbers")
    wanted = tables_end("fifo.rec")
    encoded = names["begin"]("fill_and_drain", seed=7, user="hooks").encoded()
    same(encoded[:-4], wanted[: len(encoded) - 4], "the tables of fifo.rec")
    encoded = in_python(CALLS)["begin"]("four_bursts").encoded()
    same(encoded[:-4], tables_end("calls.rec")[: len(encoded) - 4], "the tables of calls.rec")


C_TEST = """#define COVREC_IMPLEMENTATION
#include "covrec.h"
#include "calls_tables.h"
int main(void) {
    covrec *rec = covrec_begin("four_bursts");
    const uint64_t beats[] = {1, 4, 8, 0};
    int k;
    if (rec == NULL || calls_announce(rec) != 0) return 1;
    for (k = 0; k < 4; k++) {
        if (k == 3) covrec_value_unknown(rec); else covrec_value(rec, beats[k]);
        covrec_value(rec, k == 2);
        covrec_sample(rec, calls_instance_bursts);
    }
    return covrec_end(rec, "calls.rec") == 0 ? 0 : 1;
}
"""


def test_c():
    if not shutil.which("cc"):
        print("covtables: no cc here, C was left out")
        return
    with tempfile.TemporaryDirectory() as folder:
        with open(os.path.join(folder, "calls_tables.h"), "w", encoding="ascii") as file:
            file.write(covtables.c_text(covtables.read(CALLS), "calls"))
        with open(os.path.join(folder, "test.c"), "w", encoding="ascii") as file:
            file.write(C_TEST)
        run(["cc", "-std=c99", "-Wall", "-Wextra", "-Werror", f"-I{HERE}", "-o", "test", "test.c"], folder)
        run([os.path.join(folder, "test")], folder)
        with open(os.path.join(folder, "calls.rec"), "rb") as file:
            same(file.read(), tables_end("calls.rec"), "the record by C")


def test_sv():
    if not shutil.which("verilator"):
        print("covtables: no verilator here, SystemVerilog was left out")
        return
    with tempfile.TemporaryDirectory() as folder:
        with open(os.path.join(folder, "fifo_tables.sv"), "w", encoding="ascii") as file:
            file.write(covtables.sv_text(covtables.read(FIFO), "fifo"))
        with open(os.path.join(folder, "top.sv"), "w", encoding="ascii") as file:
            file.write("module top; initial if (fifo_tables::announce(covrec_pkg::covrec_begin(\"t\")) != 0) $stop; endmodule\n")
        run(["verilator", "--lint-only", os.path.join(HERE, "covrec_pkg.sv"), "fifo_tables.sv", "top.sv", "--top-module", "top"], folder)


def test_refused():
    for text in ("signal 1 1 0 v\n", "signal 0 1 2 v\n", "argument 0 0 1 0 a\n", "signals 4\n", "signal 0 x 0 v\n"):
        try:
            covtables.read(text)
        except covtables.Refused:
            continue
        sys.exit(f"covtables_test: {text!r} wasn't refused")


def main():
    for test in (test_python, test_c, test_sv, test_refused):
        test()
    print("covtables: announces what its tables say")


if __name__ == "__main__":
    main()
