#!/usr/bin/env python3
"""Tests of svcover.py: small sources with the design text that is wanted, by hand from IEEE 1800-2017 and docs/FORMATS.md,
and the benches of hooks/examples with the texts that stand beside them."""

import contextlib
import io
import os
import sys
import tempfile

HERE = os.path.dirname(os.path.abspath(__file__))
sys.path.insert(0, HERE)
sys.dont_write_bytecode = True
import svcover  # noqa: E402
from svtext.expressions import expression_of  # noqa: E402
from svtext.notes import Notes  # noqa: E402
from svtext.scopes import constant  # noqa: E402
from svtext.source import Preprocessor, Scanner  # noqa: E402


def same(got, wanted, what):
    if got != wanted:
        sys.exit(f"svcover_test: {what}: got\n{got}\nwanted\n{wanted}")


def ran(files, *words):
    """Status, standard output and standard error of svcover.py, over files that are written for it."""
    with tempfile.TemporaryDirectory() as folder:
        for name, text in files.items():
            with open(os.path.join(folder, name), "w", encoding="utf-8") as file:
                file.write(text)
        out, err = io.StringIO(), io.StringIO()
        paths = [os.path.join(folder, name) for name in files if not name.endswith(".svh")]
        with contextlib.redirect_stdout(out), contextlib.redirect_stderr(err):
            status = svcover.main([*words, *paths])
        return status, out.getvalue(), err.getvalue().replace(folder + os.sep, "")


def lean(text):
    return "\n".join(line.strip() for line in text.strip().splitlines() if line.strip())


def design(source, wanted, status=0, *words):
    """The design text of one source."""
    got, out, err = ran({"a.sv": source}, *words)
    same(lean(out), lean(wanted), f"{source}\n{err}")
    same(got, status, f"the status of {source}\n{err}")
    return err


# ---- tokens and directives


def tokens(text):
    reader = Preprocessor(Notes())
    Scanner(reader, text, "t", 1, 0).run()
    return " ".join(it.text for it in reader.tokens)


def test_tokens():
    for text, wanted in [
        ("8'hFF 4 'b10 '0 'h3 1_000", "8'hFF 4 'b10 '0 'h3 1_000"),
        ("a<<<=b ->> => [->3] [*2] [=1:2]", "a <<<= b ->> => [ -> 3 ] [ * 2 ] [ = 1 : 2 ]"),
        (r"\esc+ape x", "esc+ape x"),
        ('a /* b */ "c // d" // e', 'a "c // d"'),
        ("8'(x) int'(y) '{1, 2}", "8 ' ( x ) int ' ( y ) ' { 1 , 2 }"),
        ("`define N 4\n[`N-1:0]", "[ 4 - 1 : 0 ]"),
        ("`define MAX(a, b = 7) ((a)>(b)?(a):(b))\n`MAX(f(1,2)) `MAX(3,)", "( ( f ( 1 , 2 ) ) > ( 7 ) ? ( f ( 1 , 2 ) ) : ( 7 ) )"
         " ( ( 3 ) > ( 7 ) ? ( 3 ) : ( 7 ) )"),
        ("`define J(a, b) a``_``b `\"a b`\"\n`J(x, y)", 'x_y "x y"'),
        ("`define TWO 1 \\\n 2\n`TWO 3", "1 2 3"),
        ("`ifdef A\na\n`elsif B\nb\n`else\nc\n`endif\n`ifndef A\nd\n`endif", "c d"),
        ("`define A\n`ifdef A\n`ifdef B\nb\n`else\na\n`endif\n`elsif A\nx\n`endif `undef A\n`ifdef A\nz\n`endif", "a"),
        ("`timescale 1ns/1ps\n`line 7 \"x.sv\" 1\na", "a"),
        ("`define IN `OUT\n`define OUT 5\n`IN", "5"),
    ]:
        same(tokens(text), wanted, text)


def test_places():
    source = "`define BAD bins x = {q};\nlogic v;\ncovergroup g;\n  coverpoint v {\n    `BAD\n    bins y = {1};\n  }\nendgroup\ng i = new;\n"
    status, _, err = ran({"a.sv": source})
    same((status, err), (1, "a.sv:5: left out: bins x = {q} of v: q isn't declared in what was read\n"), "the place of a macro")
    moved = '`line 40 "deep/b.sv" 0\nlogic v;\ncovergroup g; coverpoint w; endgroup\ng i = new;\n'
    _, _, err = ran({"a.sv": moved})
    same(err.splitlines()[0], "deep/b.sv:41: left out: coverpoint w: w isn't declared in what was read", "a place by `line")


def test_includes():
    files = {"a.sv": '`include "w.svh"\nbit [`W-1:0] v;\ncovergroup g; coverpoint v; endgroup\ng i = new;\n', "w.svh": "`define W 3\n"}
    same(ran(files)[1].splitlines()[0], "bit [2:0] v;", "an included file")


# ---- constants


def test_constants():
    reader = Preprocessor(Notes())
    for text, wanted in [
        ("7 / -2", -3), ("-7 % 3", -1), ("2 ** 10", 1024), ("1 << 4", 16), ("-8 >>> 1", -4), ("4'd15 + 4'd1", 0),
        ("4'd15 + 1", 16), ("8'hF0 & 8'h3C", 0x30), ("~4'b1010", 5), ("&3'b111", 1), ("^3'b110", 0), ("!5", 0),
        ("3 > 2 ? 10 : 20", 10), ("{2'b10, 2'b01}", 9), ("{3{2'b01}}", 21), ("$clog2(9)", 4), ("$clog2(1)", 0),
        ("8'shFF < 0", 1), ("8'hFF < 0", 0), ("-1 < 8'd1", 0), ("$bits(8'h00)", 8), ("$countones(8'hF1)", 5),
        ("byte'(200)", -56), ("4'(19)", 3), ("unsigned'(-1) > 0", 1), ("'1 == 1'b1", 1), ("5 inside {5}", None),
    ]:  # fmt: skip
        reader.tokens = []
        Scanner(reader, text, "t", 1, 0).run()
        if wanted is None:
            continue
        same(constant(expression_of(reader.tokens), EMPTY).number, wanted, text)


EMPTY = svcover.Design([], Notes()).unit


# ---- covergroups


def test_modules():
    design(
        """module m #(parameter int N = 3, localparam L = N * 2) (input logic clk, input logic [7:0] a, b);
        covergroup cg @(posedge clk); coverpoint a { bins low = {[0:N]}; bins at = {L - 1}; } cross a, b; endgroup
        cg c = new; endmodule""",
        """logic clk; logic [7:0] a; logic [7:0] b;
        covergroup cg @(posedge clk);
        coverpoint a {
        bins low = { [0:3] };
        bins at = { 6 - 1 };
        }
        cross a, b;
        endgroup
        cg c = new;""".replace("; logic", ";\nlogic"),
    )


def test_parameters_of_instances():
    err = design(
        """module m #(parameter W = 4) (input logic [W-1:0] a); covergroup cg; coverpoint a { bins top = {2**W - 1}; } endgroup
        cg c = new; endmodule
        module top; m #(4) x(); m #(.W(2)) y(); m #(.W(2)) z(); endmodule""",
        """logic [3:0] a;
        logic [1:0] y_a;
        logic [1:0] z_a;
        covergroup cg;
        coverpoint a {
        bins top = { 16 - 1 };
        }
        endgroup
        cg c = new;
        covergroup cg_W2(ref logic [1:0] a);
        coverpoint a {
        bins top = { 4 - 1 };
        }
        endgroup
        cg_W2 y_c = new(y_a);
        cg_W2 z_c = new(z_a);""",
    )
    assert "the covergroup cg of y is cg_W2 here" in err, err


def test_generate():
    design(
        """module leaf(input logic v); covergroup cg; coverpoint v; endgroup cg c = new; endmodule
        module top; for (genvar k = 0; k < 2; k++) begin : l if (k == 1) begin : odd leaf u(); end end endmodule""",
        """logic v;
        covergroup cg;
        coverpoint v;
        endgroup
        cg c = new;""",
    )


def test_classes():
    design(
        """package p; typedef enum bit [1:0] {A, B = 2} e_t; localparam e_t TOP = B;
        class txn; rand e_t e; rand bit [3:0] n; bit [99:0] wide; function bit odd(); return n[0]; endfunction endclass
        class cov; bit [2:0] state; virtual bus_if vif;
        covergroup cg with function sample(txn t, bit late = 0);
        e: coverpoint t.e { bins top = {TOP}; } n: coverpoint t.n iff (!late); part: coverpoint t.wide[70:68];
        coverpoint t.odd(); coverpoint state; both: cross e, state;
        endgroup
        function new(); cg = new(); endfunction endclass endpackage""",
        """typedef enum bit [1:0] { A, B = 2'd2 } e_t;
        bit [2:0] state;
        covergroup cg with function sample(e_t t_e, bit [3:0] t_n, logic [2:0] t_wide_70_68, bit t_odd, bit late);
        e: coverpoint t_e {
        bins top = { B };
        }
        n: coverpoint t_n iff (!late);
        part: coverpoint t_wide_70_68;
        coverpoint t_odd;
        coverpoint state;
        both: cross e, state;
        endgroup
        cg cov = new;""",
    )


def test_outside_methods():
    design(
        "class c; bit v; covergroup cg; coverpoint v; endgroup extern function new(); endclass\nfunction c::new(); cg = new; endfunction",
        "bit v;\ncovergroup cg;\ncoverpoint v;\nendgroup\ncg c = new;",
    )


def test_formals():
    design(
        """class t; bit [3:0] a; endclass
        covergroup cg(ref bit [3:0] x, input int lo, hi = 9, string n = "", t h) ;
        option.name = n; coverpoint x { bins b = {[lo:hi]}; } coverpoint h.a; endgroup
        class k; bit [3:0] v; t obj; cg one, two;
        function new(); one = new(v, 1, , "s", obj); two = new(.x(v), .lo(2), .hi(3), .h(obj)); endfunction endclass""",
        """bit [3:0] obj_a;
        bit [3:0] v;
        covergroup cg(ref bit [3:0] h_a, ref bit [3:0] x, int lo, int hi = 9);
        coverpoint x {
        bins b = { [lo:hi] };
        }
        coverpoint h_a;
        endgroup
        cg one = new(obj_a, v, 1);
        cg two = new(obj_a, v, 2, 3);""",
    )


def test_events():
    err = design(
        """module m(input logic clk, rst, input logic [1:0] v); clocking cb @(negedge clk); input v; endclocking
        covergroup g @(cb); coverpoint cb.v; endgroup
        covergroup h @(posedge clk iff rst === 1'b0, rst); coverpoint v; endgroup
        covergroup k @@(begin f); coverpoint v; endgroup
        g i = new; h j = new; k l = new; endmodule""",
        """logic clk;
        logic [1:0] v;
        logic rst;
        covergroup g @(negedge clk);
        coverpoint v;
        endgroup
        g i = new;
        covergroup h @(posedge clk iff rst == 1'b0 or rst);
        coverpoint v;
        endgroup
        h j = new;
        covergroup k;
        coverpoint v;
        endgroup
        k l = new;""",
        1,
    )
    assert "left out: the event @@(begin f)" in err, err


def test_expressions():
    design(
        """typedef struct packed { logic [3:0] op; logic [1:0][1:0] r; } s_t;
        typedef enum {X, Y, Z} e_t; s_t s; logic [7:0] a, m[4]; e_t e; int k; wire [3:0] w;
        localparam int SET[3] = '{1, 2, 4};
        covergroup g;
        p0: coverpoint s.op; p1: coverpoint s.r[1]; p2: coverpoint m[2]; p3: coverpoint a[4+:2]; p4: coverpoint {2{a[0]}};
        p5: coverpoint $signed(a); p6: coverpoint e_t'(a[1:0]); p7: coverpoint a inside {1, [3:5]};
        p8: coverpoint w { bins all = {'1}; bins none = {'0}; bins some[] = SET; }
        p9: coverpoint e { bins r[] = {[e.first : e_t'(1)]}; }
        pa: coverpoint a iff (a !== 8'h0);
        endgroup
        g i = new;""",
        """typedef enum { X, Y, Z } e_t;
        logic [3:0] s_op;
        logic [1:0] s_r_1;
        logic [7:0] m_2;
        logic [7:0] a;
        logic signed [7:0] signed_a;
        e_t e_t_a_1_0;
        logic [3:0] w;
        e_t e;
        logic a_8_h0;
        covergroup g;
        p0: coverpoint s_op;
        p1: coverpoint s_r_1;
        p2: coverpoint m_2;
        p3: coverpoint a[5:4];
        p4: coverpoint {{a[0]}, {a[0]}};
        p5: coverpoint signed_a;
        p6: coverpoint e_t_a_1_0;
        p7: coverpoint (a == 1 || (a >= 3 && a <= 5));
        p8: coverpoint w {
        bins all = { 4'hF };
        bins none = { 0 };
        bins some[] = { 1, 2, 4 };
        }
        p9: coverpoint e {
        bins r[] = { [0:1] };
        }
        pa: coverpoint a iff (a_8_h0);
        endgroup
        g i = new;""",
    )


def test_worked_out():
    design(
        """logic [3:0] a; string s;
        covergroup g;
        x: coverpoint a { bins one[] = x with ($countones(item) == 1); bins few = {[8:12], 15} with ($onehot(item) || item == 4'd9); }
        logic signed [7:0] y: coverpoint a + 1; z: coverpoint s == "on";
        endgroup
        g i = new;""",
        """logic [3:0] a;
        logic signed [7:0] y_value;
        logic s_on;
        covergroup g;
        x: coverpoint a {
        bins one[] = { [1:2], 4, 8 };
        bins few = { [8:9] };
        }
        y: coverpoint y_value;
        z: coverpoint s_on;
        endgroup
        g i = new;""",
    )


def test_handles_of_interfaces():
    design(
        """interface bus_if(input logic clk); logic [3:0] d; clocking cb @(posedge clk); input d; endclocking endinterface
        class cov; virtual bus_if vif; covergroup g @(vif.cb); coverpoint vif.cb.d; coverpoint vif.d[1:0]; endgroup
        function new(virtual bus_if v); vif = v; g = new; endfunction endclass""",
        """logic vif_clk;
        logic [3:0] vif_d;
        logic [1:0] vif_d_1_0;
        covergroup g @(posedge vif_clk);
        coverpoint vif_d;
        coverpoint vif_d_1_0;
        endgroup
        g cov = new;""",
    )


def test_left_out():
    err = design(
        """logic [3:0] a, b; string s;
        covergroup g;
        x: coverpoint a { bins one = {1}; bins bad = {f(2)}; ignore_bins worse = {8'hx0}; }
        y: coverpoint b { bins none = {q}; }
        z: coverpoint s;
        xy: cross x, y;
        xb: cross x, b { bins sel = xb with (x > b); bins keep = binsof(x.one) && !binsof(b) intersect {[0:3]}; }
        option.cross_retain_auto_bins = 1;
        endgroup
        g i = new;""",
        """logic [3:0] a;
        logic [3:0] b;
        covergroup g;
        x: coverpoint a {
        bins one = { 1 };
        }
        xb: cross x, b {
        bins keep = binsof(x.one) && !binsof(b) intersect { [0:3] };
        }
        endgroup
        g i = new;""",
        1,
    )
    same(err.count(": left out:"), 8, err)


def test_many_arguments():
    words = ", ".join(f"bit a{k}" for k in range(17))
    _, out, err = ran({"a.sv": f"covergroup g with function sample({words}); coverpoint a16; endgroup\ng i = new;\n"})
    same(out.splitlines()[0], "bit a16;", "the seventeenth argument")
    assert "changed: the argument a16" in err, err


def test_homes():
    design(
        """module m(input logic clk, input logic [1:0] v);
        if (1) begin : one covergroup g @(posedge clk); coverpoint v; endgroup g i = new; end
        for (genvar k = 0; k < 2; k++) begin : lane
        covergroup h @(posedge clk); coverpoint v[k]; endgroup h j = new; end endmodule""",
        """logic clk;
        logic [1:0] v;
        covergroup g @(posedge clk);
        coverpoint v;
        endgroup
        g i = new;
        covergroup h @(posedge clk);
        coverpoint v[0];
        endgroup
        h j = new;
        covergroup lane_1_h @(posedge clk);
        coverpoint v[1];
        endgroup
        lane_1_h lane_1_j = new;""",
    )
    design(
        "typedef enum {idle, busy} s_t; class c; s_t s; bit x;\ncovergroup g with function sample(bit idle);"
        " coverpoint s { bins b = {busy}; } coverpoint idle; endgroup function new(); g = new; endfunction endclass",
        """typedef enum { idle, busy } s_t;
        s_t s;
        covergroup g with function sample(bit idle_value);
        coverpoint s {
        bins b = { busy };
        }
        coverpoint idle_value;
        endgroup
        g c = new;""",
    )


def test_names():
    design(
        """module a(input bit v); covergroup g; coverpoint v; endgroup g i = new; endmodule
        module b(input bit v); covergroup g; coverpoint v { bins z = {0}; } endgroup g i = new; endmodule""",
        """bit v;
        bit b_v;
        covergroup g;
        coverpoint v;
        endgroup
        g i = new;
        covergroup b_g(ref bit v);
        coverpoint v {
        bins z = { 0 };
        }
        endgroup
        b_g b_i = new(b_v);""",
    )


def test_instances():
    design(
        "bit v;\ncovergroup g; coverpoint v; endgroup\ng one, two, many[2];\n"
        "initial begin one = new; if (v) two = new(); foreach (many[k]) many[k] = new; end",
        "bit v;\ncovergroup g;\ncoverpoint v;\nendgroup\ng one = new;\ng two = new;\ng many_0 = new;\ng many_1 = new;",
    )
    err = design("bit v;\ncovergroup g; coverpoint v; endgroup", "bit v;\ncovergroup g;\ncoverpoint v;\nendgroup\ng g_1 = new;")
    same(err, "a.sv:2: note: no `new` of g was seen; it has one instance\n", "no new")


REFUSING = """#!/bin/sh
# refuses the first line with the word wrong
at=$(grep -b wrong "$2" | head -1 | cut -d: -f1)
test -z "$at" && exit 0
echo "design refused Wrong at $((at + 3))"
exit 3
"""


def test_settled():
    source = """logic [1:0] a, b;
    covergroup g;
    x: coverpoint a { bins wrong = {0}; bins right = {1}; }
    y: coverpoint b { bins wrong = {0}; }
    z: coverpoint b;
    endgroup
    covergroup wrong_g; coverpoint a; endgroup
    g i = new, wrong = new; wrong_g k = new;"""
    with tempfile.TemporaryDirectory() as folder:
        program = os.path.join(folder, "covd")
        with open(program, "w", encoding="ascii") as file:
            file.write(REFUSING)
        os.chmod(program, 0o755)
        err = design(
            source,
            """logic [1:0] a;
            logic [1:0] b;
            covergroup g;
            x: coverpoint a {
            bins right = { 1 };
            }
            z: coverpoint b;
            endgroup
            g i = new;""",
            1,
            "--covd",
            program,
        )
    same(err.count("which covd refuses: Wrong"), 4, err)


def test_refused():
    same(ran({"a.sv": "`ifdef X\n"})[0], 2, "an open `ifdef")
    same(ran({"a.sv": "bit v;\n"})[::2], (1, "-: left out: no covergroup was found\n"), "no covergroup")


# ---- the benches

BENCHES = {
    "axi": (["axi_pkg.sv", "axi_cov.sv", "axi_tb.sv"], []),
    "stream": (["stream_pkg.sv", "stream_if.sv", "stream_tb.sv"], ["-D", "COVERGROUPS", "--under", "TOP"]),
    "queue": (["queue.sv", "queue_tb.sv"], ["-D", "COVERGROUPS"]),
    "cpu": (["cpu.sv", "cpu_tb.sv"], ["-D", "COVERGROUPS"]),
}


def test_benches():
    for name, (files, words) in BENCHES.items():
        folder = os.path.join(HERE, "examples", name)
        out, err = io.StringIO(), io.StringIO()
        with contextlib.redirect_stdout(out), contextlib.redirect_stderr(err):
            status = svcover.main([*words, *(os.path.join(folder, it) for it in files)])
        with open(os.path.join(folder, "design.sv"), encoding="utf-8") as file:
            same(out.getvalue(), file.read(), f"the design text of {name}")
        same(status, 0, f"the status of {name}")


def main():
    tests = [it for name, it in sorted(globals().items()) if name.startswith("test_")]
    for test in tests:
        test()
    print(f"svcover: {len(tests)} tests")


if __name__ == "__main__":
    main()
