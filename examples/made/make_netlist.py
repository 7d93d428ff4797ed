#!/usr/bin/env python3
"""Writes a hierarchical netlist as synthesis writes it, over the cells of cells.lib: lanes of registers and adders with
buses, part selects, concatenations, assigns, constants and escaped names.

Usage: make_netlist.py CELLS [WIDTH] > chip.v

CELLS is about how many cell instances the whole has (10 or more), WIDTH how many bits a lane has (2 to 64, 16 where it
is not given). The same arguments give the same bytes. `lpinsert` reads it with ../first/block.upf.
"""
import sys


def adder(width):
    """A ripple adder of NAND2 and XOR2, with an instance and a net for each bit as a flattened array leaves them."""
    last = width - 1
    lines = [f"module adder (input [{last}:0] a, b, input ci, output [{last}:0] s, output co);"]
    lines += [f"  wire [{width}:0] c;", "  assign c[0] = ci;", f"  assign co = c[{width}];"]
    for i in range(width):
        half, gen, hold = f"\\bit[{i}].half ", f"\\bit[{i}].gen ", f"\\bit[{i}].hold "
        lines += [
            f"  wire {half}, {gen}, {hold};",
            f"  XOR2 \\bit[{i}].x0 (.A(a[{i}]), .B(b[{i}]), .Y({half}));",
            f"  XOR2 \\bit[{i}].x1 (.A({half}), .B(c[{i}]), .Y(s[{i}]));",
            f"  NAND2 \\bit[{i}].n0 (.A(a[{i}]), .B(b[{i}]), .Y({gen}));",
            f"  NAND2 \\bit[{i}].n1 (.A({half}), .B(c[{i}]), .Y({hold}));",
            f"  NAND2 \\bit[{i}].n2 (.A({gen}), .B({hold}), .Y(c[{i + 1}]));",
        ]
    return lines + ["endmodule", ""]


def register(width):
    """A bank of registers with old-style port declarations."""
    lines = ["module register (d, q, clk);", f"  input [{width - 1}:0] d;", "  input clk;", f"  output [{width - 1}:0] q;"]
    lines += [f"  DFF \\q_reg[{i}] (.CK(clk), .D(d[{i}]), .Q(q[{i}]));" for i in range(width)]
    return lines + ["endmodule", ""]


def lane(width):
    """One lane: a register, and an adder of it and the input rotated by one, with a constant carry."""
    last = width - 1
    return [
        f"module lane (input clk, input [{last}:0] in, output [{last}:0] out, output carry);",
        f"  wire [{last}:0] held, sum;",
        "  wire carry_n;",
        "  register r (.d(in), .q(held), .clk(clk));",
        f"  adder u (.a(held), .b({{in[0], in[{last}:1]}}), .ci(1'b0), .s(sum), .co(carry_n));",
        "  INV i (.A(carry_n), .Y(carry));",
        "  assign out = sum;",
        "endmodule",
        "",
    ]


def top(width, lanes):
    """The lanes behind one another, the first with a constant at half of its input."""
    last, half = width - 1, width // 2
    lines = [f"module chip (input clk, input [{last}:0] in, output [{last}:0] out, output [{lanes - 1}:0] carry);"]
    lines += [f"  wire [{last}:0] bus_{k};" for k in range(lanes + 1)]
    lines += [f"  assign bus_0 = {{in[{last}:{half}], {half}'b0}};"]
    lines += [f"  lane \\lanes[{k}]/u (.clk(clk), .in(bus_{k}), .out(bus_{k + 1}), .carry(carry[{k}]));" for k in range(lanes)]
    return lines + [f"  assign out = bus_{lanes};", "endmodule"]


def main():
    if not 2 <= len(sys.argv) <= 3:
        sys.exit(__doc__)
    cells = int(sys.argv[1])
    width = int(sys.argv[2]) if len(sys.argv) == 3 else 16
    if cells < 10 or not 2 <= width <= 64:
        sys.exit(__doc__)
    lanes = max(1, cells // (6 * width + 1))
    print("\n".join(adder(width) + register(width) + lane(width) + top(width, lanes)))


main()
