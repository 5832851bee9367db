#!/usr/bin/env python3
"""examples/sheet.py LIBRARY PROGRAM [GOAL]: reads a program and a goal, checks the program and runs the goal, through ctypes.

LIBRARY is the shared object that examples/build makes. Prints whether both can be read, the listing of the check and that of the run; of a
refusal its number, its text, the line itself and the meaning in words. Ends with 0 for a pass, 1 for an unjoined overlap, 2 for a refusal.
"""
import ctypes
import os
import sys

ROOM = 32768  # room for every listing, ROKETUMA_ROOM


def load(path):
    """The library's functions, with the types that include/roketuma.h gives them."""
    lib = ctypes.CDLL(os.path.abspath(path))
    text = [ctypes.c_char_p, ctypes.c_size_t]
    lib.roketuma_read.argtypes = text + text
    lib.roketuma_check.argtypes = text + text
    lib.roketuma_run.argtypes = text + text + text
    for function in (lib.roketuma_read, lib.roketuma_check, lib.roketuma_run):
        function.restype = ctypes.c_uint64
    lib.roketuma_said.argtypes = [ctypes.c_uint]
    lib.roketuma_said.restype = ctypes.c_char_p
    return lib


def refusal(lib, r, program, goal):
    """A refusal for people: number, text, line, the line's bytes and the words."""
    number, text, line = r >> 32, chr(r >> 16 & 0xFF), r & 0xFFFF
    words = lib.roketuma_said(number).decode()
    lines = (program if text == "S" else goal).split(b"\n")
    where = f", line {line}: {lines[line - 1].decode('ascii', 'replace')}" if 0 < line <= len(lines) else ""
    return f"refused, number {number} in the {'program' if text == 'S' else 'goal'}{where}\n  {words}"


def main():
    if len(sys.argv) not in (3, 4):
        sys.exit(__doc__)
    lib = load(sys.argv[1])
    program = open(sys.argv[2], "rb").read()
    goal = open(sys.argv[3], "rb").read() if len(sys.argv) == 4 else b""
    r = lib.roketuma_read(program, len(program), goal, len(goal))
    if r:
        print(refusal(lib, r, program, goal))
        return 2
    print("both texts can be read")
    output = ctypes.create_string_buffer(ROOM)
    checked = lib.roketuma_check(program, len(program), output, ROOM)
    print("the check:", "passed" if checked >> 31 == 0 else "not confluent")
    print(output.raw[: checked & 0x7FFFFFFF].decode(), end="")
    ran = lib.roketuma_run(program, len(program), goal, len(goal), output, ROOM)
    print("the run:")
    print(output.raw[: ran & 0x7FFFFFFF].decode(), end="")
    return checked >> 31


if __name__ == "__main__":
    sys.exit(main())
