#!/usr/bin/env python3
"""Writes the output that crates/sheet_cases must give: the quorum sheet's answers to its inputs, one after the other.

It follows the scope document's section on the quorum row, and shares nothing with the program but the list of inputs.
"""

import pathlib

INPUTS = [
    # taken
    b"5\n",
    b"5",
    b"1\nxyz",
    b"1\n\n",
    b"9",
    b"10",
    b"10\n7\n",
    b"5\n\x00\xff garbage",
    b"64\n",
    b"64",
    b"64\n65",
    # refused
    b"",
    b"\n5\n",
    b"\r\n",
    b"0\n",
    b"05\n",
    b"65\n",
    b"99",
    b"100\n",
    b"11111111111111111111111111111111111111111111111111",
    b"+5\n",
    b"-5\n",
    b" 5\n",
    b"5 \n",
    b"5\t\n",
    b"6 4\n",
    b"5\r\n",
    b"12\r\n",
    b"\x00",
    b"5\x00\n",
    b"1a\n",
    b"a\n",
]

HEADER = "replicas,majority,epaxos,fast"
REFUSAL = "refused,1"


def quorums(n):
    majority = n // 2 + 1
    return [majority, max((3 * n - 1) // 4, majority), max((3 * n - 1) // 4 + 1, majority)]


def lines(data):
    first = data.split(b"\n")[0]
    for count in range(1, 65):
        if first == str(count).encode("ascii"):
            return [HEADER] + [",".join(map(str, [n] + quorums(n))) for n in range(1, count + 1)]
    return [REFUSAL]


def main():
    target = pathlib.Path(__file__).resolve().parent.parent / "crates" / "sheet_cases" / "stdout"
    target.write_bytes(b"".join(line.encode("ascii") + b"\r\n" for data in INPUTS for line in lines(data)))


if __name__ == "__main__":
    main()
