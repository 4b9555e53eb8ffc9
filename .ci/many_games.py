#!/usr/bin/env python3
"""Writes an archive of 10,000 games to standard output: 49 openings of two plies in ten ways to write them, the first half of the
games in UTF-8 and the second in Windows-1252."""

import sys

FIRST = ["9-13", "9-14", "10-14", "10-15", "11-15", "11-16", "12-16"]
SECOND = ["21-17", "22-17", "22-18", "23-18", "23-19", "24-19", "24-20"]
DASH = "\u2013"


def with_dash(move, dash):
    return move.replace("-", dash)


WAYS = [
    lambda a, b: f"1. {a} {b} *",
    lambda a, b: f"1. {with_dash(a, DASH)} {with_dash(b, DASH)} *",
    lambda a, b: f"1) {with_dash(a, ' - ')} {with_dash(b, ' - ')} *",
    lambda a, b: f"1. {a} {{the {{usual}} move}} {b} Drawn",
    lambda a, b: f"1.\u00a0{a}\u00a0{b} \u00bd-\u00bd",
    lambda a, b: f"1. {a}! {b}?! $5 1/2",
    lambda a, b: f"1. {a} (9-14 {{or}} 22-18) {b} 1{DASH}0",
    lambda a, b: f"{a} {b} 0-1",
    lambda a, b: f"1. {a} ; a line\n{b} *",
    lambda a, b: f"1. {a} 1... {b} *",
]


def game(number):
    tags = f'[Event "Z\u00fcrich {number}"]\n[Black "A"]\n[White "B"]\n'
    moves = WAYS[number % len(WAYS)](FIRST[number % 7], SECOND[number // 7 % 7])
    return f"{tags}{moves}\n\n"


def main():
    for number in range(10000):
        sys.stdout.buffer.write(game(number).encode("utf-8" if number < 5000 else "cp1252"))


if __name__ == "__main__":
    main()
