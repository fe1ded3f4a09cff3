#!/usr/bin/env python3
"""expected.py GUEST: prints the outputs that a guest should have, computed here from what its source says that it does."""

import hashlib
import sys


def row(place, length):
    """A row of the numbers of next_number."""
    numbers = []
    for _ in range(length):
        place = (place * 1664525 + 1013904223) % 2**32
        numbers.append(place >> 8)
    return numbers


def sha256():
    digest = hashlib.sha256(open("sha256/text.txt", "rb").read()).hexdigest()
    return {0: [int(digest[at : at + 8], 16) for at in range(0, 64, 8)]}


def sort():
    words = [number << 8 & 0xFFFFFFFF for number in row(2026, 64)]
    return {0: sorted(words, key=lambda word: word - (word >> 31 << 32))}


def bank():
    accounts, harts, moves = 12, 4, 100
    balances = [1000] * accounts
    for hart in range(harts):
        numbers = row(100 + hart, 3 * moves)
        for a, b, c in zip(numbers[::3], numbers[1::3], numbers[2::3]):
            giver = a % accounts
            balances[giver] -= c % 500
            balances[(giver + 1 + b % (accounts - 1)) % accounts] += c % 500
    return {0: [1000 * accounts] * 4 + balances, **{hart: [moves] for hart in range(1, harts)}}


def ring():
    outputs, word = {hart: [] for hart in range(8)}, 1
    for turn in range(24):
        word = word * 3 + turn % 8
        outputs[turn % 8].append(word)
    return outputs


def matrix():
    size = 16
    left, right = ([n % 2001 - 1000 for n in row(place, size * size)] for place in (7, 11))
    sums = [sum(right[at * size + column] for column in range(size)) for at in range(size)]
    rows = [sum(left[line * size + at] * sums[at] for at in range(size)) for line in range(size)]
    return {hart: rows[hart::4] for hart in range(4)}


def shares():
    sums = {hart: sum(row(300 + hart, 1024)) % 2**32 for hart in range(32)}
    return {0: [sums[0], sum(sums.values()) % 2**32], **{hart: [sums[hart]] for hart in range(1, 32)}}


def table():
    numbers, others = ([n % 5000 for n in row(place, 4000)] for place in (5, 6))
    there = set(numbers)
    return {0: [len(there), sum(n in there for n in others), sum(there)]}


def service():
    book, answers = {}, []
    for line in open("service/script", encoding="ascii"):
        if line.split()[2] != "word":
            break
        word = bytes.fromhex(line.split()[3])
        asked, seat, client = word[0], word[1], int.from_bytes(word[2:], "big")
        if asked not in (1, 2, 3) or seat >= 40 or client == 0:
            answers.append(0xE0 << 24 | seat << 16 | client)
            continue
        holder = book.get(seat, 0)
        if asked == 1 and holder == 0:
            book[seat] = client
        if asked == 2 and holder == client:
            book[seat] = 0
        done = asked == 3 or holder == client or (asked == 1 and holder == 0)
        answers.append((0xA0 if done else 0xB0) << 24 | seat << 16 | book.get(seat, 0))
    return {0: [*answers, 0xCC000000 | sum(holder != 0 for holder in book.values())]}


GUESTS = {"sha256": sha256, "sort": sort, "table": table, "bank": bank, "ring": ring, "matrix": matrix, "shares": shares, "service": service}

for hart, words in sorted(GUESTS[sys.argv[1]]().items()):
    for number, word in enumerate(words):
        print(f"hart {hart} out {number} word {word % 2**32:08x}")
