#!/usr/bin/env python3
"""closes.py BOOKS: a journal of Closes at their heaviest. Each book has 64 obligations, late from the first day to the
last, and on each of its five buy-in days 64 offers, one for each obligation."""
import sys

members = 32
for book in range(int(sys.argv[1])):
    print("open 2 0 0")
    print("rate 2 10")
    for n in range(64):
        seller, buyer = n % members, (n + 1 + n // members) % members
        print(f"enter {seller} {buyer} 0 100000 {1000000 + n} 2")
        print(f"enter {buyer} {seller} 1 100000 {1000000 + n} 2")
    for age in range(36):
        if 30 < age:
            for n in range(64):
                print(f"offer {n} {n} {1 + n} {100000 + 37 * n % 101}")
        print("close 100000 1152 0")
    print("status 0")
