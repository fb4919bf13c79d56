#!/usr/bin/env python3
"""Transfers as a script for `pmempool exec`, and what they leave.

    bench/transfers.py script SEED COUNT LANES   prints the script: the transfers that
                                                 `pmdk_transfers POOL SEED COUNT LANES` makes, each a
                                                 transaction on two counters of the root; lane k
                                                 makes the transfers k, k + LANES and so on
    bench/transfers.py digest COUNT              reads what `pmempool dump` printed of the pool, and
                                                 prints the lines of `pmdk_transfers` but the time
"""
import sys

COUNTERS = 64
WORD = 1 << 64


def drawn(seed, count):
    """The transfers that the seed draws: which counter gains, which loses, and how much."""
    def draw():
        nonlocal seed
        seed = (seed * 6364136223846793005 + 1442695040888963407) % WORD
        return seed >> 33

    for _ in range(count):
        gains = draw() % COUNTERS
        loses = draw() % COUNTERS
        yield gains, loses, 1 + draw() % 1000


def script(seed, count, lanes):
    """The script, lane by lane."""
    shares = [[] for _ in range(lanes)]
    for i, (gains, loses, amount) in enumerate(drawn(seed, count)):
        shares[i % lanes].append(
            f"begin root\nadd root {8 * gains} 8\nadd root {8 * loses} 8\n"
            f"inc root {8 * gains} {amount}\ninc root {8 * loses} {WORD - amount}\ncommit\n")
    for lane, share in enumerate(shares):
        print(f"lane {lane}\n" + "".join(share), end="")


def digest(count):
    """The sum of the counters, and the digest of them that FNV-1a makes."""
    counters = [0] * COUNTERS
    for line in sys.stdin:
        words = line.split()
        if words[0] == "data":
            at, text = int(words[1]), bytes.fromhex(words[2])
            for i in range(0, len(text), 8):
                counters[(at + i) // 8] = int.from_bytes(text[i:i + 8], "little")
    state = 0xCBF29CE484222325
    for counter in counters:
        state = (state ^ counter) * 0x100000001B3 % WORD
    print(f"transfers {count}\ntotal {sum(counters) % WORD}\nstate {state}")


if sys.argv[1:2] == ["script"] and len(sys.argv) == 5:
    script(*map(int, sys.argv[2:]))
elif sys.argv[1:2] == ["digest"] and len(sys.argv) == 3:
    digest(int(sys.argv[2]))
else:
    sys.exit(__doc__)
