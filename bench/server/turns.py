#!/usr/bin/env python3
"""How long others wait while a design is revised: turns.py ADDRESS.

The server serves the design that turns.py --design prints, 64 instances of 16 items of 256 bins. One connection asks for the
coverage of an item again and again; another has the design revised to a text that differs in a name, ten times. Printed are the
longest round trip of the first without a revision and the longest beside one, the middle one of the ten, and how long the
revision itself took, in milliseconds."""
import os
import sys
import threading
import time

HERE = os.path.dirname(os.path.abspath(__file__))
sys.path.insert(0, os.path.join(HERE, "..", "..", "hooks"))
from covclient import Client  # noqa: E402


def design(name):
    items = "".join(f"  {name}{item}: coverpoint v {{ bins b[] = {{[0:255]}}; }}\n" for item in range(15))
    instances = "".join(f"g i{number} = new;\n" for number in range(64))
    return f"bit [7:0] v;\ncovergroup g;\n  p: coverpoint v {{ bins b[] = {{[0:255]}}; }}\n{items}endgroup\n{instances}"


def longest(address, ends):
    """The longest round trip of a question until the event, in seconds."""
    most = 0.0
    with Client(address) as covd:
        while not ends.is_set():
            begun = time.perf_counter()
            covd.coverage("g/i0/p")
            most = max(most, time.perf_counter() - begun)
    return most


def beside(address, action):
    """The longest round trip beside an action, and how long the action took, in milliseconds."""
    ends, told = threading.Event(), []
    asker = threading.Thread(target=lambda: told.append(longest(address, ends)))
    asker.start()
    time.sleep(0.2)
    begun = time.perf_counter()
    action()
    took = time.perf_counter() - begun
    ends.set()
    asker.join()
    return told[0] * 1000, took * 1000


def main():
    if sys.argv[1] == "--design":
        print(design("a"), end="")
        return
    address = sys.argv[1]
    quiet, _ = beside(address, lambda: time.sleep(1))
    seen = []
    with Client(address) as covd:
        for number in range(10):
            text = design("ba"[number % 2]).encode()
            seen.append(beside(address, lambda: covd.revise(text)))
    waits, tooks = (sorted(it[part] for it in seen)[5] for part in (0, 1))
    print(f"revision of 262,144 bins: a question waits {waits:.0f} ms at most, without one {quiet:.1f} ms; it takes {tooks:.0f} ms")


main()
