"""Writes a plant with so many events, locations and edges, in each of whose scans all edges can be tested and taken.

    python3 tools/large_plant.py [EDGES] > plant.cif

EDGES is 1000 where it is left out.
"""
import sys


def word(number, letter):
    letters = ""
    for _ in range(4):
        letters = chr(97 + number % 26) + letters
        number //= 26
    return letter + letters


count = int(sys.argv[1]) if len(sys.argv) > 1 else 1000
events = [word(k, "e") for k in range(count)]
places = [word(k, "l") for k in range(count)]
print("plant Large:")
print("  uncontrollable", ", ".join(events[:count // 2]) + ";")
print("  controllable", ", ".join(events[count // 2:]) + ";")
for k, place in enumerate(places):
    print(f"  location {place}:{' initial;' if k == 0 else ''}")
    print(f"    edge {events[k]} goto {places[(k + 1) % count]};")
print("end")
