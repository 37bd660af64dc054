"""Writes a dense source of the given size in KiB (1,024 where none is named): automata with variables, enumerations, constants, guards
and conditional updates. With `parse` as the second word a word follows with which the text reads as nothing, so that `check` ends
when it has parsed it."""
import sys

HEAD = "const int most = 9; enum Mode = idle, busy, done; type Count = int[0..most];"
PART = """
plant Machine{n}:
  uncontrollable started, stopped;
  controllable start, stop;
  disc Count count = 0;
  disc Mode mode;
  disc int[-100..100] sum = {s};
  location Waiting: initial; marked;
    edge start when count < most and not (mode = busy), sum + count * 2 <= 90 do count := count + 1, mode := busy goto Working;
  location Working:
    edge started, stopped when count >= 3 or mode = busy do
      if mode = busy: count := 0, mode := done elif sum < 0: count := (count * 2 + {s}) mod 10 else count := most - count end,
      sum := if mode = idle: min(sum + count, 100) else max(sum - count, -100) end goto Waiting;
    edge stop when abs(sum) div 3 < 5 do sum := -sum goto Waiting;
end"""


def source(size):
    """The parts that fit, and blanks up to the size."""
    parts = [HEAD]
    left = size - len(HEAD)
    for number in range(size):
        part = PART.format(n=number, s=number % 100)
        if len(part) > left:
            return "".join(parts) + " " * left
        parts.append(part)
        left -= len(part)


if __name__ == "__main__":
    words = sys.argv[1:]
    print(source(1024 * int(words[0] if words else 1024)), end=" end" if words[1:] == ["parse"] else "")
