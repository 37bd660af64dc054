"""Writes large sources with definitions.

    python3 tools/large_definitions.py N > source.cif
    python3 tools/large_definitions.py double K > source.cif
    python3 tools/large_definitions.py deep N > source.cif

The first has at least N instances, in areas of seven: definitions stand in one another and pass on events, expressions and locations.
Its size grows with N, and up to 16,000 instances it is taken; beyond, its choices are too many (25). The second has K definitions of
which each has two instances of the one before, so it is short and has two to the power of K + 1 components: with 15 it is taken, and
with 17 refused (17). In the third N definitions have an instance of the one before each, so that a parameter is passed on N times, and
the last name of a path is behind N others.
"""
import sys

HEAD = """const int most = 9;
plant Panel:
  uncontrollable enable;
  location Locked: initial; marked;
    edge enable goto Free;
  location Free;
end
// Two stations, each of which begins when the other one is at rest.
group def Area(controllable go; uncontrollable ready; alg int limit; location free):
  group def Station(controllable go; alg int limit; alg bool clear; location free):
    drive: Drive(go, limit + 1, clear and not sensor.Covered, free);
    sensor: Sensor(ready, drive.Running);
  end
  left: Station(go, limit, right.drive.Resting or right.sensor.Covered, free);
  right: Station(go, min(limit, left.drive.count + 2), left.drive.count >= right.drive.count, free);
end
// A drive that counts its starts up to a limit.
plant def Drive(controllable go; alg int limit; alg bool clear; location free):
  uncontrollable rest;
  disc int[0..most] count = 0;
  location Resting: initial; marked;
    edge go when clear, free, count < limit do count := if count < most: count + 1 else 0 end goto Running;
  location Running:
    edge rest goto Resting;
end
plant def Sensor(uncontrollable ready; location running):
  location Clear: initial; marked;
    edge ready when running goto Covered;
  location Covered:
    edge ready when not running goto Clear;
end
"""
AREA = "controllable go{n}; uncontrollable ready{n}; area{n}: Area(go{n}, ready{n}, most - {m}, Panel.Free);\n"
INSTANCES_OF_AREA = 7


def nested(count):
    return HEAD + "".join(AREA.format(n=n, m=n % 5) for n in range(-(-count // INSTANCES_OF_AREA)))


def doubled(count):
    text = "".join("group def D%d(): a: D%d(); b: D%d(); end\n" % (k, k - 1, k - 1) for k in range(1, count + 1))
    return "group def D0(): end\n%sx: D%d();\n" % (text, count)


def deep(count):
    text = "".join("group def D%d(controllable c; alg int v): x: D%d(c, v); end\n" % (k, k - 1) for k in range(1, count + 1))
    inner = "automaton def D0(controllable c; alg int v): disc int[0..9] n; location: initial; edge c when n < v do n := n + 1; end\n"
    return "controllable c;\n%s%sx: D%d(c, 2 + 3);\n" % (inner, text, count)


SOURCES = {"double": doubled, "deep": deep}

if __name__ == "__main__":
    words = sys.argv[1:]
    print(SOURCES.get(words[0], nested)(int(words[-1])), end="")
