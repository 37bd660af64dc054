"""Writes large sources of automata that synchronise.

    python3 tools/large_net.py WHAT > source.cif

WHAT is one of
    names         4 MiB with 50,000 names in 5,000 groups
    net           300 automata that all have each of 300 events
    choices       an event with 16,384 choices, the most that are taken, and
    more-choices  one with 16,385
    objects       100,000 components, declarations, locations and edges, the most that are taken, and
    more-objects  one more
"""
import sys

LIMIT = 4 * 1024 * 1024
AREAS, STATIONS, AREA_EVENTS = 50, 99, 9

AREA = "group area{a}:\n  controllable {events};\n{stations}end\n"
# Ten names, of which three events and a gate of the area have an edge each.
STATION = """  // Station {s} of area {a}: a part arrives, is clamped, is worked on and leaves.
  group station{s}:
    uncontrollable part_arrived, part_has_left; controllable clamp_the_part;
    requirement Handling_of_parts:
      alphabet part_arrived, station{s}.part_has_left, area{a}.station{s}.clamp_the_part{gate},
        .area{a}.station{s}.part_arrived, .area{a}.station{s}.part_has_left, .area{a}.station{s}.clamp_the_part,
        area{a}.station{s}.part_arrived, station{s}.clamp_the_part;
      location Waiting: initial; marked; edge .area{a}.station{s}.part_arrived goto Occupied;
      location Occupied: edge area{a}.station{s}.clamp_the_part goto Clamped;
      location Clamped: edge station{s}.part_has_left goto Leaving;
      location Leaving: {edge}
      location Out_of_order: marked;
    end
  end
"""


def station(area, number):
    """A station, and for the first of an area one that has a part in an event of the area."""
    gate = "release%d" % number if number < AREA_EVENTS else None
    return STATION.format(a=area, s=number, gate=", " + gate if gate else "",
                          edge="edge area%d.%s goto Waiting;" % (area, gate) if gate else "")


def names():
    """5,000 groups with ten names each: 50 areas, each with nine events, and 99 stations in each; and blanks up to 4 MiB."""
    text = ""
    for area in range(AREAS):
        events = ", ".join("release%d" % k for k in range(AREA_EVENTS))
        text += AREA.format(a=area, events=events, stations="".join(station(area, k) for k in range(STATIONS)))
    return text + " " * (LIMIT - len(text))


def net():
    """Automata that move together: forth by the even events, back by the odd ones."""
    events = ["step%d" % k for k in range(300)]
    text = "uncontrollable %s;\n" % ", ".join(events)
    for number in range(300):
        forth, back = ", ".join(events[0::2]), ", ".join(events[1::2])
        text += "plant Machine%d:\n  location There: initial; edge %s goto Back;\n" % (number, forth)
        text += "  location Back: edge %s goto There;\nend\n" % back
    return text


def ring(name, event, count):
    """An automaton that goes round so many locations by an event."""
    text = "plant %s:\n" % name
    for place in range(count):
        text += "  location p%d:%s edge %s goto p%d;\n" % (place, " initial;" if place == 0 else "", event, (place + 1) % count)
    return text + "end\n"


def choices(counts):
    """An event of automata with so many edges for it each."""
    return "uncontrollable turn;\n" + "".join(ring("Wheel%d" % k, "turn", count) for k, count in enumerate(counts))


def objects(total):
    """Groups of eight objects each, and as many events besides as the total asks for, the specification being one."""
    text = "".join("group g%d: plant Drive: controllable on, off; location Off: initial; edge on goto On; "
                   "location On: edge off goto Off; end end\n" % k for k in range(8000))
    spare = ", ".join("spare%d" % k for k in range(total - 1 - 8 * 8000))
    return text + "uncontrollable %s;\n" % spare


SOURCES = {
    "names": names, "net": net, "choices": lambda: choices([128, 128]), "more-choices": lambda: choices([5, 29, 113]),
    "objects": lambda: objects(100000), "more-objects": lambda: objects(100001)}


if __name__ == "__main__":
    print(SOURCES[sys.argv[1]](), end="")
