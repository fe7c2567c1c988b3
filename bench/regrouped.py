#!/usr/bin/env python3
"""Compares the program regrouped with a search of all rearrangements, on random pairs of run files, and times it on large ones.

regrouped.py [PROGRAM [COUNT [SEED]]]
PROGRAM  the program; if not given, target/bin/regrouped in the repository, built anew where the sources have changed
COUNT    random pairs (2000)
SEED     of the first of them (1)
Ends with 0 when every output is the same, 1 when one differs, 2 when it cannot start.

Written from document 01 and requests L1, L7 and L9 of document 02 alone. A line of a file is a step. The verdict comes from trying the rearrangements one by one; the lines before it from
the steps that touch each station, in order, and from how often each refusal number comes. Neighbouring stations that part alike are one line.
Where all lines of a file are refused there is no verdict. What is said on standard error is compared too.
"""
import os
import random
import re
import subprocess
import sys
import tempfile
import time

LAST_LINE = 99999
NAMES = ("run.txt", "regrouped.txt")
LAST_STATION = 23
ALL_STATIONS = frozenset(range(1, LAST_STATION + 1))
CONTROLLER = (24, 26, 28, 30)
NO_STATION = frozenset()
FORMS = {
    "naf": ["n", "a", "f", "w"],
    "front": ["n", "a", "v"],
    "z": [],
    "c": [],
    "i": ["v"],
    "lam": [],
    "scan": ["n", "a", "f", "to", "limit"],
    "repeat": ["n", "a", "f", "limit", "tries"],
    "stop": ["n", "a", "f", "limit"],
    "put": ["n", "a", "to", "limit", "w"],
    "within": ["n", "to", "lo", "hi"],
}
NUMBER = "(0|[1-9][0-9]{0,7})"
PATTERNS = {
    op: re.compile(" ".join(["op=" + op] + [name + "=" + NUMBER for name in names]).encode()) for op, names in FORMS.items()
}


# ---- reading


class Step:
    """What a line counts as: `same` is equal for equal steps."""

    def __init__(self, same, touches, refused):
        self.same = same
        self.touches = touches
        self.refused = refused


def refused_with(number):
    return Step(("refused", number), NO_STATION, number)


def field_refusal(op, values, name):
    """The number with which a field is refused, 0 where it is not."""
    value = values[name]
    transfer = op in ("scan", "repeat", "stop")
    if name == "n":
        return 0 if 1 <= value <= LAST_STATION or (op == "naf" and value in CONTROLLER) else 2
    if name == "a":
        return 0 if value <= 15 else 3
    if name == "f":
        return 0 if (value in (0, 2, 3) if transfer else value <= 31) else 4
    if name in ("w", "v"):
        loads = op == "naf" and (values["n"], values["a"], values["f"]) == (30, 8, 16)
        return 0 if value <= (1 if op == "i" else 8388607 if loads else 16777215) else 5
    if name in ("lo", "hi"):
        return 5 if value > 16777215 else 14 if name == "hi" and values["lo"] > value else 0
    if name == "to":
        return 0 if values["n"] <= value <= LAST_STATION else 6
    return 0 if 1 <= value <= (512 if name == "limit" else 4096) else 7


def step_of(line):
    if len(line) > 80:
        return refused_with(1)
    for op, pattern in PATTERNS.items():
        found = pattern.fullmatch(line)
        if not found:
            continue
        values = dict(zip(FORMS[op], map(int, found.groups())))
        for name in FORMS[op]:
            number = field_refusal(op, values, name)
            if number:
                return refused_with(number)
        if op in ("scan", "put", "within"):
            touches = frozenset(range(values["n"], values["to"] + 1))
        elif values.get("n", LAST_STATION + 1) <= LAST_STATION:
            touches = frozenset([values["n"]])
        else:
            touches = ALL_STATIONS
        return Step((op, tuple(values.values())), touches, 0)
    return refused_with(1)


def steps_of(data):
    """The steps of a file's bytes."""
    lines = data.split(b"\n")
    if not lines[-1]:
        lines.pop()
    return [step_of(line) for line in lines]


# ---- the two lists compared


def keeps_order(first, p):
    """Do any two steps with a station in common keep their order? p has the place in the first list of each step of the second."""
    return not any(
        p[x] > p[y] and first[p[x]].touches & first[p[y]].touches for y in range(len(p)) for x in range(y)
    )


def rearranged(first, second):
    """Is there a rearrangement that makes the second list of the first? Tries all that put equal steps in equal places."""

    def search(p):
        if len(p) == len(second):
            return keeps_order(first, p)
        return any(
            search(p + [place])
            for place in range(len(first))
            if place not in p and first[place].same == second[len(p)].same
        )

    return len(first) == len(second) and search([])


def station_partings(first, second):
    """The three line numbers of each station at which the lists part."""
    numbers = {}
    for station in range(1, LAST_STATION + 1):
        due = [place for place, step in enumerate(first) if station in step.touches]
        there = [place for place, step in enumerate(second) if station in step.touches]
        k = 0
        while k < len(due) and k < len(there) and first[due[k]].same == second[there[k]].same:
            k += 1
        if k == len(due) and k == len(there):
            continue
        stands = 0
        if k < len(due) and k < len(there):
            later = [place for place in there[k:] if second[place].same == first[due[k]].same]
            stands = later[0] + 1 if later else 0
        numbers[station] = (due[k] + 1 if k < len(due) else 0, there[k] + 1 if k < len(there) else 0, stands)
    return numbers


def station_lines(numbers):
    """A line for each row of stations, low to high, that all part alike and that no neighbour would lengthen."""
    lines = []
    for low in numbers:
        for high in range(low, LAST_STATION + 1):
            alike = all(numbers.get(station) == numbers[low] for station in range(low, high + 1))
            if alike and numbers.get(low - 1) != numbers[low] and numbers.get(high + 1) != numbers[low]:
                to = " to=%d" % high if high > low else ""
                lines.append("n=%d%s first=%d second=%d stands=%d" % ((low, to) + numbers[low]))
    return lines


def refusal_lines(first, second):
    lines = []
    for number in range(1, 15):
        due = [place for place, step in enumerate(first) if step.refused == number]
        there = [place for place, step in enumerate(second) if step.refused == number]
        if len(due) > len(there):
            lines.append("refused=%d first=%d second=0 stands=0" % (number, due[len(there)] + 1))
        elif len(due) < len(there):
            lines.append("refused=%d first=0 second=%d stands=0" % (number, there[len(due)] + 1))
    return lines


def report(first, second):
    lines = station_lines(station_partings(first, second)) + refusal_lines(first, second)
    lines.append("regrouped=%d" % rearranged(first, second))
    return "".join(line + "\n" for line in lines).encode()


# ---- what standard error says


def unread(name, data):
    """What is said of a file that is not read whole, None where it is missing."""
    if data is None:
        return "%s is missing; no verdict\n" % name
    if len(steps_of(data)) > LAST_LINE:
        return "%s has lines past 99,999; no verdict\n" % name
    return ""


def of_refused(name, steps):
    """What is said of a file's refused lines, and whether all of its lines are refused."""
    refused = sum(1 for step in steps if step.refused)
    if not refused:
        return "", False
    only = refused == len(steps)
    so = "no verdict" if only else "refused lines are compared by their number"
    return "%s: %d of %d lines are refused; %s\n" % (name, refused, len(steps), so), only


def said_of(pair):
    """What is said on standard error, and whether there is a verdict."""
    lost = "".join(unread(name, data) for name, data in zip(NAMES, pair))
    if lost:
        return lost, False
    told = [of_refused(name, steps_of(data)) for name, data in zip(NAMES, pair)]
    mute = "".join(text for text, only in told if only)
    if mute:
        return mute, False
    return "".join(text for text, _ in told), True


def outcome(pair):
    """What the program prints, and what it says on standard error."""
    said, verdict = said_of(pair)
    return report(steps_of(pair[0]), steps_of(pair[1])) if verdict else b"", said.encode()


# ---- random pairs


WORDS = [0, 1, 8388607, 8388608, 16777215]
WIDE_WORDS = [16777216, 99999999]


def controller_line(rng):
    """A command with the controller's N, taken or not; at times refused for a w of more than 23 bits."""
    a, f = rng.choice([(8, 26), (9, 26), (9, 24), (9, 27), (8, 16), (8, 16), (0, 0), (15, 31)])
    return "op=naf n=%d a=%d f=%d w=%d" % (rng.choice(CONTROLLER), a, f, rng.choice(WORDS))


def good_line(rng, stations):
    if rng.random() < 0.12:
        return controller_line(rng)
    op = rng.choice(["naf"] * 5 + ["front"] * 5 + ["scan"] * 4 + ["put"] * 3 + ["within"] * 4 + ["repeat", "stop"] * 2 + ["z", "c", "i", "lam"])
    n = rng.choice(stations)
    lo = rng.choice([0, 0, 0, 1, 8388607])
    values = {
        "n": n,
        "a": rng.choice([0, 0, 1, 15]),
        "f": rng.choice([0, 2, 3]) if op != "naf" else rng.choice([0, 2, 31]),
        "w": rng.choice(WORDS),
        "v": rng.choice([0, 1]) if op == "i" else rng.choice([0, 1, 16777215]),
        "to": rng.choice([n, min(n + 1, LAST_STATION), rng.randint(n, LAST_STATION)]),
        "limit": rng.choice([1, 2, 512]),
        "tries": rng.choice([1, 4096]),
        "lo": lo,
        "hi": rng.choice([word for word in WORDS if word >= lo]),
    }
    return " ".join(["op=" + op] + ["%s=%d" % (name, values[name]) for name in FORMS[op]])


EDGES = [0, 2, 4, 8, 16, 24, 25, 26, 28, 30, 31, 32, 513, 4097, 16777216, 99999999]


def edged(rng, line):
    """The line with a field or two at or past their bounds."""
    parts = line.split(" ")
    for _ in range(rng.randint(1, 2)):
        if len(parts) > 1:
            place = rng.randrange(1, len(parts))
            parts[place] = "%s=%d" % (parts[place].split("=")[0], rng.choice(EDGES))
    return " ".join(parts)


def rewritten(rng, line):
    """The line with another write word or upper bound, at times overwide, where it ends in one; a window may then be crossed."""
    return re.sub(" (w|hi)=[0-9]+$", lambda found: " %s=%d" % (found[1], rng.choice(WORDS + WIDE_WORDS)), line)


def garbled(rng, line):
    return rng.choice(
        [
            "",
            " " + line,
            line + " ",
            line + "\r",
            line + "\0",
            line.replace(" ", "  ") if " " in line else line + line,
            line.replace("=", "=0", 2),
            line[:-1],
            line.replace("op", "OP"),
            line + "000000000",
            line + " w=0",
            line + " " * 90,
            "\xff" + line,
            "op=put n=1 a=0 f=16 to=1 limit=1 w=1",
            "op=put n=1 a=0 to=1 w=1 limit=1",
            "op=put n=1 a=0 to=1 limit=1",
            "op=within n=1 to=1 lo=0",
            "op=within n=1 to=1 hi=1 lo=0",
        ]
    )


def any_line(rng, stations):
    line = good_line(rng, stations)
    pick = rng.random()
    if pick < 0.1:
        return edged(rng, line)
    return garbled(rng, line) if pick < 0.17 else line


def lawful(rng, lines):
    """The lines in a random order that keeps that of any two that touch a station in common."""
    steps = [step_of(line.encode("latin-1")) for line in lines]
    left = list(range(len(lines)))
    order = []
    while left:
        free = [y for y in left if not any(x < y and steps[x].touches & steps[y].touches for x in left)]
        order.append(rng.choice(free))
        left.remove(order[-1])
    return [lines[place] for place in order]


def changed(rng, lines, stations):
    """The lines with one change, most often unlawful."""
    lines = list(lines)
    if not lines:
        return [any_line(rng, stations)]
    place = rng.randrange(len(lines))
    other = rng.randrange(len(lines))
    pick = rng.randrange(11)
    if pick == 0:
        lines[place], lines[other] = lines[other], lines[place]
    elif pick == 1:
        lines.insert(other, lines.pop(place))
    elif pick == 2:
        del lines[place]
    elif pick == 3:
        lines.insert(other, lines[place])
    elif pick == 4:
        lines[place] = any_line(rng, stations)
    elif pick == 5:
        lines[place] = edged(rng, lines[place])
    elif pick == 6:
        lines[place] = garbled(rng, lines[place])
    elif pick == 7:
        lines.append(any_line(rng, stations))
    elif pick == 8:
        lines.pop()
    elif pick == 9:
        lines[place] = rewritten(rng, lines[place])
    else:
        rng.shuffle(lines)
    return lines


def file_bytes(rng, lines, crlf):
    if rng.random() < 0.01:
        return None
    end = "\r\n" if crlf else "\n"
    text = end.join(lines)
    if lines and rng.random() < 0.8:
        text += end
    return text.encode("latin-1")


def random_pair(rng):
    """The bytes of the two files, None where a file is missing."""
    stations = rng.choices([1, 2, 3, 4, 5, 22, 23], k=rng.randint(1, 4))
    pool = [any_line(rng, stations) for _ in range(rng.randint(1, 8))]
    pool += [rewritten(rng, line) for line in pool if rng.random() < 0.3]
    first = [rng.choice(pool) for _ in range(rng.randint(0, 7))]
    pick = rng.random()
    if pick < 0.03:
        second = [rng.choice(pool) for _ in range(rng.randint(0, 7))]
    else:
        second = lawful(rng, first) if pick < 0.9 else first
        for _ in range(rng.choice([0, 0, 0, 1, 1, 2])):
            second = changed(rng, second, stations)[:7]
    crlf = rng.random()
    return file_bytes(rng, first, crlf < 0.04), file_bytes(rng, second, 0.02 < crlf < 0.06)


# ---- the program


def write_pair(folder, pair):
    for name, data in zip(NAMES, pair):
        path = os.path.join(folder, name)
        if data is None:
            if os.path.exists(path):
                os.remove(path)
        else:
            with open(path, "wb") as file:
                file.write(data)


def run(program, folder):
    done = subprocess.run([program], cwd=folder, stdin=subprocess.DEVNULL, capture_output=True, timeout=60)
    if done.returncode:
        return b"(ended with %d)" % done.returncode, done.stderr
    return done.stdout, done.stderr


def show(pair, expected, said):
    for name, data in zip(NAMES, pair):
        print(name, "is missing" if data is None else data[:2000])
    print("expected", expected)
    print("program ", tuple(each[:4000] for each in said))


# ---- large pairs


def regrouped_by_station(lines):
    """Between two steps that touch more than one station: by station, refused lines last."""
    order, block = [], []
    for line in lines:
        touches = step_of(line.encode("latin-1")).touches
        if len(touches) > 1:
            order += [each for _, each in sorted(block, key=lambda both: both[0])] + [line]
            block = []
        else:
            block.append((min(touches, default=LAST_STATION + 1), line))
    return order + [each for _, each in sorted(block, key=lambda both: both[0])]


def large_pairs(rng):
    """Names, lists and what the program has to print."""
    mixed = []
    while len(mixed) < LAST_LINE:
        line = any_line(rng, range(1, LAST_STATION + 1))
        several = len(step_of(line.encode("latin-1")).touches) > 1
        if not several or rng.random() < 0.02:
            mixed.append(line)
    scans = [
        "op=scan n=1 a=%d f=%d to=%d limit=%d" % (rng.randrange(16), rng.choice([0, 2, 3]), LAST_STATION, rng.randint(2, 512))
        for _ in range(LAST_LINE)
    ]
    other = "op=scan n=1 a=0 f=0 to=%d limit=1" % LAST_STATION
    moved = "n=1 to=%d first=1 second=1 stands=%d\n" % (LAST_STATION, LAST_LINE)
    return [
        ("regrouped by station", mixed, regrouped_by_station(mixed), "regrouped=1\n"),
        ("scans of all stations", scans, scans, "regrouped=1\n"),
        ("the first scan moved to the end", [other] + scans[1:], scans[1:] + [other], moved + "regrouped=0\n"),
    ]


def main():
    root = os.path.dirname(os.path.dirname(os.path.abspath(__file__)))
    arguments = sys.argv[1:]
    program = os.path.abspath(arguments[0]) if arguments else os.path.join(root, "target", "bin", "regrouped")
    numbers = arguments[1:]
    if len(numbers) > 2 or not all(re.fullmatch("[0-9]{1,9}", number) for number in numbers):
        print("usage: regrouped.py [PROGRAM [COUNT [SEED]]]", file=sys.stderr)
        return 2
    if not arguments and subprocess.run([os.path.join(root, "build.sh"), "regrouped"]).returncode != 0:
        print("regrouped.py: the program does not build", file=sys.stderr)
        return 2
    if not (os.path.isfile(program) and os.access(program, os.X_OK)):
        print("regrouped.py: no program at %s" % program, file=sys.stderr)
        return 2
    count, seed = [int(number) for number in numbers] + [2000, 1][len(numbers) :]
    lawful_pairs = 0
    with tempfile.TemporaryDirectory() as folder:
        for each in range(seed, seed + count):
            pair = random_pair(random.Random(each))
            expected = outcome(pair)
            lawful_pairs += expected[0] == b"regrouped=1\n"
            write_pair(folder, pair)
            said = run(program, folder)
            if said != expected:
                show(pair, expected, said)
                print("pair %d differs: regrouped.py PROGRAM 1 %d" % (each, each))
                return 1
        print("%d pairs, %d of them regroupings, 0 differ" % (count, lawful_pairs))
        for name, first, second, expected in large_pairs(random.Random(seed)):
            pair = tuple("".join(line + "\n" for line in lines).encode("latin-1") for lines in (first, second))
            write_pair(folder, pair)
            times = []
            for _ in range(5):
                start = time.perf_counter()
                said = run(program, folder)
                times.append(time.perf_counter() - start)
            if said[0] != expected.encode() or said[1] != said_of(pair)[0].encode():
                show(pair, expected, said)
                print("the large pair '%s' differs" % name)
                return 1
            print("%d lines, %s: %.3f s (the best of %d)" % (len(first), name, min(times), len(times)))
    return 0


if __name__ == "__main__":
    sys.exit(main())
