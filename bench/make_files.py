#!/usr/bin/env python3
"""Writes crate and run files for comparing two builds of the rehearsal.

make_files.py large DIR               the large folders: mixed, scans, garbled, past
make_files.py random DIR FIRST COUNT  COUNT small folders DIR/SEED, of the seeds FIRST and up
"""
import os
import random
import re
import sys

LAST_LINE = 99999
WORDS = [0, 1, 2, 5, 10, 255, 65535, 65536, 8388606, 8388607, 8388608, 8388609, 16777213, 16777214, 16777215]
FUNCTIONS = [0, 0, 2, 2, 3, 9, 16, 18, 21, 25, 25, 8, 10, 24, 26, 26, 27, 1, 1, 11, 17, 17, 19, 23]


def module(rng, n, wide=1):
    kind = rng.randint(1, 5)
    return n, kind, 1 if kind == 4 else rng.choice([1, 2, 3, rng.randint(1, 16), 16]), wide


def modules_in(rng, stations, two_wide):
    """Modules in these stations, none in a covered one; `two_wide` of them, 0 to 1, are two stations wide."""
    modules = []
    for n in stations:
        if n - 1 not in [each[0] for each in modules if each[3] == 2]:
            modules.append(module(rng, n, 2 if n < 23 and rng.random() < two_wide else 1))
    return modules


def crate_text(modules):
    return "".join("n=%d kind=%d r=%d wide=%d\n" % each for each in modules).encode()


def word(rng):
    return rng.choice(WORDS) if rng.random() < 0.6 else rng.randrange(1 << rng.randint(1, 24))


def station(rng, modules):
    """A station and its register count: most often one with a module, at times one that a module covers."""
    if modules and rng.random() < 0.9:
        n, _, r, wide = rng.choice(modules)
        return (n + 1, 0) if wide == 2 and rng.random() < 0.2 else (n, r)
    return rng.randint(1, 23), 0


def subaddress(rng, r, function=None):
    if function in (1, 11, 17, 19, 23) and rng.random() < 0.9:
        return rng.choice([12, 13, 13, 14])
    if r and rng.random() < 0.85:
        return rng.randrange(r)
    return rng.randint(0, 15)


def put(rng, modules, limit):
    """A put, most often from a station that takes F16."""
    takes = [each for each in modules if each[1] in (2, 5)]
    n, r = station(rng, takes if rng.random() < 0.7 else modules)
    a = subaddress(rng, r) if rng.random() < 0.5 else 0
    return "op=put n=%d a=%d to=%d limit=%d w=%d" % (n, a, rng.choice([n, rng.randint(n, 23)]), limit, word(rng))


def window(rng, v):
    """The bounds of a window: v inside, at an edge or just outside; at times crossed by one, at times by any number."""
    other = word(rng)
    low, high = min(v, other), max(v, other)
    return rng.choice([(v, v), (v, v), (0, v), (v, 16777215), (low, high), (low, high), (0, 16777215), (low, max(v - 1, 0)), (v + 1, high), (v + 1, v), (v, other)])


def within(rng, modules):
    """A window, most often from a station whose registers are listed."""
    listed = [each for each in modules if each[1] in (1, 3, 5)]
    n, _ = station(rng, listed if rng.random() < 0.7 else modules)
    v = 0 if rng.random() < 0.3 else word(rng)
    return "op=within n=%d to=%d lo=%d hi=%d" % ((n, rng.choice([n, rng.randint(n, 23)])) + window(rng, v))


def function(rng):
    return rng.choice(FUNCTIONS) if rng.random() < 0.9 else rng.randint(0, 31)


# N, A and F of the commands that the controller takes; Z and C less often, since they clear what others show
NAMED = [(28, 8, 26), (28, 9, 26)] + [(30, 9, 24)] * 4 + [(30, 9, 26)] * 2 + [(30, 9, 27)] * 4 + [(30, 8, 16)] * 6
LOADS = [0, 1, 4194304, 8388607, 8388607, 8388608, 16777215, 16777216]


def load(rng, modules):
    """A word for the Station Number Register: one station or two, those with modules, any, or about 2^23."""
    bits = [1 << (n - 1) for n, _, _, _ in modules] or [1]
    return rng.choice([rng.choice(bits), rng.choice(bits) | rng.choice(bits), sum(bits), sum(bits), rng.randrange(1 << 23), rng.choice(LOADS)])


def controller_command(rng, modules):
    """A command to many stations, to the controller as it takes it or nearly so, or to any N of 24 to 32 and 0."""
    pick = rng.random()
    f = function(rng)
    if pick < 0.45:
        n, a = rng.choice([24, 24, 26]), subaddress(rng, station(rng, modules)[1], f)
    elif pick < 0.75:
        n, a, f = rng.choice(NAMED)
    else:
        n = rng.choice([28, 30]) if pick < 0.9 else rng.choice([0, 32] + list(range(24, 32)) * 3)
        a, f = rng.choice([8, 8, 9, 9, rng.randint(0, 15)]), rng.choice([16, 16, 17, 24, 26, 27, f])
    w = load(rng, modules) if n > 26 and rng.random() < 0.7 else word(rng)
    return "op=naf n=%d a=%d f=%d w=%d" % (n, a, f, w)


def step(rng, modules, longest, controller):
    """A run line in form; a transfer asks for at most `longest` words or cycles; `controller` of the commands, 0 to 1, have the controller's N."""
    n, r = station(rng, modules)
    pick = rng.random()
    if pick < 0.42:
        if rng.random() < controller:
            return controller_command(rng, modules)
        f = function(rng)
        return "op=naf n=%d a=%d f=%d w=%d" % (n, subaddress(rng, r, f), f, word(rng))
    if pick < 0.69:
        return "op=front n=%d a=%d v=%d" % (n, subaddress(rng, r), word(rng))
    if pick < 0.7:
        return "op=z"
    if pick < 0.72:
        return "op=c"
    if pick < 0.77:
        return "op=i v=%d" % rng.choice([0, 0, 0, 1])
    if pick < 0.82:
        return "op=lam"
    if pick < 0.86:
        return within(rng, modules)
    f = rng.choice([0, 2, 2, 3])
    a = subaddress(rng, r) if rng.random() < 0.5 else 0
    limit = rng.choice([1, 2, 3, 16, 17, rng.randint(1, longest)])
    if pick < 0.91:
        return "op=scan n=%d a=%d f=%d to=%d limit=%d" % (n, a, f, rng.randint(n, 23), limit)
    if pick < 0.95:
        return put(rng, modules, limit)
    if pick < 0.98:
        return "op=repeat n=%d a=%d f=%d limit=%d tries=%d" % (n, a, f, limit, rng.choice([1, 2, 3, 16, rng.randint(1, longest)]))
    return "op=stop n=%d a=%d f=%d limit=%d" % (n, a, f, limit)


EDGES = [0, 1, 2, 3, 4, 8, 15, 16, 17, 22, 23, 24, 25, 26, 28, 30, 31, 32, 512, 513, 4096, 4097, 8388608, 16777215, 16777216, 99999999]
WORD_EDGES = EDGES[-4:]


def edge_fields(rng, line):
    """The line with some fields, of all or of the last ones, at or past their bounds; in form, often refused."""
    parts = line.split(" ")
    for place in range(rng.choice([0, rng.randrange(len(parts))]), len(parts)):
        name, number = parts[place].split("=")
        if number.isdigit() and rng.random() < 0.4:
            parts[place] = "%s=%d" % (name, rng.choice(WORD_EDGES if name in ("w", "lo", "hi") and rng.random() < 0.5 else EDGES))
    return " ".join(parts)


def spoiled(rng, line):
    """The line, as bytes, with a fault of some shape; once in a while still in form."""
    line = line.encode()
    at = rng.randint(0, len(line))
    parts = line.split(b" ")
    shape = rng.randint(0, 17)
    if shape == 0:
        return b""
    if shape == 1:
        return line + rng.choice([b"\r", b" ", b"\t", b"\0", b"\xff", b"0", b" v=0", b"x"])
    if shape == 2:
        return rng.choice([b" ", b"\t", b"\r", b"\xef\xbb\xbf", b"#", b"0"]) + line
    if shape == 3:
        return line[:at]
    if shape == 4:
        return line[:at] + bytes([rng.choice([b for b in range(256) if b != 10])]) + line[at:]
    if shape == 5:
        return line[:at] + line[at + 1:]
    if shape == 6:
        return line.upper()
    if shape == 7:
        return line.replace(b" ", b"  ", 1)
    if shape == 8:
        return line.replace(b" ", b"")
    if shape == 9:
        rng.shuffle(parts)
        return b" ".join(parts)
    if shape == 10:
        return b" ".join(parts[:-1])
    if shape == 11:
        return line + b" " + parts[-1]
    if shape == 12:
        return b"=0".join(line.rsplit(b"=", 1))
    if shape == 13:
        return line.rsplit(b"=", 1)[0] + b"=" + rng.choice([b"", b"-1", b"+1", b"00", b"000000001", b"100000000", b"999999999", b"4294967296", b"18446744073709551616", b"0x1", b"1.0", b"1e1"])
    if shape == 14:
        return line + b" " * max(0, rng.choice([79, 80, 81, 82, 83, 160]) - len(line))
    if shape == 15:
        return b"x" * rng.choice([79, 80, 81, 82, 83, 160, 162, 255, 256, 1000, 4096, 8192, 70000]) + line
    if shape == 16:
        return bytes(rng.choice([b for b in range(256) if b != 10]) for _ in range(rng.randint(1, 90)))
    return b"op=" + rng.choice([b"put n=1 a=0 f=16 to=2 limit=1 w=0", b"put n=1 a=0 to=2 w=0 limit=1", b"put n=1 a=0 limit=1 to=2 w=0", b"put n=1 a=0 to=2 limit=1", b"within n=1 to=2 lo=0", b"within n=1 lo=0 hi=1", b"within n=1 to=2 hi=1 lo=0", b"within n=1 a=0 to=2 lo=0 hi=1", b"nop", b"", b"na", b"nafn=1", b"Z", b"lam "])


def write_folder(path, crate, run):
    os.makedirs(path, exist_ok=True)
    for name, contents in (("crate.txt", crate), ("run.txt", run)):
        full = os.path.join(path, name)
        if contents is not None:
            with open(full, "wb") as out:
                out.write(contents)
        elif os.path.exists(full):
            os.remove(full)


def mixed(path):
    """99,999 lines of all eleven forms, one command in fifty with the controller's N, one line in twenty with a field past its bound, one in fifty garbled."""
    rng = random.Random("mixed")
    modules = modules_in(rng, [n for n in range(1, 24) if n not in (6, 13)], 0.1)
    lines = []
    for _ in range(LAST_LINE):
        line = step(rng, modules, 64, 0.02)
        pick = rng.random()
        if pick < 0.05:
            line = edge_fields(rng, line)
        lines.append(spoiled(rng, line)[:200] if pick > 0.98 else line.encode())
    write_folder(path, crate_text(modules), b"\n".join(lines) + b"\n")


def scans(path):
    """Registers filled by front events, then 20,000 long scans, Repeats and Stops, one Repeat in three on an empty buffer memory."""
    rng = random.Random("scans")
    modules = [(n, 1, 16, 1) for n in range(1, 21)] + [(21, 4, 1, 1), (22, 2, 16, 1), (23, 5, 16, 1)]
    lines = ["op=front n=%d a=%d v=%d" % (n, a, word(rng)) for n in range(1, 21) for a in range(16)]
    for place in range(20000):
        n, a, f = rng.randint(1, 20), rng.randint(0, 15), rng.choice([0, 0, 3])
        if place % 2 == 0:
            lines.append("op=scan n=%d a=0 f=%d to=23 limit=512" % (rng.randint(1, 3), f))
        elif place % 8 == 1:
            lines.append("op=stop n=%d a=%d f=%d limit=512" % (n, a, f))
        elif rng.random() < 1 / 3:
            lines.append("op=repeat n=21 a=0 f=2 limit=512 tries=4096")
        else:
            lines.append("op=repeat n=%d a=%d f=%d limit=512 tries=4096" % (n, a, f))
    write_folder(path, crate_text(modules), "".join(line + "\n" for line in lines).encode())


def garbled(path):
    """99,999 lines in no form: each ends in a byte that ends no line in form."""
    rng = random.Random("garbled")
    modules = [module(rng, n) for n in range(1, 24)]
    ends = [b" ", b"\r", b"\0", b"\xff", b"x", b"=", b"\t"]
    lines = [spoiled(rng, step(rng, modules, 512, 0.1))[:300] + rng.choice(ends) for _ in range(LAST_LINE)]
    write_folder(path, crate_text(modules), b"\n".join(lines) + b"\n")


def past(path):
    """Three lines more than are read."""
    run = b"op=lam\n" * (LAST_LINE - 1) + b"op=z\n" + b"op=lam\n\nop=c\n"
    write_folder(path, b"n=3 kind=1 r=2 wide=1\n", run)


def badly_wide(rng, modules):
    """The crate's lines with a covered station named, a width that no module has, two stations in 22 or 23, or a line without its width."""
    modules = list(modules) or [module(rng, rng.randint(1, 23))]
    at = rng.randrange(len(modules))
    n, kind, r, _ = modules[at]
    below = [each for each in modules if each[0] < n]
    above = [each for each in modules if each[0] > n + 1]
    covered = (n + 1,) + rng.choice([(kind, r, 1), (kind, r, 2), (kind, r, 3), (0, 17, 0)])
    shape = rng.randint(0, 5)
    if shape == 0:
        modules = below + [(n, kind, r, 2), covered] + above
    elif shape == 1:
        modules = below + [(n, kind, r, 2)] + above + [covered]
    elif shape == 2:
        modules[at] = n, kind, r, rng.choice([0, 3, 4, 16, 257, 258, 99999999])
    elif shape == 3:
        modules = [each for each in modules if each[0] < 22] + [(22, kind, r, 2)] + rng.choice([[], [(23, kind, r, 1)], [(23, kind, r, 2)]])
    elif shape == 4:
        modules = [each for each in modules if each[0] < 23] + [(rng.choice([23, 23, 24]), kind, r, 2)]
    lines = crate_text(modules).split(b"\n")[:-1]
    if shape == 5 or rng.random() < 0.1:
        at = rng.randrange(len(lines))
        lines[at] = lines[at].rsplit(b" ", 1)[0]
    return lines


def random_crate(rng):
    stations = [n for n in range(1, 24) if rng.random() < rng.choice([0.1, 0.3, 1.0])]
    modules = modules_in(rng, stations, rng.choice([0.0, 0.2, 0.6]))
    if rng.random() < 0.05:  # as many registers as a window can list
        modules = [(n, rng.choice([1, 3, 5]), 16, 1) for n in range(1, 24)]
    text = crate_text(modules)
    pick = rng.random()
    if pick < 0.7:
        return modules, text
    if pick < 0.75:
        return [], rng.choice([None, b"", b"\n"])
    lines = text.split(b"\n")[:-1] or [b"n=1 kind=1 r=1 wide=1"]
    at = rng.randrange(len(lines))
    if pick < 0.81:
        lines[at] = edge_fields(rng, lines[at].decode()).encode()
    elif pick < 0.85:
        lines[at] = spoiled(rng, lines[at].decode())
    elif pick < 0.87:
        lines.insert(at, rng.choice(lines))
    elif pick < 0.89:
        rng.shuffle(lines)
    else:
        lines = badly_wide(rng, modules)
    return modules, b"\n".join(lines) + rng.choice([b"\n", b"", b"\n\n"])


def burst(rng, modules):
    """Inhibit off or on, and more events at a buffer memory than it holds."""
    n = rng.choice([each[0] for each in modules if each[1] == 4] or [1])
    return [b"op=i v=%d" % rng.choice([0, 0, 0, 1])] + [b"op=front n=%d a=0 v=%d" % (n, word(rng)) for _ in range(rng.randint(16, 19))]


def controls(rng, modules):
    """Lines that set Inhibit or the Station Number Register, and after each some that show it."""
    lines = []
    for _ in range(rng.randint(1, 4)):
        loads = "op=naf n=30 a=8 f=16 w=%d" % load(rng, modules)
        sets = ["op=z", "op=c", "op=i v=0", "op=i v=1", loads, loads, loads]
        sets += ["op=naf n=%d a=%d f=%d w=%d" % (each + (word(rng),)) for each in [(28, 8, 26), (28, 9, 26), (30, 9, 24), (30, 9, 26)]]
        (n, r), (other, _) = station(rng, modules), station(rng, modules)
        a = subaddress(rng, r)
        fronts = ["op=front n=%d a=%d v=%d" % (each, a, word(rng)) for each in (n, other)]
        shows = ["op=naf n=30 a=9 f=27 w=0", "op=lam"] + ["op=naf n=%d a=%d f=%d w=0" % (rng.choice([n, 24, 24, 26]), a, f) for f in (0, 0, 2, 8, 26, 27)]
        lines += [rng.choice(sets)] + fronts[: rng.randint(0, 2)] + rng.sample(shows, rng.randint(1, 3))
    return [line.encode() for line in lines]


def windows(rng, modules):
    """A register cleared and a word brought there, by an event or F16, and after that windows about this word."""
    (n, r), v = station(rng, modules), word(rng)
    a = subaddress(rng, r)
    lines = ["op=i v=%d" % rng.choice([0, 0, 0, 1]), "op=naf n=%d a=%d f=9 w=0" % (n, a)]
    lines.append(rng.choice(["op=front n=%d a=%d v=%d", "op=naf n=%d a=%d f=16 w=%d"]) % (n, a, v))
    for _ in range(rng.randint(1, 5)):
        stations = rng.choice([(n, n), (1, 23), (rng.randint(1, n), rng.randint(n, 23))])
        lines.append("op=within n=%d to=%d lo=%d hi=%d" % (stations + window(rng, v)))
    return [line.encode() for line in lines]


def elsewhere(rng, line):
    """The line with the N of no station."""
    return re.sub(" n=[0-9]+", lambda _: " n=%d" % rng.choice([0, 32] + list(range(24, 32)) * 2), line)


def random_folder(path, seed):
    rng = random.Random("folder %d" % seed)
    modules, crate = random_crate(rng)
    bad = rng.choice([0.0, 0.05, 0.3])
    controller = rng.choice([0.0, 0.1, 0.4, 0.8])
    lines = controls(rng, modules) if rng.random() < controller else []
    for _ in range(rng.choice([0, 1, 5, 40, 200])):
        line = step(rng, modules, 512, controller)
        if rng.random() < 0.02:
            line = elsewhere(rng, line)
        pick = rng.random()
        if pick < bad:
            lines.append(spoiled(rng, line))
        else:
            lines.append((edge_fields(rng, line) if pick < 2 * bad else line).encode())
        if rng.random() < 0.02:
            lines += burst(rng, modules)
        if rng.random() < 0.03:
            lines += windows(rng, modules)
        if rng.random() < controller / 5:
            lines += controls(rng, modules)
    run = b"\n".join(lines) + (b"\n" if lines and rng.random() < 0.9 else b"")
    write_folder(path, crate, None if not lines and rng.random() < 0.5 else run)


def main():
    if len(sys.argv) == 3 and sys.argv[1] == "large":
        for make in (mixed, scans, garbled, past):
            make(os.path.join(sys.argv[2], make.__name__))
    elif len(sys.argv) == 5 and sys.argv[1] == "random":
        for seed in range(int(sys.argv[3]), int(sys.argv[3]) + int(sys.argv[4])):
            random_folder(os.path.join(sys.argv[2], str(seed)), seed)
    else:
        sys.exit(__doc__.strip())


if __name__ == "__main__":
    main()
