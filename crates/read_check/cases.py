#!/usr/bin/env python3
"""The cases of read_check: each line with what it must be read as. Writes the files stdin and stdout beside it.

What a line must be read as stands in this table, worked out from the paper's forms ('Crate and run files'): fields in the order of
the form, one space between, 1 to 8 decimal digits, no leading zero but 0 itself, nothing else on the line, at most 80 bytes.
A line that is in none of the forms is 1 (garbled). No line is in a form of both files.
"""
import os

rows = []


def step(line, expected):
    rows.append((line.encode(), expected, "1"))


def module(line, expected):
    rows.append((line.encode(), "1", expected))


def garbled(*lines):
    for line in lines:
        rows.append((line if isinstance(line, bytes) else line.encode(), "1", "1"))


# ---- 1. the lines of the paper's listing, and each form with small fields
module("n=3 kind=1 r=2 wide=1", "Module n=3 kind=1 r=2 wide=1")
module("n=5 kind=4 r=1 wide=1", "Module n=5 kind=4 r=1 wide=1")
module("n=7 kind=2 r=16 wide=2", "Module n=7 kind=2 r=16 wide=2")
step("op=z", "Z")
step("op=front n=3 a=0 v=5", "Front n=3 a=0 v=5")
step("op=i v=0", "Inhibit v=0")
step("op=naf n=3 a=0 f=2 w=0", "Command n=3 a=0 f=2 w=0")
step("op=front n=5 a=0 v=9", "Front n=5 a=0 v=9")
step("op=naf n=5 a=0 f=26 w=0", "Command n=5 a=0 f=26 w=0")
step("op=lam", "LookAtMe")
step("op=scan n=3 a=0 f=0 to=5 limit=8", "Scan n=3 a=0 f=0 to=5 limit=8")
step("op=naf n=24 a=0 f=0 w=0", "Command n=24 a=0 f=0 w=0")
step("op=c", "C")
step("op=i v=1", "Inhibit v=1")
step("op=repeat n=7 a=1 f=2 limit=3 tries=4", "Repeat n=7 a=1 f=2 limit=3 tries=4")
step("op=stop n=8 a=9 f=3 limit=10", "Stop n=8 a=9 f=3 limit=10")
step("op=put n=2 a=0 to=5 limit=10 w=7", "Put n=2 a=0 to=5 limit=10 w=7")

# ---- 2. fields that differ, so that each must come to its own place; numbers of one to eight digits; values that are judged elsewhere
step("op=naf n=1 a=23 f=456 w=7890", "Command n=1 a=23 f=456 w=7890")
step("op=naf n=12345678 a=1234567 f=123456 w=12345", "Command n=12345678 a=1234567 f=123456 w=12345")
step("op=front n=1234 a=123 v=12", "Front n=1234 a=123 v=12")
step("op=scan n=1 a=2 f=3 to=4 limit=5", "Scan n=1 a=2 f=3 to=4 limit=5")
step("op=scan n=50 a=40 f=30 to=20 limit=10", "Scan n=50 a=40 f=30 to=20 limit=10")
step("op=repeat n=1 a=2 f=3 limit=4 tries=5", "Repeat n=1 a=2 f=3 limit=4 tries=5")
step("op=repeat n=0 a=16 f=32 limit=513 tries=4097", "Repeat n=0 a=16 f=32 limit=513 tries=4097")
step("op=stop n=1 a=2 f=3 limit=4", "Stop n=1 a=2 f=3 limit=4")
step("op=put n=1 a=2 to=3 limit=4 w=5", "Put n=1 a=2 to=3 limit=4 w=5")
step("op=put n=12345678 a=1234567 to=123456 limit=12345 w=1234", "Put n=12345678 a=1234567 to=123456 limit=12345 w=1234")
step("op=i v=2", "Inhibit v=2")
step("op=i v=9", "Inhibit v=9")
step("op=i v=10", "Inhibit v=10")
step("op=i v=100", "Inhibit v=100")
step("op=i v=1000", "Inhibit v=1000")
step("op=i v=10000", "Inhibit v=10000")
step("op=i v=100000", "Inhibit v=100000")
step("op=i v=1000000", "Inhibit v=1000000")
step("op=i v=10000000", "Inhibit v=10000000")
step("op=i v=16777215", "Inhibit v=16777215")
step("op=i v=16777216", "Inhibit v=16777216")
step("op=i v=90909090", "Inhibit v=90909090")
module("n=1 kind=22 r=333 wide=4444", "Module n=1 kind=22 r=333 wide=4444")
module("n=4 kind=3 r=2 wide=1", "Module n=4 kind=3 r=2 wide=1")
module("n=12345678 kind=1234567 r=123456 wide=12345", "Module n=12345678 kind=1234567 r=123456 wide=12345")
module("n=1 kind=12 r=123 wide=12345678", "Module n=1 kind=12 r=123 wide=12345678")
module("n=0 kind=0 r=0 wide=0", "Module n=0 kind=0 r=0 wide=0")
module("n=24 kind=6 r=17 wide=3", "Module n=24 kind=6 r=17 wide=3")
module("n=23 kind=1 r=1 wide=2", "Module n=23 kind=1 r=1 wide=2")
module("n=3 kind=1 r=2 wide=10000000", "Module n=3 kind=1 r=2 wide=10000000")

# ---- 3. each field of each form in turn, the others 1: what the number may be
forms = [
    ("op=naf n={} a={} f={} w={}", "Command n={} a={} f={} w={}", 4),
    ("op=front n={} a={} v={}", "Front n={} a={} v={}", 3),
    ("op=i v={}", "Inhibit v={}", 1),
    ("op=scan n={} a={} f={} to={} limit={}", "Scan n={} a={} f={} to={} limit={}", 5),
    ("op=repeat n={} a={} f={} limit={} tries={}", "Repeat n={} a={} f={} limit={} tries={}", 5),
    ("op=stop n={} a={} f={} limit={}", "Stop n={} a={} f={} limit={}", 4),
    ("op=put n={} a={} to={} limit={} w={}", "Put n={} a={} to={} limit={} w={}", 5),
]
module_form = ("n={} kind={} r={} wide={}", "Module n={} kind={} r={} wide={}", 4)


def with_one(form, count, at, number):
    return form.format(*[number if i == at else "1" for i in range(count)])


def numbers(form, shown, count, good):
    for at in range(count):
        # 0 itself, and the greatest of eight digits
        good(with_one(form, count, at, "0"), with_one(shown, count, at, "0"))
        good(with_one(form, count, at, "99999999"), with_one(shown, count, at, "99999999"))
        # nine digits, leading zeros, no digit
        garbled(with_one(form, count, at, "100000000"))
        garbled(with_one(form, count, at, "00"))
        garbled(with_one(form, count, at, "01"))
        garbled(with_one(form, count, at, ""))


for form, shown, count in forms:
    numbers(form, shown, count, step)
numbers(*module_form, module)

# ---- 4. what is no number, at the end of a line and inside it
for bad in [
    "+1", "-1", "-0", "1.", "1.0", ".5", "1,000", "1_000", "0x1", "1e3", "1u", "x", "1x", "x1", "1 1", "'1'", '"1"', "1/1", "1:", "/", ":",
    "000000001", "00000000", "000000000", "999999999", "4294967295", "4294967296", "18446744073709551616", "1" * 40,
]:
    garbled("op=i v=" + bad)
    garbled("op=naf n=3 a=" + bad + " f=0 w=0")
    garbled("n=3 kind=" + bad + " r=1 wide=1")
    garbled("n=3 kind=1 r=1 wide=" + bad)

# ---- 5. fields missing, extra, twice, in another order, of another form
garbled(
    "op=naf", "op=naf ", "op=naf n=", "op=naf n=3", "op=naf n=3 a=0", "op=naf n=3 a=0 f=2", "op=naf n=3 a=0 f=2 ", "op=naf n=3 a=0 f=2 w=",
    "op=naf a=0 f=2 w=0", "op=naf n=3 f=2 w=0", "op=naf n=3 a=0 w=0", "op=naf n=3 a=0 f=2 w=0 w=0", "op=naf n=3 n=3 a=0 f=2 w=0",
    "op=naf n=3 a=0 f=2 w=0 v=0", "op=naf n=3 a=0 f=2 v=0", "op=naf a=0 n=3 f=2 w=0", "op=naf n=3 f=2 a=0 w=0", "op=naf n=3 a=0 w=0 f=2",
    "n=3 a=0 f=2 w=0", "n=3 op=naf a=0 f=2 w=0", "naf n=3 a=0 f=2 w=0", "op=naf 3 0 2 0", "op=naf n a f w", "op=naf =3 =0 =2 =0",
    "op=front", "op=front n=3", "op=front n=3 a=0", "op=front a=0 v=5", "op=front n=3 v=5", "op=front n=3 a=0 w=5", "op=front n=3 v=5 a=0",
    "op=front n=3 a=0 f=2 w=0", "op=front n=3 a=0 v=5 v=5", "op=front n=3 a=0 v",
    "op=z n=1", "op=z v=0", "op=c n=1", "op=c v=0", "op=lam n=1", "op=lam v=0", "op=z=", "op=z0", "op=c1", "op=lam1",
    "op=i", "op=i ", "op=i v", "op=i v=", "op=i 0", "op=i n=0", "op=i w=0", "op=i v=0 v=0", "op=i v=0 n=0", "op=iv=0", "v=0 op=i", "op=i=0",
    "op=scan n=3 a=0 f=0 to=5", "op=scan n=3 a=0 f=0 limit=8", "op=scan n=3 a=0 to=5 limit=8", "op=scan n=3 f=0 to=5 limit=8",
    "op=scan a=0 f=0 to=5 limit=8", "op=scan n=3 a=0 f=0 limit=8 to=5", "op=scan n=3 to=5 a=0 f=0 limit=8", "op=scan n=3 a=0 f=0 w=0",
    "op=scan n=3 a=0 f=0 to=5 limit=8 tries=1", "op=scan n=3 a=0 f=0 limit=3 tries=4", "op=scan n=3 a=0 f=0 to=5 limit=8 limit=8",
    "op=repeat n=7 a=1 f=2 limit=3", "op=repeat n=7 a=1 f=2 tries=4", "op=repeat n=7 a=1 f=2 tries=4 limit=3", "op=repeat n=7 a=1 limit=3 tries=4",
    "op=repeat n=7 a=1 f=2 to=5 limit=8", "op=repeat n=7 a=1 f=2 limit=3 tries=4 to=5", "op=repeat n=7 a=1 f=2 limit=3 tries=4 tries=4",
    "op=stop n=8 a=9 f=3", "op=stop n=8 a=9 limit=10", "op=stop n=8 a=9 f=3 tries=10", "op=stop n=8 a=9 f=3 to=9 limit=10",
    "op=stop n=8 a=9 f=3 limit=10 tries=1", "op=stop n=8 f=3 a=9 limit=10", "op=stop limit=10 n=8 a=9 f=3",
    "op=put", "op=put n=2 a=0 to=5 limit=10", "op=put n=2 a=0 to=5 limit=10 w=", "op=put n=2 a=0 to=5 w=7", "op=put n=2 a=0 limit=10 w=7",
    "op=put n=2 to=5 limit=10 w=7", "op=put a=0 to=5 limit=10 w=7", "op=put n=2 a=0 f=16 to=5 limit=10 w=7", "op=put n=2 a=0 to=5 limit=10 f=16 w=7",
    "op=put n=2 a=0 to=5 w=7 limit=10", "op=put n=2 a=0 limit=10 to=5 w=7", "op=put n=2 to=5 a=0 limit=10 w=7", "op=put n=2 a=0 to=5 limit=10 v=7",
    "op=put n=2 a=0 to=5 limit=10 w=7 w=7", "op=put n=2 a=0 to=5 limit=10 w=7 tries=1", "op=put n=2 a=0 f=16 w=7", "op=scan n=2 a=0 to=5 limit=10 w=7",
    "n=3", "n=3 kind=1", "n=3 kind=1 r=2", "n=5 kind=4 r=1", "n=3 kind=1 wide=1", "n=3 r=2 wide=1", "kind=1 r=2 wide=1", "wide=1",
    "n= kind= r= wide=", "n kind r wide", "3 1 2 1", "n=3 kind=1 r wide=1", "n=3 kind=1 r=2 wide", "n=3 kind=1 r=2 wide=", "n=3 kind=1 r=2 1", "n=3 kind=1 r=2 =1",
    "n=3 r=2 kind=1 wide=1", "kind=1 n=3 r=2 wide=1", "n=3 kind=1 wide=1 r=2", "n=3 wide=1 kind=1 r=2", "wide=1 n=3 kind=1 r=2",
    "n=3 kind=1 r=2 r=2 wide=1", "n=3 n=3 kind=1 r=2 wide=1", "n=3 kind=1 r=2 wide=1 wide=1", "n=3 kind=1 r=2 wide=1 r=2", "n=3 kind=1 r=2 r=2",
    "n=3 kind=1 r=2 wide=1 s=2", "n=3 kind=1 r=2 s=2 wide=1", "n=3 kind=1 r=2 wide=1 t=1", "n=3 kind=1 r=2 s=2", "n=3 kind=1 r=2 w=1", "n=3 kind=1 r=2 wid=1",
    "n=3 kind=1 r=2 width=1", "n=3 kind=1 r=2 wide=two", "n=3 kind=scaler r=2 wide=1", "op=n n=3 kind=1 r=2 wide=1",
)

# ---- 6. spaces: before, after, doubled, missing, beside the sign of equality; a tab for a space
def spaces(line):
    garbled(" " + line, line + " ", "  " + line, line + "  ", "\t" + line, line + "\t")
    garbled(line.replace("=", " =", 1), line.replace("=", "= ", 1))
    if " " in line:
        garbled(line.replace(" ", "  ", 1), line.replace(" ", "", 1), line.replace(" ", "\t", 1), line.replace(" ", "\v", 1))
        garbled("  ".join(line.rsplit(" ", 1)), "".join(line.rsplit(" ", 1)), "\t".join(line.rsplit(" ", 1)))


for line in ["op=naf n=3 a=0 f=2 w=0", "op=front n=3 a=0 v=5", "op=z", "op=c", "op=i v=0", "op=lam", "op=scan n=3 a=0 f=0 to=5 limit=8",
             "op=repeat n=7 a=1 f=2 limit=3 tries=4", "op=stop n=8 a=9 f=3 limit=10", "op=put n=2 a=0 to=5 limit=10 w=7", "n=3 kind=1 r=2 wide=1"]:
    spaces(line)
garbled(" ", "  ", "\t", "=", "n", "o", "op", "n=3 kind=1r=2 wide=1", "n=3 kind=1  r=2 wide=1", "n=3 kind=1 r=2 wide =1", "n=3 kind=1 r=2 wide= 1", "n=3 kind=1 r=2 wi de=1")

# ---- 7. capitals
def capitals(line):
    garbled(line.upper(), line[0].upper() + line[1:])


for line in ["op=naf n=3 a=0 f=2 w=0", "op=front n=3 a=0 v=5", "op=z", "op=c", "op=i v=0", "op=lam", "op=scan n=3 a=0 f=0 to=5 limit=8",
             "op=repeat n=7 a=1 f=2 limit=3 tries=4", "op=stop n=8 a=9 f=3 limit=10", "op=put n=2 a=0 to=5 limit=10 w=7", "n=3 kind=1 r=2 wide=1"]:
    capitals(line)
garbled("op=Z", "op=C", "op=I v=0", "op=i V=0", "op=Lam", "op=LAM", "op=naf N=3 a=0 f=2 w=0", "op=naf n=3 a=0 f=2 W=0", "op=NAF n=3 a=0 f=2 w=0",
        "op=scan n=3 a=0 f=0 to=5 Limit=8", "N=3 kind=1 r=2 wide=1", "n=3 Kind=1 r=2 wide=1", "n=3 kind=1 R=2 wide=1", "n=3 kind=1 r=2 Wide=1",
        "n=3 kind=1 r=2 WIDE=1")

# ---- 8. ops that are none, and words that nearly are
garbled("op=", "op=x", "op=zz", "op=cc", "op=zc", "op=la", "op=lamp", "op=lamm", "op=lam=", "op=na", "op=nafn=3 a=0 f=2 w=0", "op=nafs n=3 a=0 f=2 w=0",
        "op=fron n=3 a=0 v=5", "op=fronts n=3 a=0 v=5", "op=sca n=3 a=0 f=0 to=5 limit=8", "op=scans n=3 a=0 f=0 to=5 limit=8",
        "op=pu n=2 a=0 to=5 limit=10 w=7", "op=puts n=2 a=0 to=5 limit=10 w=7", "op=putn=2 a=0 to=5 limit=10 w=7", "op=p", "op=putl n=2 a=0 to=5 limit=10",
        "op=load n=3 a=0 limit=8 w=1", "op=near n=3", "op=read n=3 a=0 f=0 w=0", "op=end", "op=quit", "op==z", "op:z", "op z", "opz", "z", "c", "lam",
        "p=z", "op=z;", "op=z#", "# op=z", "//", "op=zop=c", "op=z op=c", "op=z,op=c", "op=i v=0 op=z", "oop=z", "0p=z", "op=2", "op=0")

# ---- 9. odd bytes: CR before the LF, NUL, bytes above 127
def odd_bytes(line):
    garbled(line + b"\r", line + b"\0", b"\0" + line, b"\xef\xbb\xbf" + line, line + b"\xff", line.replace(b"=", b"\0=", 1))


for line in [b"op=naf n=3 a=0 f=2 w=0", b"op=front n=3 a=0 v=5", b"op=z", b"op=c", b"op=i v=0", b"op=lam", b"op=scan n=3 a=0 f=0 to=5 limit=8",
             b"op=repeat n=7 a=1 f=2 limit=3 tries=4", b"op=stop n=8 a=9 f=3 limit=10", b"op=put n=2 a=0 to=5 limit=10 w=7", b"n=3 kind=1 r=2 wide=1"]:
    odd_bytes(line)
garbled(b"\r", b"\0", b"\0\0\0\0", b"\x7f", b"\x80", b"\xff", b"op=\0", b"op=\xfa", b"op=i v=\0", b"op=i v=0\0000", b"op=i v=\xb0", b"op=i v=\xff",
        b"op=i v=\x30\x00", b"op=i v=\xef\xbc\x91", b"op=i\xa0v=0", b"op=i\xc2\xa0v=0", b"n=\xb3 kind=1 r=2 wide=1", b"n=3 kind=1 r=\xb2 wide=1",
        b"n=3 kind=1 r=2 wide=\xb1", b"n=3\0kind=1 r=2 wide=1", b"n=3 kind=1 r=2\0wide=1",
        b"\xeeop=z", b"op=\x1bz", b"op=\x08z", b"op=i v=0\x0b", b"op=i v=0\x0c", b"op=i v=0\x1a")

# ---- 10. lengths: the longest lines in form have 72 and 49 bytes; over 80 bytes is garbled whatever it holds
step("op=repeat n=99999999 a=99999999 f=99999999 limit=99999999 tries=99999999",
     "Repeat n=99999999 a=99999999 f=99999999 limit=99999999 tries=99999999")
step("op=put n=99999999 a=99999999 to=99999999 limit=99999999 w=99999999", "Put n=99999999 a=99999999 to=99999999 limit=99999999 w=99999999")
step("op=scan n=10000000 a=20000000 f=30000000 to=40000000 limit=50000000", "Scan n=10000000 a=20000000 f=30000000 to=40000000 limit=50000000")
module("n=99999999 kind=99999999 r=99999999 wide=99999999", "Module n=99999999 kind=99999999 r=99999999 wide=99999999")
garbled("op=repeat n=99999999 a=99999999 f=99999999 limit=99999999 tries=999999999")
garbled("op=put n=99999999 a=99999999 to=99999999 limit=99999999 w=999999999")
garbled("n=99999999 kind=99999999 r=999999999 wide=99999999")
garbled("n=99999999 kind=99999999 r=99999999 wide=999999999")
for long in [79, 80, 81, 82, 200]:
    garbled("op=z".ljust(long), "op=i v=0".ljust(long, "0"), "op=i v=".ljust(long, "1"), "op=repeat n=7 a=1 f=2 limit=3 tries=4".ljust(long, "5"),
            "n=3 kind=1 r=2 wide=1".ljust(long), "n=3 kind=1 r=2 wide=1".ljust(long, "2"), "op=z".rjust(long), "n=3 kind=1 r=2 wide=1".rjust(long), "x" * long,
            "9" * long)
garbled("op=z".ljust(100000), "n=3 kind=1 r=2 wide=".ljust(100000, "1"))

# ---- 11. empty lines among good ones: a garbled line changes nothing about the next
garbled("")
step("op=z", "Z")
garbled("", "", "op=zop=z")
module("n=3 kind=1 r=2 wide=1", "Module n=3 kind=1 r=2 wide=1")
garbled("n=3 kind=1 r=2 wide=1n=3 kind=1 r=2 wide=1")

step("op=naf n=23 a=15 f=31 w=16777215", "Command n=23 a=15 f=31 w=16777215")

# ---- 12. registers inside a window: of this form what groups 1 to 10 have of the others
listing = "op=within n=3 to=7 lo=2 hi=1"
step(listing, "Within n=3 to=7 lo=2 hi=1")
step("op=within n=1 to=23 lo=8388608 hi=16777215", "Within n=1 to=23 lo=8388608 hi=16777215")
step("op=within n=50 to=40 lo=30 hi=20", "Within n=50 to=40 lo=30 hi=20")
step("op=within n=12345678 to=1234567 lo=123456 hi=12345", "Within n=12345678 to=1234567 lo=123456 hi=12345")
numbers("op=within n={} to={} lo={} hi={}", "Within n={} to={} lo={} hi={}", 4, step)
garbled(
    "op=within", "op=within ", "op=within n=3", "op=within n=3 to=7", "op=within n=3 to=7 lo=2", "op=within n=3 to=7 lo=2 ", "op=within n=3 to=7 lo=2 hi=",
    "op=within n=3 to=7 hi=1", "op=within n=3 lo=2 hi=1", "op=within to=7 lo=2 hi=1", "op=within n=3 to=7 hi=1 lo=2", "op=within n=3 lo=0 hi=1 to=7",
    "op=within to=7 n=3 lo=2 hi=1", "op=within lo=2 hi=1 n=3 to=7", "op=within n=3 a=0 to=7 lo=2 hi=1", "op=within n=3 to=7 lo=2 hi=1 hi=1",
    "op=within n=3 to=7 lo=2 hi=1 limit=8", "op=within n=3 to=7 lo=2 hi", "op=within n=3 to=7 low=2 high=1", "op=within n=3 to=7 l=2 h=1",
    "op=withi n=3 to=7 lo=2 hi=1", "op=withins n=3 to=7 lo=2 hi=1", "op=withinn=3 to=7 lo=2 hi=1", "op=with n=3 to=7 lo=2 hi=1", "op=inside n=3 to=7 lo=2 hi=1",
    "op=w", "op=w n=3 to=7 lo=2 hi=1", "op=Within n=3 to=7 lo=2 hi=1", "op=within n=3 to=7 lo=2 Hi=1", "op=within n=-1 to=7 lo=2 hi=1",
    "op=within n=3 to=7 lo=-1 hi=1", "op=scan n=3 to=7 lo=2 hi=1", "op=within n=3 a=0 f=0 to=7 limit=8",
)
spaces(listing)
capitals(listing)
odd_bytes(listing.encode())
step("op=within n=99999999 to=99999999 lo=99999999 hi=99999999", "Within n=99999999 to=99999999 lo=99999999 hi=99999999")
garbled("op=within n=99999999 to=99999999 lo=99999999 hi=999999999", listing.ljust(80, "5"), listing.ljust(81, "5"), listing.ljust(81))

# ---- 13. the last line, which lacks its LF
step("op=within n=23 to=23 lo=16777215 hi=16777215", "Within n=23 to=23 lo=16777215 hi=16777215")

here = os.path.dirname(os.path.abspath(__file__))
assert all(b"\n" not in line for line, _, _ in rows)
with open(os.path.join(here, "stdin"), "wb") as out:
    out.write(b"\n".join(line for line, _, _ in rows))
with open(os.path.join(here, "stdout"), "w") as out:
    out.writelines(f"{k}: {run}, {crate}\n" for k, (_, run, crate) in enumerate(rows, 1))
