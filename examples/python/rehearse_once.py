"""A scaler in station 3 and an output register in station 4, rehearsed line by line, by ctypes. From the repository's root:

    ./build.sh library
    gcc -shared -o target/libpagontxu.so -Wl,--whole-archive target/staticlib/libcapi.a -Wl,--no-whole-archive
    python3 examples/python/rehearse_once.py target/libpagontxu.so
"""
import ctypes
import sys

WORDS = ctypes.POINTER(ctypes.c_uint32)
SIZE = ctypes.c_size_t
WORD = ctypes.c_uint32


def load(path):
    """The library, with the types of its functions as pagontxu.h declares them."""
    lib = ctypes.CDLL(path)
    slices = {
        "pagontxu_crate_line": [WORDS, SIZE, WORD, ctypes.c_char_p, SIZE],
        "pagontxu_run_line": [WORDS, SIZE, ctypes.c_char_p, SIZE, WORDS, SIZE, WORDS, SIZE],
        "pagontxu_step": [WORDS, SIZE, WORDS, SIZE, WORDS, SIZE, WORDS, SIZE],
        "pagontxu_list": [WORDS, SIZE, SIZE, WORDS, SIZE, WORDS, SIZE, WORDS, SIZE],
    }
    for name, types in slices.items():
        function = getattr(lib, name)
        function.argtypes = types
        function.restype = WORD
    return lib


class Crate:
    """A crate memory of 768 words with a buffer of 512."""

    NAMES = {
        0: ("refused",),
        1: ("x", "q", "r"),
        2: ("taken",),
        3: ("done",),
        4: ("l", "count", "first"),
        5: ("end", "words", "cycles"),
        6: ("end", "words", "cycles"),
        7: ("words",),
    }
    STORED = {5: 2, 7: 1}  # of a transfer and of a listing: which word of the answer counts those in the buffer

    def __init__(self, lib, lines):
        self.lib = lib
        self.memory = (WORD * 768)()
        self.buffer = (WORD * 512)()
        self.answer = (WORD * 4)()
        previous = 0
        for line in lines:
            number = lib.pagontxu_crate_line(self.memory, 768, previous, line, len(line))
            if number:
                raise ValueError(f"{line!r} refused={number}")
            previous = int(line.split()[0][2:])

    def run_line(self, line):
        self.lib.pagontxu_run_line(self.memory, 768, line, len(line), self.answer, 4, self.buffer, 512)
        return self.told()

    def step(self, *words):
        six = (WORD * 6)(*words)
        self.lib.pagontxu_step(self.memory, 768, six, 6, self.answer, 4, self.buffer, 512)
        return self.told()

    def told(self):
        """The answer as the sheet of a rehearsal prints it, without the step's number."""
        names = self.NAMES[self.answer[0]]
        lines = [" ".join(f"{name}={value}" for name, value in zip(names, self.answer[1:]))]
        if self.answer[0] in self.STORED:
            lines += [f"word={word}" for word in self.buffer[: self.answer[self.STORED[self.answer[0]]]]]
        return "\n".join(lines)


def main():
    if len(sys.argv) != 2 or sys.argv[1].startswith("-"):
        sys.exit("usage: rehearse_once.py LIBRARY    the library for C as a shared one, as target/libpagontxu.so")
    try:
        lib = load(sys.argv[1])
    except (OSError, AttributeError) as error:
        sys.exit(f"{sys.argv[1]} is not the library: {error}")
    crate = Crate(lib, [b"n=3 kind=1 r=2 wide=1", b"n=4 kind=2 r=2 wide=1"])
    for line in (
        b"op=front n=3 a=0 v=16777215",
        b"op=naf n=3 a=0 f=26 w=0",
        b"op=front n=3 a=0 v=1",
        b"op=lam",
        b"op=front n=3 a=1 v=7",
        b"op=within n=3 to=4 lo=1 hi=100",
    ):
        print(crate.run_line(line))
    print(crate.step(7, 3, 0, 2, 3, 8))
    print(crate.run_line(b"op=put n=4 a=0 to=4 limit=2 w=5"))
    print(crate.run_line(b"op=naf n=4 a=1 f=18 w=8"))
    print(crate.run_line(b"op=scan n=4 a=0 f=0 to=4 limit=2"))
    print(crate.run_line(b"op=c"))
    print(crate.step(11, 4, 0, 4, 2))  # puts the words back that the scan saved in the buffer
    print(crate.run_line(b"op=scan n=4 a=0 f=0 to=4 limit=2"))
    print(crate.run_line(b"op=naf n=25 a=0 f=0 w=0"))


if __name__ == "__main__":
    main()
