"""The library as the test scripts reach it: tests/c/driver.c and its two other parts, built and called line by line."""

import json
import os
import subprocess
import sys

ROOT = os.path.dirname(os.path.dirname(os.path.dirname(os.path.abspath(__file__))))
DRIVER = os.path.join(ROOT, "target", "tests", "driver")
SOURCES = [os.path.join(ROOT, "tests", "c", name) for name in ("driver.c", "driver_sessions.c", "driver_files.c")]
HEADERS = [os.path.join(ROOT, "tests", "c", "driver.h"), os.path.join(ROOT, "include", "sudolog.h")]
MADE = os.path.join(ROOT, "target", "staticlib", "libsudolog.a")

HELP = """The library is target/staticlib/libsudolog.a (./build), or the archive
that SUDOLOG_LIB names."""



def archive():
    """The archive to test, and whether it is the one that rt makes."""
    named = os.environ.get("SUDOLOG_LIB")
    return (named, False) if named else (MADE, True)


def build():
    """Makes the driver where it is missing or older than what it is made of. For an archive named by
    SUDOLOG_LIB it is made each time: the driver does not show which archive is in it."""
    lib, usual = archive()
    if not os.path.exists(lib):
        sys.exit(f"no library at {lib}: run ./build first, or set SUDOLOG_LIB")
    newest = max(os.path.getmtime(part) for part in SOURCES + HEADERS + [lib])
    if usual and os.path.exists(DRIVER) and os.path.getmtime(DRIVER) > newest:
        return
    os.makedirs(os.path.dirname(DRIVER), exist_ok=True)
    flags = ["-std=c11", "-O2", "-Wall", "-Wextra", "-Werror", "-I", os.path.join(ROOT, "include")]
    subprocess.run(["gcc", *flags, "-o", DRIVER, *SOURCES, lib], check=True)


class Library:
    """A running driver."""

    def __init__(self):
        build()
        self.driver = subprocess.Popen([DRIVER], stdin=subprocess.PIPE, stdout=subprocess.PIPE)

    def ask(self, *words):
        """One request of driver.c; its answer as a Python value."""
        return self.ask_all([words])[0]

    def ask_all(self, requests):
        """Some requests at once, which is quicker: together their answers must fit into a pipe."""
        self.driver.stdin.write(b"".join(" ".join(words).encode() + b"\n" for words in requests))
        self.driver.stdin.flush()
        return [self.answer_to(words) for words in requests]

    def answer_to(self, words):
        answer = self.driver.stdout.readline()
        if not answer:
            sys.exit(f"the driver ended (status {self.driver.wait()}) at: {' '.join(words)[:2000]}")
        return json.loads(answer)

    def stored(self, stream):
        """The file that the library stores of a client's stream, over an area of 65,536 bytes."""
        rest, used = stream.hex(), 0
        self.ask("area", "0", "65536", "")
        self.ask("open", "0")
        while rest:
            end = 8 + 2 * self.ask("frame", rest)["frame"]
            used = self.ask("message", "0", "0", str(used), rest[8:end])["used"]
            rest = rest[end:]
        return bytes.fromhex(self.ask("bytes", "0", "0", str(used))["bytes"])
