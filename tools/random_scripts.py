#!/usr/bin/env python3
"""Feeds the program random scripts, good and damaged, and compares its answer with docs/formats.md.

    tools/random_scripts.py PROGRAM [COUNT] [SEED]

PROGRAM is the built program (crates/cfs/out/..., or the script ./cfs). What each script must give is told by `judged`
below, which goes by the tables of docs/formats.md and by nothing of the program's. For a script with a fault it must be
status 3 and the line `cfs: line N: FAULT`, with nothing on standard output; for a script without one it must be status 0
and a text that begins with `cfs 1` and ends with an `s` line. Ends with status 1 at the first script that is answered
otherwise, and prints that script.
"""
import random
import subprocess
import sys

MOST_BYTES = 4_194_304
MOST_LINE = 4_096
ONE_PATH = {"lookup", "list", "stat", "create", "mkdir", "unlink", "rmdir"}
BUILT = {"lookup", "list", "create", "mkdir"}


def number(word, least, most):
    """The number, or None where the word is not written so or is out of the range."""
    if not word or any(b not in b"0123456789" for b in word):
        return None
    if len(word) > 1 and word[:1] == b"0":
        return None
    value = int(word)
    return value if least <= value <= most else None


def path(text):
    """The components, or None where the text is no path but the root's."""
    if len(text) > 1_024 or text[:1] != b"/":
        return None
    parts = text[1:].split(b"/")
    if len(parts) > 64:
        return None
    for part in parts:
        if part in (b"", b".", b".."):
            return None
        if any(b < 0x21 or b == 0x7F for b in part):
            return None
    return parts


def client_line(words, seen):
    """The fault of the words behind `client`, or None; `seen` counts commands and lists, and has the clients."""
    if len(words) < 2:
        return "BadCommand"
    verb = words[1].decode("latin-1")
    operands = words[2:]
    wanted = 1 if verb in ONE_PATH else 2 if verb in ("truncate", "rename") else None
    if wanted is None or len(operands) != wanted:
        return "BadCommand"
    client = number(words[0], 1, 32)
    if client is None:
        return "BadNumber"
    if verb == "truncate" and number(operands[1], 0, 2**63 - 1) is None:
        return "BadNumber"
    texts = operands[:1] if verb == "truncate" else operands
    paths = []
    for text in texts:
        if verb in ("list", "stat") and text == b"/":
            paths.append([])
        else:
            paths.append(path(text))
    if any(p is None for p in paths):
        return "BadPath"
    if seen["commands"] >= 65_536 or (verb == "list" and seen["lists"] >= 128):
        return "TooMany"
    if verb not in BUILT:
        return "NotBuilt"
    seen["commands"] += 1
    seen["lists"] += verb == "list"
    seen["clients"].add(client)
    return None


def stop_line(words, seen):
    if len(words) != 2:
        return "BadCommand"
    client = number(words[0], 1, 32)
    steps = number(words[1], 0, 1_000_000)
    if client is None or steps is None or client not in seen["clients"]:
        return "BadNumber"
    return "NotBuilt"


def turns_line(words, seen):
    if not words:
        return "BadCommand"
    total, built = 0, True
    for word in words:
        parts = word.split(b"*")
        count = 1 if len(parts) == 1 else number(parts[1], 1, 1_000_000) if len(parts) == 2 else None
        if count is None:
            return "BadNumber"
        if parts[0] in (b"r", b"g"):
            built = False
        elif number(parts[0], 1, 32) not in seen["clients"]:
            return "BadNumber"
        total += count
    if seen["turns"] + total > 1_000_000:
        return "TooMany"
    if not built:
        return "NotBuilt"
    seen["turns"] += total
    return None


def line_fault(text, seen):
    """The fault of a line of this text, or None."""
    if text[:1] == b"#":
        return None
    words = [word for word in text.split(b" ") if word]
    if not words:
        return None
    first, behind = words[0], words[1:]
    if first not in (b"places", b"client", b"stop", b"turns"):
        return "BadCommand"
    if not seen["places"]:
        if first != b"places":
            return "NoPlaces"
        if len(behind) != 2:
            return "BadCommand"
        if any(number(word, 1, 64) is None for word in behind):
            return "BadNumber"
        seen["places"] = True
        return None
    if first == b"places" or (first in (b"client", b"stop") and seen["turns"]):
        return "LateLine"
    if first == b"client":
        return client_line(behind, seen)
    return stop_line(behind, seen) if first == b"stop" else turns_line(behind, seen)


def judged(script):
    """(line, fault) of the first line that has a fault, or None."""
    seen = {"places": False, "commands": 0, "lists": 0, "turns": 0, "clients": set()}
    at, line = 0, 0
    while at < len(script):
        line += 1
        end = script.find(b"\n", at)
        has_end = end >= 0
        stop = end if has_end else len(script)
        if (stop if has_end else stop - 1) >= MOST_BYTES:
            return line, "TooMany"
        text = script[at:stop]
        if len(text) > MOST_LINE:
            return line, "LineTooLong"
        if has_end and text[-1:] == b"\r":
            text = text[:-1]
        fault = line_fault(text, seen)
        if fault:
            return line, fault
        at = stop + 1
    return None if seen["places"] else (line + 1, "NoPlaces")


# ---- scripts at random


def some_number(r, good):
    if r.random() < 0.93:
        return str(good)
    return r.choice(["0", "00", "01", "-1", "+1", "33", "65", "1000001", "9223372036854775807", "9223372036854775808",
                     "18446744073709551616", "x", "1x", ""])


def some_path(r):
    if r.random() < 0.85:
        return "/" + r.choice(["a", "b", "c", "x.y", "...", "~", "\u00e9", "=", "-"])
    name = r.choice(["", ".", "..", "a", "n" * 255, "n" * 256, "\t", "\x7f", "a/b", "/".join("d" * 64),
                     "/".join("d" * 65), "p" * 1_023, "p" * 1_024])
    return r.choice(["/", "//", ""]) + name + r.choice(["", "", "", "/"])


def some_command(r):
    if r.random() < 0.8:
        verb = r.choice(["create", "mkdir", "lookup", "lookup"])
        return f"{verb} {some_path(r)}"
    verb = r.choice(["list", "list", "stat", "unlink", "rmdir", "truncate", "rename", "Create", "move"])
    operands = [some_path(r) if verb != "list" or r.random() < 0.3 else "/"]
    if verb == "truncate":
        operands.append(some_number(r, r.randrange(100)))
    if verb == "rename":
        operands.append(some_path(r))
    if r.random() < 0.05:
        operands.append("/z")
    return f"{verb} {' '.join(operands)}"


def some_turn(r, clients):
    actor = str(r.choice(clients)) if clients and r.random() < 0.97 else r.choice(["r", "g", "33", "0", "q", ""])
    return actor if r.random() < 0.7 else f"{actor}*{some_number(r, r.randrange(1, 9))}"


def spelled(r, line):
    """The line with more spaces, and with an end."""
    if r.random() < 0.1:
        line = line.replace(" ", " " * r.randrange(1, 4))
    if r.random() < 0.05:
        line = " " + line + "  "
    return line + r.choice(["\n", "\n", "\n", "\r\n"])


def some_script(r):
    lines = []
    if r.random() < 0.97:
        lines.append(f"places {some_number(r, r.randrange(1, 5))} {some_number(r, r.randrange(1, 5))}")
    clients = []
    for _ in range(r.randrange(12)):
        client = r.randrange(1, 33)
        lines.append(f"client {some_number(r, client)} {some_command(r)}")
        clients.append(client)
    if r.random() < 0.05:
        lines.append(f"stop {some_number(r, r.choice(clients or [1]))} {some_number(r, 3)}")
    for _ in range(r.randrange(4)):
        lines.append("turns " + " ".join(some_turn(r, clients) for _ in range(r.randrange(1, 9))))
    for _ in range(r.randrange(3)):
        silent = r.choice(["", "  ", "# note", "#", " # x", "#" * 4_096, "#" * 4_097, " " * 4_096, " " * 4_097])
        lines.insert(r.randrange(len(lines) + 1), silent)
    if lines and r.random() < 0.05:
        lines.append(r.choice(lines))
    script = "".join(spelled(r, line) for line in lines).encode("utf-8")
    return damaged(r, script)


def damaged(r, script):
    """The script, a few bytes of it changed at times."""
    bytes_ = bytearray(script)
    if r.random() < 0.3 and bytes_:
        for _ in range(r.randrange(1, 3)):
            at = r.randrange(len(bytes_))
            kind = r.random()
            if kind < 0.4:
                bytes_[at] = r.choice(b"\0\t\r\n #*/0129azr\x7f\x80\xff")
            elif kind < 0.7:
                del bytes_[at]
                if not bytes_:
                    break
            else:
                bytes_.insert(at, r.choice(b"\0\r\n #*/0 19ag\xfe"))
    if r.random() < 0.1:
        bytes_ = bytes_[: r.randrange(len(bytes_) + 1)]
    if r.random() < 0.1 and bytes_[-1:] == b"\n":
        del bytes_[-1:]
    return bytes(bytes_)


def special_scripts():
    """Limits that random scripts don't reach."""
    places = b"places 1 1\n"
    look = b"client 1 lookup /a\n"
    yield places + b"client 1 list /\n" * 128
    yield places + b"client 1 list /\n" * 129
    yield places + look * 65_536
    yield places + look * 65_536 + b"client 2 lookup /a\n"
    yield places + look + b"turns 1*1000000\n"
    yield places + look + b"turns 1*1000000 1\n"
    yield places + look + b"turns 1*999999\nturns 1\nturns 1\n"
    yield places + look + b"turns 1*1000000 1*1000000 x\n"
    yield places + b"#" * (MOST_LINE - 1) + b"\n" + b" " * (MOST_LINE - 1) + b"\r\n"
    filler = (b"#" * 4_095 + b"\n") * 1_023
    for extra in (MOST_BYTES - 1, MOST_BYTES, MOST_BYTES + 1):
        text = places + filler
        last = extra - len(text)
        yield text + b"#" * last
        yield text + b"#" * (last - 1) + b"\n"
    yield b"\n" * MOST_BYTES
    yield b"\n" * (MOST_BYTES + 1)
    yield b" " * 5_000_000
    yield places + look + b"turns" + b" 1" * 2_045 + b"\n"
    yield places + look + b"turns" + b" 1" * 2_046 + b"\n"


def check(program, script):
    ran = subprocess.run(program + ["replay"], input=script, capture_output=True, timeout=300)
    fault = judged(script)
    if fault:
        want = (3, b"cfs: line %d: %s\n" % (fault[0], fault[1].encode()), b"")
        got = (ran.returncode, ran.stderr, ran.stdout)
    else:
        want = (0, b"", True)
        lines = ran.stdout.split(b"\n")
        well = lines[0] == b"cfs 1" and lines[-1] == b"" and lines[-2].startswith(b"s steps=")
        got = (ran.returncode, ran.stderr, well)
    if got != want:
        print("script:", script[:2_000])
        print("wanted:", want)
        print("got:", got)
        sys.exit(1)
    return fault


def main():
    program = [sys.argv[1]]
    count = int(sys.argv[2]) if len(sys.argv) > 2 else 3_000
    r = random.Random(int(sys.argv[3]) if len(sys.argv) > 3 else 1)
    tally = {}
    for script in special_scripts():
        check(program, script)
    for _ in range(count):
        fault = check(program, some_script(r))
        name = fault[1] if fault else "Done"
        tally[name] = tally.get(name, 0) + 1
    print(", ".join(f"{name} {tally[name]}" for name in sorted(tally)))


main()
