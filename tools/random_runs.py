#!/usr/bin/env python3
"""Replays random scripts, and judges each output by one tree that answers one call after the other.

    tools/random_runs.py PROGRAM [COUNT] [SEED]

PROGRAM is the built program (crates/cfs/out/..., or the script ./cfs). The judge below goes by docs/formats.md and by
nothing of the program's. Of each output it asks that

- each `l` line has its point between its call's first and last step, and the lines stand in order;
- no two moves stand at one position, and of two calls of a client one has ended before the other begins;
- each reply is that of the tree so far, and the `t` and `u` lines are the tree that the moves end in;
- each client's calls are those that its commands make, by the replies, and each `c` line is what they come to;
- the `s` line counts them.

Ends with status 1 at the first output that breaks one of these, and prints it with its script.
"""
import random
import subprocess
import sys

NAMES = ["a", "b", "c"]
LONG = "n" * 256


class Broken(Exception):
    """What the output breaks."""


def ask(fact, what):
    if not fact:
        raise Broken(what)


class Tree:
    """Directories, each with its names and its time, and files with their times. The root is 0."""

    def __init__(self):
        self.dirs = {0: ({}, 0)}
        self.files = {}

    def answer(self, call):
        verb, directory = call[0], self.dirs.get(int(call[1]))
        if directory is None:
            return "ENOENT"
        names = directory[0]
        if verb == "lookup":
            return "node " + names[call[2]] if call[2] in names else "ENOENT"
        if verb == "list":
            rows = sorted(names.items(), key=lambda row: row[0].encode())
            return "\n".join([f"rows {len(rows)}"] + [f"r {name} {node}" for name, node in rows])
        ask(verb in ("create", "mkdir"), "a call that no script makes")
        return "EEXIST" if call[2] in names else "ok"

    def move(self, call, node, time):
        ask(self.answer(call) == "ok", "a move that the tree refuses")
        kind, number = node[0], int(node[1:])
        made = self.dirs if kind == "d" else self.files
        ask(kind == ("d" if call[0] == "mkdir" else "f") and number not in made, "a node of another kind, or an old one")
        names, old = self.dirs[int(call[1])]
        self.dirs[int(call[1])] = ({**names, call[2]: node}, max(old, time))
        made[number] = ({}, time) if kind == "d" else time

    def facts(self, node):
        if node[0] == "f":
            return f"size=0 time={self.files[int(node[1:])]}"
        names, time = self.dirs[int(node[1:])]
        links = 2 + sum(child[0] == "d" for child in names.values())
        return f"children={len(names)} links={links} time={time}"

    def lines(self):
        out = ["t 0 / d0 " + self.facts("d0")]
        for number in sorted(self.dirs):
            for name in sorted(self.dirs[number][0], key=str.encode):
                node = self.dirs[number][0][name]
                out.append(f"t {number} {name} {node} {self.facts(node)}")
        return out


def walked(command, replies):
    """The calls that the command makes while replies are left, and its answer, or None."""
    verb, text = command
    names = [name for name in text.split("/") if name]
    if any(len(name.encode()) > 255 for name in names):
        return [], "ENAMETOOLONG"
    calls, directory = [], "0"
    replies = iter(replies)
    for name in names if verb == "list" else names[:-1]:
        calls.append(f"lookup {directory} {name}")
        reply = next(replies, None)
        if reply is None:
            return calls, None
        if not reply.startswith("node "):
            return calls, reply
        if reply[5] == "f":
            return calls, "ENOTDIR"
        directory = reply[6:]
    calls.append(f"list {directory}" if verb == "list" else f"{verb} {directory} {names[-1]}")
    return calls, next(replies, None)


def command_word(reply):
    """A reply as a `c` line has it."""
    if reply.startswith("ok "):
        return "OK"
    if reply.startswith("node "):
        return "NODE " + reply[5:]
    return "LIST " + reply.split()[1] if reply.startswith("rows ") else reply


def read_lines(lines):
    """The `l` lines: client, first, at, last, call, outcome with its rows."""
    out = []
    for line in lines:
        if line.startswith("r "):
            out[-1][5] += "\n" + line
            continue
        words = line.split(" ")
        equals = words.index("=", 6)
        positions = [None if word == "-" else int(word) for word in words[2:5]]
        out.append([int(words[1]), *positions, words[5:equals], " ".join(words[equals + 1 :])])
    return out


def outcome_of(text):
    """(whether it is a move, its time, its node) of an outcome."""
    words = text.split(" ")
    moved = words[0] in ("ok", "unfinished") and words[1] != "-"
    return moved, int(words[1]) if moved else 0, words[2] if moved else None


def judge_history(history):
    tree, moves, before = Tree(), set(), None
    for client, first, at, last, call, outcome in history:
        moved, time, node = outcome_of(outcome)
        finished = not outcome.startswith("unfinished")
        ask(finished == (last is not None) and (at is not None or not (finished or moved)), "a position that is missing")
        if at is not None:
            ask(first <= at and (last is None or at <= last + (not moved)), "a point outside its call")
        key = (at is None, at, moved, client, first)
        if at is None:
            key = (True, 0, False, client, first)
        ask(before is None or before < key, "lines out of order")
        before = key
        if moved:
            ask(at not in moves, "two moves at one position")
            moves.add(at)
            tree.move(call, node, time)
        elif finished:
            ask(tree.answer(call) == outcome, f"a reply that is not the tree's: {outcome}")
    return tree


def judge_client(client, commands, history):
    """The client's calls one after the other, and its `c` lines."""
    mine = sorted((line for line in history if line[0] == client), key=lambda line: line[1])
    for earlier, later in zip(mine, mine[1:]):
        ask(earlier[3] is not None and earlier[3] < later[1], "a call that begins before the one before it has ended")
    calls = [" ".join(line[4]) for line in mine]
    replies = [line[5] for line in mine if line[3] is not None]
    lines, at = [], 0
    for number, command in enumerate(commands, 1):
        made, answer = walked(command, replies[at:])
        begun = made[: len(calls) - at]
        ask(calls[at : at + len(begun)] == begun, "a call that its command does not make")
        at += len(begun)
        if answer is None:
            if begun:
                lines.append(f"c {client} {number} -")
            break
        lines.append(f"c {client} {number} {command_word(answer)}")
    ask(at == len(calls), "a call of no command")
    return lines


def judge(shards, stores, commands, turns, text):
    lines = text.split("\n")
    ask(lines[-1] == "", "a last line without an end")
    order = ["cfs", "places", "c", "l", "t", "u", "s"]
    kinds = [order.index(line.split(" ")[0].replace("r", "l")) for line in lines[:-1]]
    ask(kinds == sorted(kinds), "kinds of lines out of order")
    ask(lines[:2] == ["cfs 1", f"places {shards} {stores}"], "the head")
    history = read_lines([line for line in lines if line[:2] in ("l ", "r ")])
    tree = judge_history(history)
    wanted = [line for client in sorted(commands) for line in judge_client(client, commands[client], history)]
    ask([line for line in lines if line[:2] == "c "] == wanted, f"the lines of commands: {wanted}")
    ask([line for line in lines if line[:2] in ("t ", "u ")] == tree.lines(), f"the tree: {tree.lines()}")
    counts = dict(word.split("=") for word in lines[-2].split(" ")[1:])
    unfinished = sum(line[3] is None for line in history)
    ask(int(counts["calls"]) == len(history) and int(counts["unfinished"]) == unfinished, "the counts")
    ask(int(counts["steps"]) <= turns, "more steps than turns")


# ---- scripts at random


def some_path(r, most):
    names = [r.choice(NAMES) for _ in range(r.randrange(1, most + 1))]
    if r.random() < 0.02:
        names[r.randrange(len(names))] = LONG
    return "/" + "/".join(names)


def some_command(r):
    verb = r.choice(["create", "mkdir", "mkdir", "lookup", "list"])
    return verb, "/" if verb == "list" and r.random() < 0.3 else some_path(r, 4)


def some_script(r):
    shards, stores = r.randrange(1, 5), r.randrange(1, 5)
    clients = sorted(r.sample(range(1, 33), r.randrange(1, 5)))
    commands = {client: [some_command(r) for _ in range(r.randrange(1, 12))] for client in clients}
    turns = [r.choice(clients) for _ in range(r.randrange(120))]
    if r.random() < 0.3:
        turns += [client for client in clients for _ in range(80)]
    lines = [f"places {shards} {stores}"]
    lines += [f"client {client} {verb} {path}" for client in clients for verb, path in commands[client]]
    lines += ["turns " + " ".join(map(str, turns))] if turns else []
    return (shards, stores, commands, len(turns)), "".join(line + "\n" for line in lines)


def main():
    count = int(sys.argv[2]) if len(sys.argv) > 2 else 3_000
    r = random.Random(int(sys.argv[3]) if len(sys.argv) > 3 else 1)
    calls = 0
    for _ in range(count):
        facts, script = some_script(r)
        ran = subprocess.run([sys.argv[1], "replay"], input=script.encode(), capture_output=True, timeout=300)
        text = ran.stdout.decode("latin-1")
        try:
            ask(ran.returncode == 0 and ran.stderr == b"", f"status {ran.returncode}, {ran.stderr}")
            judge(*facts, text)
        except (Broken, ValueError, KeyError, IndexError) as why:
            print(f"{why!r}\nscript:\n{script}\noutput:\n{text}")
            sys.exit(1)
        calls += text.count("\nl ")
    print(f"{count} runs, {calls} calls")


main()
