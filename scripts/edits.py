#!/usr/bin/env python3
"""Tries must-fail edits one by one and looks at the whole first error of each. `rt ci` tries them all, but prints one line of 160 characters, in which the types are mostly not in sight.

usage: edits.py [CRATE ..]     at the top, after `rt ci` or `rt all check`: the edits of these crates, or all; a few seconds for each and more

It works on a copy of the crates outside the checkout. An edit has to be refused on a fact that no longer holds. One that is refused for its shape alone (a goal or a field that is
gone, a proof term at another place, a line that does not stand by itself) shows nothing, and is printed with its error. Exit status 1 if there is one. As `rt ci` does, it passes
over errors that only name what is gone, and looks at the first one behind them; it counts the edits at which it had to.
"""
import glob
import os
import re
import shutil
import subprocess
import sys
import tempfile

# What is printed of a function whose goal has no answer.
NOTE = re.compile(r"note: src/\S+: it is not proved that .*?\(`([^`]+)`\)")
SHAPE = re.compile(r"has no field|is not in scope|has no `|was not admitted|was rejected|exports no `")
PLACE = re.compile(r"(expected type|types are|one has) `\(*([^ `]*\.)?([Ll]ts|[Gg]oals?)\.(Start|Need-|After-|At-|In-|Then|Else|Joined|Left-)[^ `]*")
OTHER_TYPE = re.compile(r"expected type `([^ `]*\.)?(ℕ|Bool|Bytes|List)[ `]")


def edited(edit, folder):
    """Applies the edit to the crate in the folder; returns the texts as they were."""
    was, path, old = {}, None, None
    with open(edit, encoding="utf-8") as it:
        for line in it.read().split("\n"):
            if line.startswith("file: "):
                path = os.path.join(folder, line[6:].strip())
            elif line.startswith("old: "):
                old = line[5:]
            elif line.startswith("new:"):
                with open(path, encoding="utf-8") as text:
                    now = text.read()
                was.setdefault(path, now)
                if now.count(old) != 1:
                    raise SystemExit(f"{edit}: an old text stands {now.count(old)} times")
                with open(path, "w", encoding="utf-8") as text:
                    text.write(now.replace(old, line[5:]))
    return was


def first_error(log):
    """The first error, with what is indented below it, or the first note of a goal that is not proved."""
    lines = [it for it in log.split("\n") if not it.startswith("so far:")]
    for at, line in enumerate(lines):
        if re.match(r"(\./)?\S+:\d+:\d+: error", line) and not SHAPE.search(line):
            below = []
            for it in lines[at + 1 :]:
                if not it.startswith("  "):
                    break
                below.append(it)
            return "\n".join([line, *below])
        if NOTE.match(line):
            return line
    return ""


def name_first(log):
    """Whether the very first error only names what is gone."""
    errors = [it for it in log.split("\n") if re.match(r"(\./)?\S+:\d+:\d+: error", it)]
    return bool(errors) and bool(SHAPE.search(errors[0])) and "was not admitted" not in errors[0]


def wrong(log, goals):
    """What is wrong with a refusal, or nothing."""
    if "logic=not-proved" not in log:
        return "not refused by the prover"
    text = first_error(log)
    if not text:
        return "no error that shows a fact"
    note = NOTE.match(text)
    if note:
        return "" if re.sub(r"-clause-.*", "", note[1]) in goals else "a goal that the unedited code has not"
    if not re.match(r"(\./)?proofs/", text):
        return "the edited line does not stand by itself"
    if re.search(r"`(omega|search|grind|cc)`: |`simp L t`|on the face `", text):
        return ""
    if not re.search(r"the two (types|values)|expected type `", text):
        return "of no kind that shows a fact"
    place = PLACE.search(text)
    if place and "·gave" not in place[0]:
        return "a proof term at another place"
    if OTHER_TYPE.search(text):
        return "a term of another type"
    return ""


def goals_of(folder):
    """The names of the crate's goals, as the check makes them."""
    with tempfile.TemporaryDirectory() as room:
        subprocess.run(["rt", "check", "--generated", room, "--old-names"], cwd=folder, stdout=subprocess.DEVNULL, stderr=subprocess.DEVNULL)
        with open(os.path.join(room, "names.json"), encoding="utf-8") as it:
            return set(re.findall(r'"([^"]*)"', it.read()))


def main(crates):
    edits = sorted(it for it in glob.glob("crates/*/must-fail/*.edit") if not crates or it.split("/")[1] in crates)
    nothing = behind = 0
    with tempfile.TemporaryDirectory() as copy:
        shutil.copytree("crates", os.path.join(copy, "crates"))
        shutil.copy("crates.txt", copy)
        goals = {}
        for edit in edits:
            crate = edit.split("/")[1]
            folder = os.path.join(copy, "crates", crate)
            if crate not in goals:
                goals[crate] = goals_of(folder)
            was = edited(edit, folder)
            log = subprocess.run(["rt", "check"], cwd=folder, stdout=subprocess.PIPE, stderr=subprocess.STDOUT, text=True, errors="replace").stdout
            for path, text in was.items():
                with open(path, "w", encoding="utf-8") as it:
                    it.write(text)
            why = wrong(log, goals[crate])
            behind += not why and name_first(log)
            if why:
                nothing += 1
                print(f"{edit}: shows nothing: {why}: {first_error(log)[:400]}", flush=True)
    print(f"whole first errors of {len(edits)} must-fail edits, {nothing} of which show nothing; at {behind} more the fact stands behind a name that is gone")
    return 1 if nothing or not edits else 0


if __name__ == "__main__":
    os.chdir(os.path.join(os.path.dirname(os.path.abspath(__file__)), ".."))
    sys.exit(main(sys.argv[1:]))
