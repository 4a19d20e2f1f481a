#!/usr/bin/env python3
"""Lists the candidates of docs/DESIGN-PASS.md, point by point, in the sources of a commit: tools/design_places.py [COMMIT]. Without one, of HEAD."""
import collections
import io
import os
import re
import subprocess
import sys
import tarfile
import tempfile


def sources(commit):
    data = subprocess.run(["git", "archive", commit, "crates"], check=True, capture_output=True).stdout
    folder = tempfile.mkdtemp()
    tarfile.open(fileobj=io.BytesIO(data)).extractall(folder)
    return os.path.join(folder, "crates")


def lines(root, part, end):
    for base, _, names in sorted(os.walk(root)):
        for name in sorted(names):
            if name.endswith(end) and f"{os.sep}{part}" in base:
                path = os.path.join(base, name)
                short = os.path.relpath(path, root)
                yield short, open(path, encoding="utf-8").read()


def grep(title, root, pattern):
    found = []
    for short, text in lines(root, "src", ".rt"):
        for number, line in enumerate(text.split("\n"), 1):
            if re.search(pattern, line) and not line.lstrip().startswith("//"):
                found.append(f"  {short}:{number}: {line.strip()[:110]}")
    print(f"{title}: {len(found)}")
    print("\n".join(found))


FUNCTION = re.compile(r"^( *)(?:pub )?(?:extern \"C\" )?(?:const )?fn ([a-z_0-9]+)(.*?)^\1\}", re.M | re.S)
VERBS = "absorb|encrypt|verify|decrypt|store|load|back|forward|seal|open"


def masked(text):
    text = re.sub(r"//.*", "", text)
    text = re.sub(r"\b[A-Z][A-Za-z0-9]*::[A-Z][A-Za-z0-9]*\b", "V", text)
    text = re.sub(r"\b[A-Z][A-Z_0-9]+\b", "V", text)
    text = re.sub(rf"\b({VERBS})(?=_|\b)", "verb", text)
    text = re.sub(r"[0-9]+a?", "V", text)
    return re.sub(r"\s+", " ", text)


def twins(root):
    groups = collections.defaultdict(list)
    for short, text in lines(root, "src", ".rt"):
        for match in FUNCTION.finditer(text):
            whole = match.group(3)
            body = whole[whole.rindex("\n" + match.group(1) + "{"):] if "\n" + match.group(1) + "{" in whole else whole
            if len(body) > 20:
                groups[masked(body)].append(f"{short.split(os.sep)[0]}::{match.group(2)}")
    found = [names for names in groups.values() if len(names) > 1]
    print(f"2, functions whose bodies are the same but for numbers, constants, cases and verbs: {sum(map(len, found))} in {len(found)} groups")
    for names in found:
        print("  " + ", ".join(names))


def facts(root):
    holders = collections.defaultdict(set)
    pairs = collections.defaultdict(set)
    for short, text in lines(root, "src", ".rt"):
        crate = short.split(os.sep)[0]
        for match in FUNCTION.finditer(text):
            name = f"{crate}::{match.group(2)}"
            for clause in re.findall(r"requires (?:[a-z_]+ )?\{(.*?)\}\n", match.group(3), re.S):
                for fact in re.split(r"×", clause):
                    holders[re.sub(r"\s+|^\(|\)$", " ", fact.strip()).strip()].add(name)
            head = match.group(3).split("\n{")[0].split("ensures")[0].split("requires")[0]
            names = re.findall(r"([a-z_]+): [&A-Za-z\[]", head)
            for a, b in zip(names, names[1:]):
                pairs[(a, b)].add(name)
    found = {f: n for f, n in holders.items() if len(n) > 2}
    print(f"5a, facts in the requires of three or more functions: {len(found)}")
    for fact, names in sorted(found.items(), key=lambda x: -len(x[1])):
        print(f"  {fact[:90]}: {len(names)}: {', '.join(sorted(names))[:160]}")
    found = {f: n for f, n in pairs.items() if len(n) > 2}
    print(f"5b, parameters that stand side by side in three or more functions: {len(found)}")
    for pair, names in sorted(found.items(), key=lambda x: -len(x[1])):
        print(f"  {pair[0]}, {pair[1]}: {len(names)}")


def proofs(root):
    answers = lemmas = count = 0
    for short, text in lines(root, "proofs", ".antt"):
        count += text.count("\n")
        if short.endswith("Answers.antt") and short.count(os.sep) > 2:
            answers += len(re.findall(r" : goal\.", text))
        else:
            lemmas += len(re.findall(r"^ *(?:pub )?[^ :]+ :(?: |$)", text, re.M))
    print(f"8, proofs: {count} lines, {answers} answers, about {lemmas} lemmas")


root = sources(sys.argv[1] if len(sys.argv) > 1 else "HEAD")
grep("1a, enums", root, r"^\s*(pub )?enum ")
grep("1b, a refusal number or a flag with values beside it", root, r"\b(refusal|more|whole|finished|closed): (u32|bool),")
grep("1c, functions that answer a refusal number", root, r"fn [a-z_]*(number|refusal)[a-z_]*\(|fn (strip_in|put_info|run_rounds|seal_call|open_call|open_in_place_call)\(")
grep("1d, constants that are refusal numbers", root, r"^(pub )?const (?!MAX_)[A-Z_]+: u32 = [0-9]+;")
grep("1e, numbers for kinds", root, r"^const (DROP|CLOSE|KEEP)\b|^\s*match (k|i|way) \{|^\s*if k == [0-9]+ \{|= match k \{")
twins(root)
grep("3, loops", root, r"^\s*('[a-z]+: )?(while|loop|for)\b")
grep("4, equality, copying, conversion and printing by hand", root,
     r"fn (same|differences|same_state|tag_matches|wide|flag_of|array_of|place_of|verdict_number|verdict_mark|digits_of|glyph|hex_line|print_bytes|strip_state_in|put_strip_state|no_entry|entry_bytes)\(|\.to_le_bytes|from_le_bytes")
facts(root)
grep("6a, a buffer with an index into it as parameters", root, r"(out|f|c|m|b|log|script): &(mut )?\[u8\], (at|position|from|start|to): usize")
grep("6b, arrays of a fixed size with a count beside them", root, r"\[(Entry; MAX_ENTRIES|u8; MAX_[A-Z]+|u8; STATE_BYTES|u8; TEXT_ROOM|u8; MAX_DIGITS)\]")
grep("7, a switch on which step to run", root, r"match direction|if kind ==|if kind !=|match kind|match call")
proofs(root)
