#!/usr/bin/env python3
"""Lists the places in src/ that docs/DESIGN-PASS.md counts, one line each, and their number.

usage: tools/places.py POINT [FOLDER]      POINT is 1 to 7

1  own types of the shape of Option or Result; a flag or a refusal's number with a value beside it; numbers for refusals, kinds and cases
2  functions whose bodies are the same but for numbers and names, three lines or more
3  loops that are no `for`
4  conversions between an enum and its number, comparisons and copies, written by hand
5  a `requires` fact in three functions or more; parameters that travel together through three functions or more
6  a buffer with a place or a length beside it, tables beside one another
7  a switch on which step to run
"""
import collections
import os
import re
import subprocess
import sys

point = sys.argv[1]
top = sys.argv[2] if len(sys.argv) > 2 else os.path.join(os.path.dirname(os.path.abspath(__file__)), "..")
names = subprocess.run(["git", "-C", top, "ls-files", "crates/*/src/*.rt"], capture_output=True, text=True, check=True).stdout.split()
files = {n: open(os.path.join(top, n), encoding="utf-8").read() for n in names if os.path.exists(os.path.join(top, n))}


def short(name):
    return name[len("crates/"):].replace("/src/lib.rt", "").replace("/src/main.rt", "").replace("/src/", "::").replace(".rt", "")


def functions():
    """Each function: its file, name, head (up to its body) and body."""
    for name, text in files.items():
        for m in re.finditer(r"^( *)(?:pub )?(?:extern \"C\" )?fn (\w+)", text, re.M):
            end = text.find("\n" + m.group(1) + "}", m.end())
            if end < 0:
                continue
            whole = text[m.start():end]
            body = whole.find("\n" + m.group(1) + "{\n")
            body = body if body >= 0 else whole.find("{\n")
            yield short(name), m.group(2), whole[:body], whole[body:]


def one():
    found = []
    for name, text in files.items():
        for m in re.finditer(r"^pub (enum|struct) (\w+) \{\n(.*?)^\}", text, re.M | re.S):
            body = re.sub(r"//.*", "", m.group(3))
            if m.group(1) == "enum":
                shape = re.search(r"\b(Refused|Missing|Nowhere|Neither|Nothing|Far|Many|None)\b", body)
            else:
                shape = re.search(r"\b(number: u8|found: bool|fixed: bool|holds: bool|wanted: usize)\b", body)
            if shape:
                found.append(f"{short(name)}: {m.group(1)} {m.group(2)}")
    for crate, name, head, _ in functions():
        if re.search(r"-> u8\s", head) and re.search(r"refus|number|write|print|lay|take_out", head):
            found.append(f"{crate}::{name}: a refusal's number, 0 for none")
        if re.search(r"\bkinds?: (&\[)?u8|-> \[u8; \d+\]\s+ensures \{ result ≡ kinds_of", head):
            found.append(f"{crate}::{name}: numbers for kinds")
        if re.search(r"\b(out|numbers|s): &mut", head) and re.search(r"-> (io::Result<)?bool", head):
            found.append(f"{crate}::{name}: a flag beside what is filled")
    return found


def two():
    groups = collections.defaultdict(list)
    for crate, name, head, body in functions():
        lines = [l.strip() for l in body.splitlines() if l.strip() and not l.strip().startswith("//") and l.strip() not in "{}"]
        if len(lines) < 3:
            continue
        form = re.sub(r"\d+", "0", " ".join(lines))
        form = re.sub(r"\w*" + re.escape(name) + r"\w*", "F", form)
        form = re.sub(r"\b[a-z_0-9]+\b", "x", form)
        groups[form].append(f"{crate}::{name}")
    return ["; ".join(g) for g in groups.values() if len(g) > 1]


def three():
    found = []
    for crate, name, _, body in functions():
        for _ in re.findall(r"^\s*(?:while|loop)\b", body, re.M):
            found.append(f"{crate}::{name}")
    return found


def four():
    enums = set()
    for text in files.values():
        enums |= set(re.findall(r"^pub enum (\w+)", text, re.M))
    found = []
    for crate, name, head, body in functions():
        m = re.search(r"\(([^()]*)\)(?: -> ([\w<>\[\]; ]+))?", head)
        if not m:
            continue
        params = re.findall(r": ([^,]+)", m.group(1))
        result = (m.group(2) or "").strip()
        numbers = {"u8", "u32", "u64", "usize"}
        if len(params) == 1 and (params[0] in enums and result in numbers or params[0] in numbers and result in enums):
            found.append(f"{crate}::{name}: an enum and its number")
        if len(params) == 2 and params[0] == params[1] and result == "bool":
            found.append(f"{crate}::{name}: a comparison")
        if len(params) == 1 and params[0] in {"u8", "bool", "u32"} and result in numbers and body.count("\n") <= 3:
            found.append(f"{crate}::{name}: a conversion")
        if re.search(r"\w+\[[^\]]*\] = \w+\[[^\]]*\];", body):
            found.append(f"{crate}::{name}: elements copied one by one")
    return found


def five():
    facts, having = collections.defaultdict(list), collections.defaultdict(list)
    for crate, name, head, _ in functions():
        for clause in re.findall(r"requires(?: \w+)? \{ (.*?) \}$", head, re.M):
            for fact in clause.split(" × "):
                facts[fact.strip("() ")].append(f"{crate}::{name}")
        m = re.search(r"fn \w+[^(]*\((.*?)\)(?: ->|\n|$)", head, re.S)
        if m:
            for parameter in re.split(r",\s*(?![^<(\[]*[>)\]])", m.group(1)):
                if ":" in parameter:
                    having[parameter.strip(" ,\n")].append(f"{crate}::{name}")
    found = [f"fact {f}: {', '.join(w)}" for f, w in facts.items() if len(w) >= 3]
    groups = collections.defaultdict(list)
    for parameter, where in having.items():
        if len(where) >= 3:
            groups[tuple(where)].append(parameter)
    found += [f"parameters {'; '.join(ps)}: {', '.join(w)}" for w, ps in groups.items() if len(ps) > 1]
    # or whenever the first stands there, so does the second, and it stands in no other function of its crate
    pairs = collections.defaultdict(list)
    for a, in_a in having.items():
        for b, in_b in having.items():
            if a < b and len(in_a) >= 3 and len(set(in_a) & set(in_b)) >= 3 and in_a != in_b and (set(in_a) <= set(in_b) or set(in_b) <= set(in_a)):
                crates = {f.split("::")[0] for f in set(in_a) & set(in_b)}
                alone = [f for f in set(in_a) ^ set(in_b) if f.split("::")[0] in crates]
                if not alone:
                    pairs[(a, b)] = sorted(set(in_a) & set(in_b))
    return found + [f"parameters {a}; {b}: {', '.join(w)}" for (a, b), w in pairs.items()]


def six():
    found = []
    for crate, name, head, _ in functions():
        if re.search(r"\b\w+: &mut \[\w+\], (at|k|end): usize|, out: &mut \[\w+\], (k|i): usize", head):
            found.append(f"{crate}::{name}: a buffer with a place beside it")
        if re.search(r"length \w+\.(?:now|old) ≡ length \w+\.now", head) and len(re.findall(r": &(?:mut )?\[", head)) > 1:
            found.append(f"{crate}::{name}: two slices of one length")
    for name, text in files.items():
        for m in re.finditer(r"^pub struct (\w+) \{\n(.*?)^\}", text, re.M | re.S):
            sizes = re.findall(r": \[\w+; (\w+)\]", m.group(2))
            for size, n in collections.Counter(sizes).items():
                if n > 1:
                    found.append(f"{short(name)}: struct {m.group(1)} has {n} arrays of {size}")
    return found


def seven():
    return [f"{crate}::{name}" for crate, name, _, body in functions() if re.search(r"match operation|operation (<|==)", body)]


found = {"1": one, "2": two, "3": three, "4": four, "5": five, "6": six, "7": seven}[point]()
for line in found:
    print(line)
print(len(found))
