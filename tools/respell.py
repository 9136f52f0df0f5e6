#!/usr/bin/env python3
"""Turns this repository's own names to Rattle's spelling: types and facts in upper camel case, everything else in
snake case; in a lemma's name a dash joins two functions. Run once at the top, after port.py.

usage: tools/respell.py KIT    (the folder of the toolchain, whose names are left alone)
"""

import os
import re
import sys

KIT = sys.argv[1]
TOKEN = re.compile(r"[^\s(){}\[\].,;:λ=→⊢@\"`|«»⌜⌝&]+")
DECLARED = re.compile(r"^\s*(?:abbrev\s+|unfoldable\s+|ruleset\s+)?(?:pub\s+)?(?:data\s+|record\s+)?([^\s:(){}.,;λ=→]+(?: [^\s:(){}.,;λ=→]+)*)\s*(?:[({].*)?\s:\s(.*)")
GENERATED = re.compile(r"^(returns|loop|invariant|overflow|decreases|bounds|slice[-_]bounds|in|if|then|else|nonzero|offset|ghost|c|type)-|(-requires|-init|-preserved|-smaller)(-[0-9]+)?$")

# the variables of the two standards; PDCP's TX_NEXT and RX_NEXT would fall together with RLC's TX_Next and RX_Next
VARIABLES = {"TX-NEXT": "pdcp_tx_next", "RX-NEXT": "pdcp_rx_next", "pollPDU": "poll_pdu", "maxRetx": "max_retx",
             "t-StatusProhibit": "t_status_prohibit", "t-PollRetransmit": "t_poll_retransmit"}
for name in "TX-Next TX-Next-Ack RX-Next RX-Next-Highest RX-Highest-Status RX-Next-Status-Trigger RX-DELIV RX-REORD POLL-SN PDU-WITHOUT-POLL RETX-COUNT t-Reassembly t-Reordering".split():
    VARIABLES[name] = name.lower().replace("-", "_")
SPOKEN = {name: name.replace("-", "_") for name in VARIABLES if name[0] in "TRP"}
OUTER = {"length", "take", "drop", "map"}
INNER = {"append", "set", "set-all"}


def files(*kinds):
    for top in ("crates", "docs", "README.md"):
        if os.path.isfile(top):
            if top.endswith(kinds):
                yield top
        for folder, dirs, names in os.walk(top):
            dirs[:] = sorted(d for d in dirs if d != "out")
            for name in sorted(names):
                if name.endswith(kinds):
                    yield os.path.join(folder, name)


def text(path):
    with open(path, encoding="utf-8") as f:
        return f.read()


def of_a_function(path):
    """A file of one function's proof, whose goals Rattle names."""
    return re.search(r"/proofs/[^/]+/", path) is not None


def of_the_kit():
    names = set()
    for folder, dirs, found in os.walk(KIT):
        for name in found:
            if name.endswith(".antt"):
                for line in text(os.path.join(folder, name)).split("\n"):
                    names.update(t for t in TOKEN.findall(line) if "-" in t)
    return names


def snake(name):
    return re.sub(r"(?<=[A-Za-z0-9_'])-(?=[A-Za-z0-9_])", "_", name)


def camel(name):
    return "".join(part[:1].upper() + part[1:] for part in name.split("-"))


def lemma(name, functions):
    """A dash joins two functions where one of them is of lists, as in length-put_at and fill-append, or both are one."""
    parts = name.split("-")
    pieces, at = [], 0
    while at < len(parts):
        for to in range(len(parts), at, -1):
            piece = "-".join(parts[at:to])
            if piece in functions or to == at + 1:
                pieces.append(piece)
                at = to
                break
    said = snake(pieces[0])
    for k, (before, piece) in enumerate(zip(pieces, pieces[1:])):
        joins = {before, piece} <= functions and (k == 0 and before in OUTER or piece in INNER or before == piece)
        said += ("-" if joins else "_") + snake(piece)
    return said


def names():
    kit = of_the_kit()
    declared, functions = {}, OUTER | INNER
    local = set()
    for path in files(".antt"):
        inside = of_a_function(path)
        for line in text(path).split("\n"):
            if line.strip().startswith("--"):
                continue
            m = DECLARED.match(line)
            for name in m.group(1).split(" ") if m else []:
                if name in ("use", "mod", "let", "elim", "where"):
                    continue
                if inside and (GENERATED.search(name) or re.match(r"(goal|Goals|goals|Given)\.|the-", m.group(2))):
                    continue
                declared.setdefault(name, set()).add("/specs/" in path)
                # (fields, constructors and local names stand further right)
                if "/specs/" in path and not name[0].isupper() and re.match(r"\S", line) and "→" in m.group(2):
                    functions.add(name)
            if not inside:
                local.update(t for t in TOKEN.findall(re.sub(r"(^|\s)--\s.*", "", line)) if re.search(r"[A-Za-z0-9_']-[A-Za-z0-9]", t))
    for path in files(".rt"):
        for line in text(path).split("\n"):
            local.update(re.findall(r"\bas ([a-z][\w']*(?:-[\w']+)+)", line))
    turned = dict(VARIABLES)
    for name in sorted(set(declared) | local):
        if name in turned or "-" not in name or (name in kit and name not in declared) or (GENERATED.search(name) and name not in declared):
            continue
        if not re.match(r"^[A-Za-z][\w'-]*$", name):
            continue
        if name[0].isupper():
            turned[name] = camel(name) if name in declared else name
        elif name in declared and True not in declared[name]:
            turned[name] = lemma(name, functions)
        else:
            turned[name] = snake(name)
    return {a: b for a, b in turned.items() if a != b}, kit


def imported(path, kit, body):
    """Names of the toolchain that this file imports: they keep their spelling here."""
    own = set()
    for line in body.split("\n"):
        if re.match(r"\s*(ghost )?(pub )?use (Rattle\.std|lib|mathlib|native|borrow|denote|Prim)\b", line):
            own.update(t for t in TOKEN.findall(line))
    return own


def main():
    turned, kit = names()
    new = {}
    for a, b in turned.items():
        new.setdefault(b, []).append(a)
    for b, olds in new.items():
        if len(olds) > 1:
            print("fall together:", b, "from", " ".join(olds))
    known = set()
    for path in files(".antt"):
        known.update(TOKEN.findall(text(path)))
    for path in files(".rt"):
        known.update(re.findall(r"[A-Za-z_]\w*", text(path)))
    for a, b in sorted(turned.items()):
        if b in known:
            print("stands already:", b, "from", a)

    def respell(piece, keep):
        return TOKEN.sub(lambda m: m.group(0) if m.group(0) in keep else turned.get(m.group(0), m.group(0)), piece)

    def spoken(piece):
        return TOKEN.sub(lambda m: SPOKEN.get(m.group(0), m.group(0)), piece)

    for path in files(".antt", ".rt", ".edit", ".md"):
        body = text(path)
        keep = imported(path, kit, body) if path.endswith((".antt", ".rt")) else set()
        lines = []
        for line in body.split("\n"):
            if path.endswith(".antt"):
                code, mark, comment = line.partition("-- ") if line.strip().startswith("--") else (line, "", "")
                lines.append(respell(code, keep) + mark + spoken(comment))
            elif path.endswith(".rt"):
                lines.append(line if line.strip().startswith("//") or '"' in line else respell(line, keep))
            elif path.endswith(".edit"):
                lines.append(respell(line, keep) if re.match(r"(old|new): ", line) else line)
            else:
                lines.append(re.sub(r"`[^`]+`", lambda m: "`" + respell(m.group(0)[1:-1], keep) + "`", line))
        body2 = "\n".join(lines)
        if body2 != body:
            with open(path, "w", encoding="utf-8") as f:
                f.write(body2)


main()
