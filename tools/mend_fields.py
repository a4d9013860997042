#!/usr/bin/env python3
"""Mends answers by what a check says of fields and tuples: the fields that a record has are named in its message.

usage: python3 tools/mend_fields.py CRATE LOG
"""

import os
import re
import sys

crate, log = sys.argv[1], sys.argv[2]
root = os.path.realpath(os.path.join(os.path.dirname(os.path.realpath(__file__)), ".."))
text = open(log, encoding="utf-8").read()
lines = [l for l in text.split("\n") if not l.startswith("so far")]
edits = {}
i = 0
while i < len(lines):
    m = re.match(r"\./(proofs/.*?/(?:Answers|Invariants)\.antt):(\d+):(\d+): error: (.*)", lines[i])
    if not m:
        i += 1
        continue
    body = [m.group(4)]
    k = i + 1
    while k < len(lines) and lines[k].startswith("  "):
        body.append(lines[k].strip())
        k += 1
    edits.setdefault(m.group(1), []).append((int(m.group(2)), int(m.group(3)), " ".join(body)))
    i = k
n = 0
for path, errs in edits.items():
    p = os.path.join(root, "crates", crate, path)
    L = open(p, encoding="utf-8").read().split("\n")
    for line, col, msg in sorted(errs, reverse=True):
        f = re.search(r"has no field `(\w+)`.*?(?:the fields that can be named here are|its fields are) ((?:`[\w+-]+`(?:, )?)+)", msg)
        if f:
            fields = re.findall(r"`([\w+-]+)`", f.group(2))
            want = f.group(1)
            at = col - 1
            l = L[line - 1]
            # the column is that of the field's name, or of what stands before it
            j = l.find("." + want, max(0, at - 1))
            if j < 0:
                continue
            if want.isdigit() and int(want) < len(fields):
                new = "." + fields[int(want)]
            elif want in ("taken", "left"):
                new = "." + fields[0] + "." + {"taken": "true", "left": "false"}[want]
            else:
                continue
            rest = l[j + 1 + len(want):]
            rest = re.sub(r"^\.taken\b", ".true", rest)
            rest = re.sub(r"^\.left\b", ".false", rest)
            L[line - 1] = l[:j] + new + rest
            n += 1
            continue
        f = re.search(r"is built with `record \{ (.*?) \}`, not as a tuple", msg)
        if f:
            names = re.findall(r"([\w']+) = ", f.group(1))
            whole = "\n".join(L)
            start = sum(len(x) + 1 for x in L[:line - 1]) + col - 1
            if whole[start] != "(":
                continue
            depth, parts, cur, end = 0, [], "", None
            for q in range(start, len(whole)):
                ch = whole[q]
                if ch in "([{":
                    depth += 1
                    if depth == 1:
                        continue
                if ch in ")]}":
                    depth -= 1
                    if depth == 0:
                        end = q
                        break
                if ch == "," and depth == 1:
                    parts.append(cur.strip())
                    cur = ""
                else:
                    cur += ch
            if cur.strip():
                parts.append(cur.strip())
            while len(parts) < len(names) and parts[-1].startswith("("):
                more, depth, cur = [], 0, ""
                for ch in parts[-1]:
                    if ch in "([{":
                        depth += 1
                        if depth == 1:
                            continue
                    if ch in ")]}":
                        depth -= 1
                        if depth == 0:
                            continue
                    if ch == "," and depth == 1:
                        more.append(cur.strip())
                        cur = ""
                    else:
                        cur += ch
                if cur.strip():
                    more.append(cur.strip())
                parts = parts[:-1] + more
            if len(parts) != len(names):
                print(path, line, "parts", len(parts), len(names))
                continue
            new = "record {\n" + "\n".join(f"    {a} = {b};" for a, b in zip(names, parts)) + "\n  }"
            whole = whole[:start] + new + whole[end + 1:]
            L = whole.split("\n")
            n += 1
            continue
        f = re.search(r"expected type `Bool\.not|expected type `mathlib\.Core\.Path\.◌≡◌ \(mathlib\.Core\.Bool\.not", msg)
    open(p, "w", encoding="utf-8").write("\n".join(L))
print(n, "mended")
