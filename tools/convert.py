#!/usr/bin/env python3
"""Turns proofs/F/Proof.antt of the older form into Invariants.antt and Answers.antt.

usage: python3 tools/convert.py CRATE NAMES.json      at the top of the repository

NAMES.json is what `rt check --generated FOLDER --old-names` writes in the crate's folder. What can't be turned is said,
and the older file stays beside the new ones as Proof.antt.txt until it is mended by hand.
"""

import glob
import json
import os
import re
import sys

TOK = re.compile(r"[^\W\d][\w'₀-₉]*(?:-[\w'₀-₉]+)*|[^\s\w]")
PATH = r"(?:\.[^\W][\w'₀-₉]*(?:-[\w'₀-₉]+)*)"
NAMEPAT = r"[^\W\d][\w'₀-₉]*(?:-[\w'₀-₉]+)*"


def norm(s):
    return s.replace("-", "_")


class Fn:
    def __init__(self, rec, contracts):
        self.rec = rec
        self.contracts = contracts
        self.places = {}
        self.by_norm = {}
        for i, (name, parent, pair, callee, extra) in enumerate(rec["places"]):
            self.places[name] = (i, parent, pair, callee, extra)
            self.by_norm[norm(name)] = name

    def place(self, name):
        return self.by_norm.get(norm(name))

    def arms(self, place):
        """(old step, path) -> (arm, field), from a place up to the start."""
        out = {}
        cur = place
        while cur is not None:
            i, parent, pair, callee, extra = self.places[cur]
            a = self.rec["arms"][i]
            if a:
                for field, step, path in a[2]:
                    out.setdefault((step, tuple(path)), (a[0], field))
            cur = parent
        return out

    def typed(self, place):
        i = self.places[place][0]
        return {norm(step): var for var, step in self.rec["typed"][i]}


class Trouble(Exception):
    pass


def nth(path, n):
    """Which of n clauses a path of pairs names, and what is left of the path."""
    k = 0
    while k < n - 1 and path and path[0] == "1":
        k += 1
        path = path[1:]
    if k < n - 1 and path and path[0] == "0":
        path = path[1:]
    return k, path


def resolve(fn, place, comps, goal_place, notes):
    """comps behind a place variable: ('place', name) or ('path', text without the leading c.)."""
    cur = place
    comps = list(comps)
    while comps and comps[0] == "before":
        if fn.places[cur][1] is not None:
            cur = fn.places[cur][1]
        comps.pop(0)
    if not comps:
        return ("place", cur)
    step = norm(comps[0])
    rest = comps[1:]
    i, parent, pair, callee, extra = fn.places[cur]
    if parent is None:
        if step == "requires" and rest and rest[0].isdigit():
            names = fn.contracts.get("requires " + fn.own, [])
            if len(names) > 1:
                k, tail = nth(rest, len(names))
                return ("path", ".".join(["requires", names[k]] + tail))
        if step == "args":
            return ("path", ".".join(["args"] + [norm(rest[0])] + rest[1:] if rest else ["args"]))
        return ("path", ".".join([step] + rest))
    if step != norm(pair[0]):
        # a field that the record opens from below
        have = set()
        walk = goal_place
        while walk is not None:
            have.add(norm(fn.places[walk][2][0]))
            walk = fn.places[walk][1]
        alias = {"in_kept": "is_kept", "header_written": "header_bytes", "by_root": "is_root", "by_parent": "is_parent", "without_lists": "no_lists"}
        for other in (step, re.sub("_lem$", "", step), alias.get(step, step), step.lower(), alias.get(step.lower(), step.lower()), step.rstrip("0123456789"), *(step + str(k) for k in range(2, 10))):
            if other in have:
                step = other
                break
        probe = cur
        while probe is not None and norm(fn.places[probe][2][0]) != step:
            probe = fn.places[probe][1]
        if probe is None:
            near, walk = None, place
            while walk is not None and walk != cur:
                if norm(fn.places[walk][2][0]) == step:
                    near = walk
                walk = fn.places[walk][1]
            probe = near
        if probe is None:
            if step in ("args", "requires", "well_formed", "lifetimes"):
                return resolve(fn, "Start", comps, goal_place, notes)
            raise Trouble(f"step {comps[0]} at {cur}")
        cur = probe
        i, parent, pair, callee, extra = fn.places[cur]
    old, new = pair
    typed = fn.typed(goal_place)
    if rest[:1] == ["given"] and norm(old) in typed:
        return ("path", ".".join(["type_inv", typed[norm(old)]] + rest[1:]))
    arms = fn.arms(goal_place)
    for n in range(len(rest), -1, -1):
        key = (old, tuple(rest[:n]))
        if key in arms and n > 0:
            arm, field = arms[key]
            return ("path", ".".join([arm, field] + rest[n:]))
    if callee or rest[:1] in (["new"], ["ensures"], ["auto"], ["kept"]):
        params = fn.rec["params"].get(callee or "", [])
        if rest[:1] == ["kept"]:
            rest = ["auto"] + rest[1:]
        if rest[:1] in (["new"], ["auto"]) and len(rest) > 1:
            k = 1
            while k < len(rest) and rest[k] == "1":
                k += 1
            if k < len(rest) and rest[k] == "0" and params and k - 1 < len(params):
                return ("path", ".".join([new, rest[0], params[k - 1]] + rest[k + 1:]))
        if rest == ["ensures"] and len(fn.contracts.get(callee or "", [])) > 1:
            xs = [f"c.{new}.ensures.{x}" for x in fn.contracts[callee]]
            return ("whole", ", ".join("(" + x for x in xs[:-1]) + ", " + xs[-1] + ")" * (len(xs) - 1))
        if rest[:1] == ["ensures"] and len(rest) > 1 and rest[1].isdigit():
            names = fn.contracts.get(callee or "", [])
            if len(names) > 1:
                k, tail = nth(rest[1:], len(names))
                return ("path", ".".join([new, "ensures", names[k]] + tail))
    if step.startswith("loop") and rest and rest[0] not in ("invariant", "auto", "test", "true", "false"):
        rest = [norm(rest[0])] + rest[1:]
    if step.startswith("if") and rest:
        rest = [{"taken": "true", "left": "false"}.get(rest[0], rest[0])] + rest[1:]
    if step.startswith("if") and rest and rest[0] not in ("true", "false", "branch"):
        rest = [norm(rest[0])] + rest[1:]
    return ("path", ".".join([new] + rest))


def name_paths(body, env, helpers):
    """A let that names a path is written out."""
    again = True
    while again:
        again = False
        body = re.sub(rf"\(({NAMEPAT}(?:{PATH})+)\)", r"\1", body)
        for m in re.finditer(rf"let ({NAMEPAT}) = ({NAMEPAT})((?:{PATH})+) in\s*", body):
            if m.group(2) in env and m.group(1) not in env:
                rest = re.sub(rf"(?<![\w.'-]){re.escape(m.group(1))}(?![\w'-])", m.group(2) + m.group(3), body[m.end():])
                body = body[:m.start()] + rest
                again = True
                break
        for name, spec in helpers.items():
            if spec[1] == "macro":
                m = re.search(rf"\({re.escape(name)}\s+({NAMEPAT}(?:{PATH})*)\)", body)
                if m:
                    inner = re.sub(rf"(?<![\w.'-]){re.escape(spec[0][0])}(?![\w'-])", m.group(1), spec[3])
                    body = body[:m.start()] + "(" + inner + ")" + body[m.end():]
                    again = True
    return body


def turn_body(fn, body, env, goal_place, helpers, notes):
    """env: variable -> place. Paths from these become paths of c."""
    env = dict(env)
    count = 0
    body = name_paths(body, env, helpers)
    # functions from a place to a place
    rounds = True
    while rounds:
        rounds = False
        body = re.sub(rf"\(({NAMEPAT}(?:{PATH})*)\)", lambda m: m.group(1) if m.group(1).split(".")[0] in env else m.group(0), body)
        for name, spec in helpers.items():
            if spec[1] != "to":
                continue
            for pat in (rf"\({re.escape(name)}\s+({NAMEPAT})((?:{PATH})*)\)", rf"(?<=[=(] ){re.escape(name)}\s+({NAMEPAT})((?:{PATH})*)(?= in\b)", rf"(?<![\w.'(-]){re.escape(name)}\s+({NAMEPAT})((?:{PATH})*)(?=\s+in\b)"):
                m = re.search(pat, body)
                while m and m.group(1) in env:
                    count += 1
                    mark = f"place{count}q"
                    env[mark] = spec[2]
                    body = body[:m.start()] + mark + body[m.end():]
                    rounds = True
                    m = re.search(pat, body)
        m = re.search(rf"let ({NAMEPAT}) = ({NAMEPAT}) in\s*", body)
        if m and m.group(2) in env:
            env[m.group(1)] = env[m.group(2)]
            body = body[:m.start()] + body[m.end():]
            rounds = True
        for m in re.finditer(rf"let ({NAMEPAT}) = ({NAMEPAT})((?:\.before)+) in\s*", body):
            if m.group(2) in env:
                kind, val = resolve(fn, env[m.group(2)], m.group(3).split(".")[1:], goal_place, notes)
                if kind == "place":
                    env[m.group(1)] = val
                    body = body[:m.start()] + body[m.end():]
                    rounds = True
                    break
    body = name_paths(body, env, helpers)
    # tuples of kept lengths and of clauses, by their paths
    while True:
        m = re.search(rf"let ({NAMEPAT}) = ({NAMEPAT}(?:{PATH})*\.(?:auto|kept|ensures)(?:\.1)*) in\s*", body)
        if not m:
            break
        rest = body[m.end():]
        rest = re.sub(rf"(?<![\w.'-]){re.escape(m.group(1))}(?![\w'-])", m.group(2), rest)
        body = body[:m.start()] + rest
    # helpers first
    changed = True
    rounds = 0
    while changed and rounds < 20:
        changed = False
        rounds += 1
        for name, (params, kind, place, hbody) in helpers.items():
            if kind in ("to", "macro"):
                continue
            pat = re.compile(rf"(?<![\w.'-]){re.escape(name)}(?![\w'-])((?:\s+(?:\({NAMEPAT}{PATH}*\)|{NAMEPAT}{PATH}*))?)")
            m = pat.search(body)
            if not m:
                continue
            arg = m.group(1).strip().strip("()")
            base = arg.split(".")[0] if arg else None
            if base and base in env or (base == "c"):
                got = body[:m.start()] + "⟪" + name + "⟫"
                comps = arg.split(".")[1:]
                inner = re.sub(rf"(?<![\w.'-]){re.escape(params[0])}(?![\w'-])", "\u0001", hbody)
                inner = inner.replace("\u0001", arg)
                if len(params) > 1:
                    inner = "(λ " + " ".join(params[1:]) + ". " + inner + ")"
                body = body[:m.start()] + "(" + inner + ")" + body[m.end():]
                changed = True
            else:
                raise Trouble(f"helper {name} used at {arg!r}")
    # lets that bind places
    while True:
        m = re.search(rf"let ({NAMEPAT})(?:\s*:\s*[^=]*?)? = \(?({NAMEPAT})((?:{PATH})*)\)? in\s*", body)
        hit = None
        for m in re.finditer(rf"let ({NAMEPAT})(?:\s*:\s*[^=\n]*?)? = \(*({NAMEPAT})((?:{PATH})*)\)* in\s*", body):
            if m.group(2) in env:
                kind, val = resolve(fn, env[m.group(2)], m.group(3).split(".")[1:], goal_place, notes)
                if kind == "place":
                    hit = (m, val)
                    break
        if not hit:
            break
        m, val = hit
        env = dict(env)
        env[m.group(1)] = val
        body = body[:m.start()] + body[m.end():]
    def one(m):
        var, comps = m.group(1), m.group(2).split(".")[1:]
        if var not in env:
            return m.group(0)
        kind, val = resolve(fn, env[var], comps, goal_place, notes)
        if kind == "whole":
            return val
        if kind == "place":
            notes.append(f"a place as a value: {m.group(0)}")
            return "c"
        return "c." + val
    # parenthesised paths of helpers: (c.before.before).if1.true
    prev = None
    while prev != body:
        prev = body
        body = re.sub(rf"\(({NAMEPAT}(?:{PATH})*)\)(?=\.[a-z])", r"\1", body)
    body = re.sub(rf"(?<![\w.'-])({NAMEPAT})((?:{PATH})+)", one, body)
    for var in env:
        if var != "c":
            body2 = re.sub(rf"(?<![\w.'-]){re.escape(var)}(?![\w'-])", "c", body)
            if body2 != body:
                notes.append(f"{var} stands alone")
                body = body2
    return body


def split_tuple(text):
    parts, depth, cur = [], 0, ""
    for i, ch in enumerate(text):
        if ch in "([{":
            depth += 1
            if depth == 1:
                continue
        if ch in ")]}":
            depth -= 1
            if depth == 0:
                if i != len(text) - 1:
                    return None
                continue
        if ch == "," and depth == 1:
            parts.append(cur.strip())
            cur = ""
        else:
            cur += ch
    if cur.strip():
        parts.append(cur.strip())
    return parts


def by_clause(body, clauses):
    """A tuple for several clauses becomes a record by their names."""
    fields = clauses
    if len(fields) < 2:
        return body
    if body.startswith("let ") and body.endswith(")"):
        depth, cut = 0, -1
        for i, ch in enumerate(body):
            if ch in "([{":
                depth += 1
            elif ch in ")]}":
                depth -= 1
            elif depth == 0 and re.match(r"\sin\s", body[i:i + 4]):
                cut = i + 3
        tail = body[cut:].strip()
        if cut > 0 and tail.startswith("("):
            return body[:cut].rstrip() + " " + by_clause(tail, clauses)
    if not body.startswith("(") or not body.endswith(")"):
        if body.startswith("record") or body.startswith("search"):
            return body
        return "let p = " + body + " in record { " + "; ".join(f"{f} = p.{i}" for i, f in enumerate(fields)) + " }"
    parts, depth, cur = [], 0, ""
    for i, ch in enumerate(body):
        if ch in "([{":
            depth += 1
            if depth == 1:
                continue
        if ch in ")]}":
            depth -= 1
            if depth == 0:
                if i != len(body) - 1:
                    return body
                continue
        if ch == "," and depth == 1:
            parts.append(cur.strip())
            cur = ""
        else:
            cur += ch
    if cur.strip():
        parts.append(cur.strip())
    while len(parts) < len(fields) and len(parts) > 1 and parts[-1].startswith("("):
        more = split_tuple(parts[-1])
        if not more or len(more) < 2:
            break
        parts = parts[:-1] + more
    if len(parts) != len(fields):
        return body
    return "record {\n" + "\n".join(f"  {f} = {x};" for f, x in zip(fields, parts)) + "\n}"


def blocks(text):
    out, cur = [], []
    for line in text.split("\n"):
        if line.strip() == "" and cur:
            out.append("\n".join(cur))
            cur = []
        elif line.strip() or cur:
            cur.append(line)
    if cur:
        out.append("\n".join(cur))
    return out


def used(names, text):
    toks = set(TOK.findall(text))
    keep = []
    for n in names:
        base = n.split(" as ")[-1].strip()
        if "◌" in base:
            op = base.replace("◌", "").strip()
            if op in text:
                keep.append(n)
        elif base in toks or (not re.fullmatch(r"[\w'-]+", base) and base in text) or re.search(rf"(?<![\w.'-]){re.escape(base)}(?![\w'-])", text):
            keep.append(n)
    return keep


def imports(lines, text):
    out = []
    for l in lines:
        m = re.match(r"use ([^\s{]+)\.\{(.*)\}$", l)
        if m:
            keep = used([x.strip() for x in m.group(2).split(",")], text)
            if keep:
                out.append(f"use {m.group(1)}.{{{', '.join(keep)}}}")
        else:
            m = re.match(r"use (\S+) as (\S+)$", l)
            if m and re.search(rf"(?<![\w.'-]){re.escape(m.group(2))}(?![\w'-])", text):
                out.append(l)
    return out


def source_contracts(root):
    """callee path -> names of its ensures clauses, in order."""
    out = {}
    for f in glob.glob(os.path.join(root, "crates/*/src/**/*.rt"), recursive=True):
        crate = f.split("/crates/")[1].split("/")[0]
        mod = f.split("/src/")[1][:-3].replace("/", "::")
        mod = "" if mod in ("lib", "main") else "::" + mod
        impl, fn = None, None
        for line in open(f, encoding="utf-8"):
            m = re.match(r"impl(?:<[^>]*>)? (?:.* for )?(\w+)", line)
            if m:
                impl = m.group(1)
            if line.startswith("}"):
                impl = None
            m = re.search(r"\bfn (\w+)", line)
            if m and not line.strip().startswith("//"):
                fn = f"{crate}{mod}::{impl + '::' if impl and line.startswith(' ') else ''}{m.group(1)}"
                out[fn] = []
            m = re.match(r"\s*ensures (\w+) \{", line)
            if m and fn:
                out[fn].append(m.group(1))
            m = re.match(r"\s*requires (\w+) \{", line)
            if m and fn:
                out.setdefault("requires " + fn, []).append(m.group(1))
    return out


def convert(crate, folder, fn_path, rec, contracts, root):
    path = os.path.join(folder, "Proof.antt")
    text = open(path, encoding="utf-8").read()
    head, rest = [], []
    lines = text.split("\n")
    i = 0
    comment = []
    while i < len(lines) and lines[i].startswith("--"):
        comment.append(lines[i])
        i += 1
    uses = []
    body_lines = []
    for l in lines[i:]:
        if l.startswith("use "):
            uses.append(l)
        else:
            body_lines.append(l)
    bs = blocks("\n".join(body_lines))
    fn = Fn(rec, contracts)
    fn.own = fn_path.split(".proofs.")[0].split(".")[1] + "::" + fn_path.split(".proofs.")[1].replace(".", "::")
    troubles, notes = [], []
    # the order of the goals
    last = bs[-1]
    m = re.search(r"tie\.spec\s*(.*?)\)*\s*$", last, re.S)
    if not m:
        return ["no tie.spec"], []
    order = re.findall(NAMEPAT, m.group(1))
    loops = {}
    for k, ((old, new), variables) in enumerate(rec["loops"]):
        loops[norm(old)] = (new, variables, rec["changed"][k])
    goals = [g for g in order if not re.match(r"(invariant|decreases|μ|Inv)-", g)]
    sigs = {}
    helpers = {}
    invs = []
    for b in bs[:-1]:
        ls = b.split("\n")
        lead = []
        while ls and ls[0].startswith("--"):
            lead.append(ls.pop(0))
        if not ls:
            continue
        sig = ls[0]
        k = 1
        while k < len(ls) and ls[k].startswith(" "):
            sig += "\n" + ls[k]
            k += 1
        m = re.match(rf"((?:abbrev |pub |unfoldable )*)({NAMEPAT})(?: \{{[^}}]*\}})? :\s*(.*)$", sig, re.S)
        if not m:
            troubles.append("block not read: " + sig[:80])
            continue
        name, ty = m.group(2), m.group(3).strip()
        sigs[name] = (ty, ls[k:], lead)
        if re.match(r"tie\.(invariant|decreases)-", ty):
            invs.append(name)
    if len(goals) != len(rec["needs"]):
        troubles.append(f"{len(goals)} goals, {len(rec['needs'])} today")
    # helpers: one clause whose first argument is a place
    for name, (ty, ls, lead) in sigs.items():
        if name in goals or name in invs:
            continue
        clause = "\n".join(l for l in ls)
        to = re.fullmatch(r"(?:tie|lts)\.([\w'-]+)[^→]*→ (?:tie|lts)\.([\w'-]+).*", " ".join(ty.split()))
        if to and fn.place(to.group(2)):
            helpers[name] = ([], "to", fn.place(to.group(2)), "")
            continue
        m = re.match(rf"{re.escape(name)}((?:\s+{NAMEPAT})*)\s*=\s*(.*)$", clause, re.S)
        if to and m and len(m.group(1).split()) == 1:
            helpers[name] = (m.group(1).split(), "macro", None, m.group(2).strip())
            continue
        pm = re.search(r"(?:tie|lts)\.([\w'-]+)", ty)
        if m and pm and fn.place(pm.group(1)) and m.group(1).split():
            if re.search(r"^unfolding", clause, re.M):
                troubles.append(f"helper {name} unfolds")
            hb = m.group(2).strip()
            if re.match(r"(omega|search|grind|simp|let)\b", hb) and len(m.group(1).split()) == 1 and "→" in ty:
                goal_type = " ".join(ty.split("→", 1)[1].split())
                bound = re.match(r"\((\S+)\s*:", ty)
                if bound and bound.group(1) != m.group(1).split()[0]:
                    goal_type = re.sub(rf"(?<![\w.'-]){re.escape(bound.group(1))}(?![\w'-])", m.group(1).split()[0], goal_type)
                hb = f"let z : {goal_type} = {hb} in z"
            helpers[name] = (m.group(1).split(), "place", fn.place(pm.group(1)), hb)
    answers = []
    for k, g in enumerate(goals):
        if g not in sigs:
            troubles.append(f"no block for goal {g}")
            continue
        if k >= len(rec["needs"]):
            continue
        ty, ls, lead = sigs[g]
        if len(goals) == len(rec["needs"]):
            old, new = rec["needs"][k]
            place = rec["asked_at"][k][0]
        else:
            want = norm(re.sub(r"^tie\.Need-", "", ty.split()[0])).replace("overflow_", "")
            hit = [(o, n, rec["asked_at"][j][0]) for j, (o, n) in enumerate(rec["needs"]) if norm(o) == want]
            if not hit:
                troubles.append(f"goal {g} has no name today")
                continue
            old, new, place = hit[0]
        if place not in fn.places:
            troubles.append(f"goal {g}: place {place}")
            continue
        unfolding = [l for l in ls if l.startswith("unfolding")]
        clause = "\n".join(l for l in ls if not l.startswith("unfolding"))
        m = re.match(rf"{re.escape(g)}((?:\s+[^\s=]+)*)\s*=\s*(.*)$", clause, re.S)
        if not m:
            troubles.append(f"goal {g}: clauses")
            continue
        params, body = m.group(1).split(), m.group(2).strip()
        if body in ("search rules", "tt", "omega arith") and not unfolding:
            continue
        if re.match(r"(enum_known|enum_told|known_told|shape_of|struct_told|told)", new):
            continue
        try:
            env = {params[0]: place} if params else {}
            b = turn_body(fn, body, env, place, helpers, notes)
            b = re.sub(r"not-(?:true|false) _ (c\.[\w.-]+\.(?:true|false))", r"\1", b)
            if ".branch" in b:
                b = b.replace(".branch", ".branch-raw")
            if new.startswith("returns"):
                own = fn_path.split(".proofs.")[0].split(".")[1] + "::" + fn_path.split(".proofs.")[1].replace(".", "::")
                b = by_clause(b, contracts.get(own, []))
        except Trouble as t:
            troubles.append(f"goal {g} ({new}): {t}")
            continue
        entry = "\n".join(lead + [f"pub {new} : goal.{new}"] + unfolding + [f"{new} c = {b}" if "\n" not in body or not body.startswith("\n") else f"{new} c ={b}"])
        answers.append(entry)
    # invariants
    inv_out = []
    for name in invs:
        ty, ls, lead = sigs[name]
        m = re.match(r"tie\.(invariant|decreases)-([\w-]+)", ty)
        kind, loop = m.group(1), m.group(2)
        if norm(loop) not in loops:
            troubles.append(f"loop {loop}")
            continue
        new, variables, changed = loops[norm(loop)]
        unfolding = [l for l in ls if l.startswith("unfolding")]
        clause = "\n".join(l for l in ls if not l.startswith("unfolding"))
        m = re.match(rf"{re.escape(name)}((?:\s+[^\s=]+)*)\s*=\s*(.*)$", clause, re.S)
        params, body = m.group(1).split(), m.group(2).strip()
        want = [("l.initial." if ch else "l.") + v for v, ch in zip(variables, changed)] + ["l." + v for v, ch in zip(variables, changed) if ch]
        if len(want) != len(params):
            troubles.append(f"loop {loop}: {len(params)} arguments, {len(want)} today")
            continue
        sub = dict(zip(params, want))
        b = re.sub(rf"(?<![\w.'-])({NAMEPAT})", lambda mm: sub.get(mm.group(1), mm.group(1)), body)
        inv_out.append("\n".join([f"abbrev pub {kind}-{new} : goal.{kind}-{new}"] + unfolding + [f"{kind}-{new} l = {b}"]))
    # other helpers stay as lemmas
    others = []
    for name, (ty, ls, lead) in sigs.items():
        if name in goals or name in invs or name in helpers:
            continue
        if re.search(r"(?:tie|lts|reads)\.", ty):
            troubles.append(f"helper {name}: {ty[:100]}")
            continue
        others.append("\n".join(lead + [f"{name} : {ty}"] + ls))
    base = fn_path
    drop = re.compile(r"\.(Statement\.\{statement\}|Tie as tie|Reads as [\w-]+|Lts as lts|Tie|Kinds as [\w-]+)$")
    uses = [u for u in uses if not drop.search(u)]
    if inv_out:
        t = "\n\n".join(inv_out)
        im = imports(uses, t)
        with open(os.path.join(folder, "Invariants.antt"), "w", encoding="utf-8") as f:
            f.write("\n".join(comment[:1] + im + [f"use {base}.Given as goal"]) + "\n\n" + t + "\n")
    if answers:
        t = "\n\n".join(others + answers)
        im = imports(uses, t)
        with open(os.path.join(folder, "Answers.antt"), "w", encoding="utf-8") as f:
            f.write("\n".join((comment if not inv_out else comment) + im + [f"use {base}.Goals as goal"]) + "\n\n" + t + "\n")
    if troubles:
        os.rename(path, path + ".txt")
    else:
        os.remove(path)
    return troubles, notes


def main():
    crate, names = sys.argv[1], sys.argv[2]
    root = os.path.realpath(os.path.join(os.path.dirname(os.path.realpath(__file__)), ".."))
    recs = json.load(open(names))
    contracts = source_contracts(root)
    done = bad = 0
    top = os.path.join(root, "crates", crate, "proofs")
    for folder, dirs, files in os.walk(top):
        if "Proof.antt" not in files:
            continue
        rel = os.path.relpath(folder, top).replace("/", ".")
        key = f"Rattle-{crate}-proofs.{rel}.Lts"
        if key not in recs:
            print(f"{folder}: no names: {key}")
            bad += 1
            continue
        try:
            troubles, notes = convert(crate, folder, f"Rattle.{crate}.proofs.{rel}", recs[key], contracts, root)
        except Exception as e:  # said, and the older file stays
            print(f"{folder}: {type(e).__name__} {e}")
            bad += 1
            continue
        for n in notes:
            print(f"{rel}: note: {n}")
        for t in troubles:
            print(f"{rel}: left: {t}")
        done += not troubles
        bad += bool(troubles)
    print(f"{crate}: {done} turned, {bad} to be looked at")


if __name__ == "__main__":
    main()
