#!/usr/bin/env python3
"""Turns a crate's Proof.antt files of the older generator (`tie.spec ..`) to Invariants.antt and Answers.antt.

usage: turn_proofs.py NAMES [--all] [FUNCTION-FOLDER..]      in a crate's folder

NAMES is the names.json that `rt check --generated DIR --old-names` wrote. Each goal, step and place gets the name that Rattle gives it
today; `.before` goes, since the fields of earlier steps are seen through. An answer that is only `search rules` or `omega arith` is left
out, since the check tries those itself (--all keeps them). Folders are relative to proofs/; with none, all are turned.
"""
import json
import os
import re
import sys

W = r"[^\s(){}\[\];,.«»\"`@⌜⌝⟦⟧]+"
TRIVIAL = {"search rules", "omega arith", "tt", "search rules depth 7", "refl"}


def norm(s):
    s = s.replace("«", "").replace("»", "")
    s = re.sub(r"^(overflow|nonzero)[-_]", "", s)
    s = re.sub(r"^slice[-_]bounds[-_]", "part-", s)
    s = s.replace("loop-init", "loop-holds").replace("loop-preserved", "loop-again").replace("loop-smaller", "loop-less")
    return s.replace("-", "_").lower()


def clauses(root):
    """Of each function of the repository, by its path CRATE::mod::Type::f: the names of its requires and its ensures."""
    out = {}
    crates = os.path.join(root, "crates")
    for c in sorted(os.listdir(crates)):
        for d, _, fs in os.walk(os.path.join(crates, c, "src")):
            for f in fs:
                if not f.endswith(".rt"):
                    continue
                with open(os.path.join(d, f), encoding="utf-8") as h:
                    t = h.read()
                for m in re.finditer(r"\bfn (\w+)", t):
                    rest = t[m.end():]
                    # the clauses stand before the body: lines that begin with requires/ensures
                    req, ens = [], []
                    for line in rest.split("\n")[1:]:
                        s = line.strip()
                        k = re.match(r"(requires|ensures)(?: (\w+))? \{", s)
                        if k:
                            (req if k[1] == "requires" else ens).append(k[2])
                        elif s == "{" or re.match(r"(pub )?(?:\([^)]*\) )?fn ", s):
                            break
                    out.setdefault(m[1], []).append((req, ens))
    return out


class Function:
    def __init__(self, key, data, clause):
        self.key, self.d, self.clause = key, data, clause
        self.needs = {}
        for old, new in data["needs"]:
            self.needs.setdefault(norm(old), []).append(new)
        self.place = {}  # old and new place name -> index
        self.prev = {}
        self.new_place = data["places_by_name"]
        for i, p in enumerate(data["places"]):
            self.place.setdefault(p[0], i)
            self.prev[self.new_place[i]] = p[1]
        for i, n in enumerate(self.new_place):
            self.place.setdefault(n, i)
        self.step = {}
        self.callee = {}
        for p in data["places"]:
            old, new = p[2]
            if old:
                self.step.setdefault(norm(old), new)
                self.step.setdefault(norm(new), new)
            if p[3]:
                self.callee[new] = p[3]
        self.arms = {}
        for arm in data["arms"]:
            for new, old, way in arm[2] if arm else []:
                if not new.endswith("-own"):
                    self.arms.setdefault((norm(old), tuple(way)), [arm[0], new])
        self.arg = {}
        for old, new in data["args"]:
            if old.startswith(".args .") and new.startswith(".args ."):
                self.arg[norm(old[7:])] = new[7:]
        self.old_prev = {p[0]: p[1] for p in data["places"]}

    def chain(self, index):
        """The places from this one back to the first, by new name."""
        out = []
        p = self.d["places"][index]
        while True:
            out.append(self.new_place[self.d["places"].index(p)])
            if p[1] is None:
                return out
            p = next(q for q in self.d["places"] if q[0] == p[1])


def split_decls(text):
    """The comment at the head, the use lines, and the declarations."""
    head, uses, decls, cur = [], [], [], []
    lines = text.split("\n")
    i = 0
    while i < len(lines) and (lines[i].startswith("--") or not lines[i].strip()):
        head.append(lines[i])
        i += 1
    while i < len(lines) and (re.match(r"(pub )?use ", lines[i]) or not lines[i].strip() or (uses and lines[i].startswith(" ") and not decls)):
        if lines[i].strip():
            uses.append(lines[i])
        i += 1
    for l in lines[i:] + [""]:
        if not l.strip():
            if cur:
                decls.append(cur)
                cur = []
        else:
            cur.append(l)
    if cur:
        decls.append(cur)
    return head, uses, decls


def name_parts(req):
    return {str(i): n for i, n in enumerate(req)} if len(req) > 1 and all(req) else {}


class Turner:
    def __init__(self, fn, name, clause_map, all_answers):
        self.fn, self.name, self.clause_map, self.all = fn, name, clause_map, all_answers
        self.texts = {}  # name -> body, of the abbreviations over a place
        self.cited = set()
        self.unfold, self.now_unfold = {}, []
        self.helpers = {}  # name -> type and body, of the helpers that take a place
        self.warn = []

    def clause_of(self, path, kind):
        f = path.split("::")[-1]
        for req, ens in self.clause_map.get(f, []):
            return req if kind == "requires" else ens
        return []

    def fields(self, expr):
        """One dotted path, its parts renamed."""
        parts = [p for p in expr.split(".") if p != "before"]
        out, i = [parts[0]], 1
        while i < len(parts):
            p = parts[i]
            arm = None
            for n in range(len(parts) - i - 1, -1, -1):
                arm = self.fn.arms.get((norm(p), tuple(parts[i + 1:i + 1 + n])))
                if arm:
                    break
            if arm and i == 1 and parts[0] == self.var:
                out += arm
                i += 1 + n
                continue
            if p in ("requires", "ensures"):
                out.append(p)
                if p == "requires" and i == 1 and parts[0] == self.var:
                    names = (self.fn.d["pre"] or {}).get("fields") or []
                else:
                    path = self.fn.callee.get(out[-2])
                    names = self.clause_of(path, p) if path else []
                i += 1
                if len(names) > 1 and all(names):
                    k = 0
                    while i < len(parts) and parts[i] == "1" and k < len(names) - 1:
                        k += 1
                        i += 1
                    if k < len(names) - 1 and i < len(parts) and parts[i] == "0":
                        i += 1
                        out.append(names[k])
                    elif k == len(names) - 1:
                        out.append(names[k])
                    else:
                        out += ["1"] * k
                continue
            if p == "new" and self.fn.callee.get(out[-1]):
                out.append("new")
                i += 1
                params = self.fn.d["params"].get(self.fn.callee[out[-2]], [])
                k = 0
                while i < len(parts) and parts[i] == "1":
                    k += 1
                    i += 1
                if i < len(parts) and parts[i] == "0" and k < len(params):
                    out.append(params[k])
                    i += 1
                else:
                    out += ["1"] * k
                continue
            q = p.replace("-", "_")
            if out[-1] == "args" or re.match(r"t\d+$", p):
                q = self.fn.arg.get(norm(p), q)
            if i == 1 and parts[0] == self.var and p != "args":
                q = self.fn.step.get(norm(p)) or self.fn.step.get(norm(re.sub(r"_holds$", "", p)), q)
            out.append(q)
            i += 1
        return ".".join(out)

    def body(self, text, var):
        self.var = var
        self.index_names = {}

        def one(m):
            self.index_names = {}
            return self.fields(m[0])

        text = re.sub(r"(?<![\w'.-])[A-Za-z_₀-₉'][\w'₀-₉-]*(?:\.[\w'₀-₉«»-]+)+", one, text)
        return text

    def written_out(self, text, var):
        for _ in range(4):
            for h, b in self.texts.items():
                text = re.sub(r"(?<![\w'.-])" + re.escape(h) + r" [a-zA-Z]\w*(?:\.before)*(?![\w'.-])", "(" + re.sub(r"(?<![\w'.-])c(?![\w'-])", var, b).replace("\\", "\\\\") + ")", text)
        return text

    def with_helpers(self, body, var):
        cited = set()
        todo = body
        for h in reversed(list(self.helpers)):
            if re.search(r"(?<![\w'.-])" + re.escape(h) + r"(?![\w'-])", todo):
                cited.add(h)
                todo += " " + self.helpers[h][1] + " " + self.helpers[h][0]
        if not cited:
            return body
        lets = []
        self.now_unfold = sorted({x for h in cited for x in self.unfold.get(h, [])})

        def plain(x):
            for h in self.helpers:
                x = re.sub(r"(?<![\w'.-])\(?" + re.escape(h) + r" [a-zA-Z]\w*(?:\.before)*(?![\w'.-])\)?" if False else r"(?<![\w'.-])" + re.escape(h) + r" [a-zA-Z]\w*(?:\.before)*(?![\w'.-])", h, x)
            return re.sub(r"\((" + "|".join(map(re.escape, self.helpers)) + r")\)", r"\1", x)

        for h in self.helpers:
            if h in cited:
                typ, b = self.helpers[h]
                fix = lambda x: re.sub(r"(?<![\w'.-])c(?![\w'-])", var, plain(x))
                lets.append(f"    let {h} : {' '.join(fix(typ).split())} = {fix(b).strip()} in")
        lets = [self.written_out(x, var) for x in lets]
        return "\n" + "\n".join(lets) + "\n    " + plain(body).strip()


def as_record(body, names):
    """A tuple that answers several clauses gets their names."""
    if not names or len(names) < 2:
        return body
    end = body.rstrip()
    if not end.endswith(")"):
        return body
    depth, at = 0, len(end)
    for k in range(len(end) - 1, -1, -1):
        depth += (end[k] == ")") - (end[k] == "(")
        if not depth:
            at = k
            break
    before = end[:at].rstrip()
    if before and not re.search(r"\bin$", before):
        return body
    lead = ("", before, end[at + 1:-1])
    parts, depth, cur = [], 0, ""
    for ch in lead[2].rstrip().rstrip(","):
        depth += (ch in "([{") - (ch in ")]}")
        if depth < 0:
            return body
        if ch == "," and not depth:
            parts.append(cur)
            cur = ""
        else:
            cur += ch
    if cur.strip():
        parts.append(cur)
    while len(parts) < len(names) and re.match(r"\s*\(", parts[-1]) and group(parts[-1].strip(), 0) == len(parts[-1].strip()):
        inner, depth, cur = [], 0, ""
        for ch in parts[-1].strip()[1:-1]:
            depth += (ch in "([{") - (ch in ")]}")
            if ch == "," and not depth:
                inner.append(cur)
                cur = ""
            else:
                cur += ch
        inner.append(cur)
        if len(inner) < 2:
            return body
        parts = parts[:-1] + [inner[0], inner[1] if len(inner) == 2 else "(" + ",".join(inner[1:]).strip() + ")"]
    if len(parts) < len(names):
        return body
    if len(parts) > len(names):
        parts = parts[: len(names) - 1] + ["(" + ",".join(parts[len(names) - 1:]).strip().rstrip(",") + ")"]
    rows = "\n".join(f"      {n} = {p.strip()};" for n, p in zip(names, parts))
    return (lead[1].rstrip() or "") + " record {\n" + rows + "\n    }"


def group(text, i):
    """The end of the parenthesized group that begins at i."""
    depth = 0
    for k in range(i, len(text)):
        depth += (text[k] == "(") - (text[k] == ")")
        if not depth:
            return k + 1
    return None


def by_elim(text, cited):
    """`⊎_elim (λ w. A) (λ w. B) c.if-X.branch` as an `elim`, whose arms have names."""
    while True:
        at = text.find("⊎_elim")
        if at < 0:
            return text
        i = at + len("⊎_elim")
        arms = []
        for _ in range(2):
            while text[i] in " \n":
                i += 1
            if text[i] != "(":
                return text
            j = group(text, i)
            arms.append(text[i + 1:j - 1])
            i = j
        m = re.match(r"\s*([\w'.-]+\.)(if|else|loop)-([\w'-]+)\.branch", text[i:])
        if not m:
            return text.replace("⊎_elim", "⊎_elim?")
        out = []
        for kind, field, old, arm in (("then", "true", "taken", arms[0]), ("else", "false", "left", arms[1])):
            a = re.match(r"\s*λ (\w+)\.\s*(.*)$", arm, re.S)
            if not a:
                return text.replace("⊎_elim", "⊎_elim?")
            b = re.sub(r"(?<![\w'.-])" + a[1] + r"\.0\.(?:" + old + "|" + field + ")", f"{a[1]}.{m[2]}-{m[3]}.{field}", a[2])
            b = re.sub(r"(let \w+ : [\w.'-]*\.([\w']+) ≡ [^=]*= " + a[1] + r")\.\d+(?![\w.])", r"\1.\2-is", b)
            out.append(f"{kind}-{m[3]} {a[1]} ↦ {b.strip()}")
            cited.add(f"{kind}-{m[3]}")
        text = text[:at] + f"elim {m[1]}{m[2]}-{m[3]}.branch [ {out[0]}\n      | {out[1]} ]" + text[i + m.end():]


def unalias(body, var):
    """The text with each `let k = c.before.. in` written out."""
    alias = []
    while True:
        am = re.search(r"let (" + W + r") = ((?:" + "|".join(map(re.escape, [var] + alias)) + r")(?:\.before)*((?:\.[\w'-]+)*)) in\n? *", body)
        tail = am[3] if am else ""
        while am and (re.match(r"\.(args|loop)\b[^.]*$", tail) or tail.count(".") > 0 and not re.search(r"requires|ensures|given|^\.[\w'-]+$", tail)):
            am = re.compile(r"let (" + W + r") = ((?:" + "|".join(map(re.escape, [var] + alias)) + r")(?:\.before)*((?:\.[\w'-]+)*)) in\n? *").search(body, am.end())
            tail = am[3] if am else ""
        if not am:
            return body, alias
        body = body[: am.start()] + body[am.end():]
        body = re.sub(r"(?<![\w'.-])" + re.escape(am[1]) + r"(?![\w'-])", var + tail, body)


def turn(folder, fn, clause_map, all_answers):
    path = os.path.join(folder, "Proof.antt")
    with open(path, encoding="utf-8") as f:
        head, uses, decls = split_decls(f.read())
    name = os.path.basename(folder)
    t = Turner(fn, name, clause_map, all_answers)
    inv, ans = [], []
    spec_order = None
    for d in decls:
        s = "\n".join(d)
        if re.search(r"^    tie\.close|= tie\.close|tie\.spec", s, re.M):
            spec_order = s
    used = set()
    for d in decls:
        s = "\n".join(x for x in d)
        code = [x for x in d if not x.startswith("--")]
        if not code or s == spec_order:
            continue
        m = re.match(r"(?:abbrev )?(?:pub )?(" + W + r") : (tie\.\S+)(.*)$", code[0])
        if m and re.match(r"tie\.(invariant|decreases)", m[2]):
            inv.append((m[1], d, code))
            continue
        if m and m[2].startswith("tie.Need-"):
            old = m[2][len("tie.Need-"):]
            new = None
            for key in (norm(m[1]), norm(old)):
                for n in fn.needs.get(key, []):
                    if n not in used:
                        new = n
                        break
                if new:
                    break
            if new is None:
                t.warn.append(f"no goal today for {old}: {m[1]}")
                new = "GONE-" + old
            used.add(new)
            i = next((k for k, p in enumerate(fn.d["needs"]) if p[1] == new), None)
            at = fn.place.get(fn.d["asked_at"][i][1]) if i is not None else None
            rest = code[1:]
            # unfolding lines stay; the equation: NAME c [κs] = ..
            eq = next((k for k, x in enumerate(rest) if re.match(re.escape(m[1]) + r"\b", x)), None)
            if eq is None:
                t.warn.append(f"{m[1]}: no equation")
                continue
            e = rest[eq]
            mm = re.match(re.escape(m[1]) + r"((?: [^=\s]+)*) =(.*)$", e)
            args = [a for a in mm[1].split() if a not in ("κs", "lifetimes")]
            var = args[0] if args else "c"
            body = (mm[2] + ("\n" + "\n".join(rest[eq + 1:]) if rest[eq + 1:] else "")).strip("\n")
            flat = " ".join(body.split())
            if flat in TRIVIAL and not all_answers and not any(x.startswith("unfolding") for x in rest[:eq]):
                continue
            # aliases of places: let k = c.before.. in
            body = unalias(body, var)[0]
            body = t.body(body, var)
            body = re.sub(r"(?<![\w'.-])" + re.escape(var) + r"(?:\.before)+(?![\w.])", var, body)
            body = t.written_out(body, var)
            body = t.with_helpers(body, var)
            body = re.sub(r"\(not-(?:true|false) _ (" + re.escape(var) + r"\.if-not-[\w'+-]+\.(?:true|false))\)", r"\1", body)
            body = re.sub(r"not-(?:true|false) _ (" + re.escape(var) + r"\.if-not-[\w'+-]+\.(?:true|false))", r"\1", body)
            body = as_record(by_elim(body, t.cited), fn.d["asked"].get(new) or fn.d["asked"].get(fn.d["needs"][i][0] if i is not None else ""))
            pre = [x for x in d if x.startswith("--")]
            mid = rest[:eq]
            if t.now_unfold:
                words = sorted({w for x in mid + t.now_unfold if x.startswith("unfolding") for w in x.split()[1:]})
                mid = [x for x in mid if not x.startswith("unfolding")] + ["unfolding " + " ".join(words)]
                t.now_unfold = []
            body = re.sub(r"^ +(?=\S)", "", body)
            out = pre + [f"pub {new} : goal.{new}"] + mid + [f"{new} {' '.join(args)} ={'' if body.startswith(chr(10)) else ''}{body if body.startswith(' ') or body.startswith(chr(10)) else ' ' + body}"]
            ans.append(("goal", "\n".join(out)))
            continue
        # a helper: what it says of a place becomes a `let` in each answer that cites it
        hm = re.match(r"((?:abbrev |unfoldable )*)(" + W + r") : (.*)$", code[0])
        am = re.match(r"((?:abbrev |unfoldable )*)(" + W + r") : tie\.[^→]*→ .*?\n(?:abbrev )?\2 ([a-z]\w*) =(.*)$", "\n".join(code), re.S)
        if am:
            body = unalias(am[4], am[3])[0]
            t.texts[am[2]] = re.sub(r"(?<![\w'.-])" + re.escape(am[3]) + r"(?![\w'-])", "c", " ".join(t.body(body, am[3]).split()))
            continue
        pm = re.search(r"\(([a-z]\w*) : tie\.([^\s()]+)[^()]*\)", s)
        if not pm:
            ans.append(("plain", s))
            continue
        hname = hm[2] if hm else "?"
        eq = [k for k, x in enumerate(code) if re.match(re.escape(hname) + r"(?: [^:=]*)?=", x)]
        simple = hm and not hm[1] and len(eq) == 1
        unf = [x for x in code if x.startswith("unfolding")]
        code = [x for x in code if not x.startswith("unfolding")]
        eq = [k for k, x in enumerate(code) if re.match(re.escape(hname) + r"(?: [^:=]*)?=", x)]
        sig = "\n".join(code[: eq[0]] if eq else code)
        tm = re.match(re.escape(hname) + r" : \(" + re.escape(pm[1]) + r" : tie\.[^()]+\)(?: →)?\s*(.*)$", sig, re.S)
        if not simple or not tm:
            t.warn.append(f"helper {hname} by hand")
            ans.append(("plain", s))
            continue
        em = re.match(re.escape(hname) + r"((?: [^=\s]+)*) =(.*)$", "\n".join(code[eq[0]:]), re.S)
        params = em[1].split()
        var = params[0]
        typ = re.sub(r"^→\s*", "", unalias(tm[1], pm[1])[0].strip())
        typ = re.sub(r"(?<![\w'.-])" + re.escape(pm[1]) + r"(?![\w'-])", "c", t.body(typ, pm[1]))
        body = unalias(em[2], var)[0]
        body = re.sub(r"(?<![\w'.-])" + re.escape(var) + r"(?![\w'-])", "c", t.body(body, var))
        lam = "".join(f"λ {p}. " for p in params[1:])
        t.unfold[hname] = unf
        t.helpers[hname] = (typ.strip(), lam + body.strip())
    # the loops
    invs = []
    for n, d, code in inv:
        invs.append(loop(fn, n, d, code, t))
    ans = [x for _, x in ans] if any(k == "goal" for k, _ in ans) or invs else []
    crate_use = [u for u in uses if not re.search(r"\.(Statement|Tie)\b", u)]
    module = next(re.search(r"use (\S+)\.Tie", u)[1] for u in uses if re.search(r"\.Tie\b", u))
    heading = "\n".join(head).rstrip("\n")
    made = []
    if invs:
        with open(os.path.join(folder, "Invariants.antt"), "w", encoding="utf-8") as f:
            f.write("\n".join([heading] + crate_use + [f"use {module}.Given as goal"]).lstrip("\n") + "\n\n" + "\n\n".join(invs) + "\n")
        made.append("Invariants")
    if ans:
        with open(os.path.join(folder, "Answers.antt"), "w", encoding="utf-8") as f:
            f.write("\n".join([heading] + crate_use + [f"use {module}.Goals as goal"] + ([f"use {module}.Goals.{{{', '.join(sorted(t.cited))}}}"] if t.cited else [])).lstrip("\n") + "\n\n" + "\n\n".join(ans) + "\n")
        made.append("Answers")
    os.remove(path)
    print(f"{folder}: {' '.join(made) or 'nothing left'}" + "".join("\n    " + w for w in t.warn))


def loop(fn, n, d, code, t):
    """An invariant or a measure: the variables that it takes become fields of `l`."""
    kind, old = re.match(r"(invariant|decreases)-(.*)$", re.match(r".*? : tie\.(\S+)", code[0])[1]).groups()
    k = next((i for i, (names, _) in enumerate(fn.d["loops"]) if norm(names[0]) == norm(old)), None)
    if k is None:
        t.warn.append(f"no loop today for {old}")
        return "-- GONE\n" + "\n".join(d)
    new, live = fn.d["loops"][k][0][1], fn.d["loops"][k][1]
    changed = fn.d["changed"][k]
    m = re.match(re.escape(n) + r"((?: [^=\s]+)*) =(.*)$", "\n".join(code[1:]), re.S)
    if not m:
        t.warn.append(f"{n}: no equation")
        return "\n".join(d)
    params, body = m[1].split(), m[2]
    want = [("l.initial." if c else "l.") + v for v, c in zip(live, changed)] + ["l." + v for v, c in zip(live, changed) if c]
    if len(params) != len(want):
        t.warn.append(f"{n}: {len(params)} variables, today {want}")
        return "-- GONE\n" + "\n".join(d)
    to = {p: w for p, w in zip(params, want) if p != "_"}
    body = re.sub(r"(?<![\w'.₀-₉-])(" + "|".join(sorted(map(re.escape, to), key=len, reverse=True)) + r")(?![\w'₀-₉-])", lambda x: to[x[1]], body)
    pre = "\n".join(x for x in d if x.startswith("--"))
    return (pre + "\n" if pre else "") + f"abbrev pub {kind}-{new} : goal.{kind}-{new}\n{kind}-{new} l ={body}"


def main():
    args = [a for a in sys.argv[1:] if not a.startswith("--")]
    with open(args[0], encoding="utf-8") as f:
        names = json.load(f)
    root = "."
    while not os.path.exists(os.path.join(root, "crates.txt")):
        root = os.path.join(root, "..")
    cm = clauses(root)
    for key in sorted(names):
        m = re.match(r"Rattle-\w+-proofs\.(.*)\.Lts$", key)
        if not m:
            continue
        folder = os.path.join("proofs", *m[1].split("."))
        if args[1:] and m[1].replace(".", "/") not in args[1:] and folder not in args[1:]:
            continue
        p = os.path.join(folder, "Proof.antt")
        if not os.path.exists(p):
            continue
        with open(p, encoding="utf-8") as f:
            if "tie.spec" not in f.read():
                continue
        turn(folder, Function(key, names[key], cm), cm, "--all" in sys.argv)


main()
