#!/usr/bin/env python3
"""Turns the proofs that walk a function's code by hand (proofs/F/Proof.antt) into Invariants.antt and Answers.antt.

  rt names NAMES                                  at the top of the repository: what each goal, step and place is called today
  python3 tools/port/answers.py NAMES CRATE..     turns each proof of these crates; what it leaves is printed
"""
import glob
import json
import os
import re
import sys

WORD = r"[\w'*+-]+"
LEAVE = re.compile(r"^\(?λ c( κs)?\. (search rules|tt|refl|omega arith|c\.match\d*\.keys\d*)\)?$")


def norm(name):
    return name.replace("_", "-")


def chunks(text):
    """The declarations of a file, each with the comment above it."""
    out, comment, block = [], [], []

    def end():
        nonlocal block
        if block:
            out.append(block)
        block = []

    for line in text.split("\n"):
        if line.startswith("--"):
            end()
            comment.append(line)
        elif not line.strip():
            end()
            if comment and not block:
                out.append(comment)
                comment = []
        elif line.startswith((" ", ")", "→")) and block:
            block.append(line)
        else:
            head = re.match(r"(?:(?:pub|abbrev|unfoldable)\s+)*(" + WORD + r")", line)
            prev = re.match(r"(?:(?:pub|abbrev|unfoldable)\s+)*(" + WORD + r")", next((l for l in block if not l.startswith("--")), ""))
            if block and (line.startswith("unfolding") or any(l.startswith("unfolding") for l in block[-1:]) or (head and prev and head.group(1) == prev.group(1))):
                block.append(line)
            else:
                end()
                block = comment + [line]
                comment = []
    end()
    if comment:
        out.append(comment)
    return out


def arguments(text):
    """The arguments of tie.spec, split at spaces outside brackets."""
    out, depth, word = [], 0, ""
    for ch in text:
        if ch in "([{":
            depth += 1
        if ch in ")]}":
            depth -= 1
            if depth < 0:
                break
        if ch.isspace() and depth == 0:
            if word.strip():
                out.append(word.strip())
            word = ""
        else:
            word += ch
    if word.strip():
        out.append(word.strip())
    return out


def turn(crate, path, names, said):
    folder = os.path.dirname(path)
    function = os.path.relpath(folder, f"crates/{crate}/proofs")
    if "+" in function:
        said.append(f"{path}: a cycle of calls, by hand")
        return
    dotted = function.replace("/", ".")
    key = f"Rattle-{crate}-proofs.{dotted}.Lts"
    if key not in names:
        said.append(f"{path}: no names for {key}")
        return
    entry = names[key]
    with open(path, encoding="utf-8") as f:
        text = f.read()
    parts = chunks(text)
    places = {norm(p[0]): n for p, n in zip(entry["places"], entry["places_by_name"])}
    indices = {p[0]: i for i, p in enumerate(entry["places"])}
    dashed = {norm(p[0]): p[0] for p in entry["places"]}
    arms = entry["arms"]

    def way_to(place):
        out = []
        while place is not None and place in indices:
            i = indices[place]
            out.append(i)
            place = entry["places"][i][1]
        return out

    def above(place, k):
        """The place k steps before a place, or None."""
        for _ in range(k):
            if place is None:
                return None
            place = entry["places"][indices[place]][1]
        return place

    # A place inside an arm is today the place of the arm.
    promoted = {}
    for i, p in enumerate(entry["places"]):
        if arms[i] and arms[i][1] > 1:
            q = p[0]
            for _ in range(arms[i][1] - 1):
                q = entry["places"][indices[q]][1]
                if q is not None:
                    promoted.setdefault(q, p[0])
    places = {n: entry["places_by_name"][indices[promoted.get(q, q)]] for n, q in dashed.items()}

    def steps_of(way):
        """The steps on the way to a place, by their old names, and what their fields are called; then those of all places."""
        steps, fields = {}, {}
        for i in list(way) + [i for i in range(len(entry["places"])) if i not in way]:
            old, new = entry["places"][i][2]
            if arms[i]:
                label, _, them = arms[i]
                for field, step, path_of in them:
                    if path_of:
                        fields.setdefault((norm(step), tuple(path_of)), f"{label}.{field}")
                    elif norm(step) not in steps:
                        steps[norm(step)] = f"{label}.{field}"
            if old:
                steps.setdefault(norm(old), new)
        return steps, fields

    loops = entry["loops"]
    needs = entry["needs"]

    # tie.spec and its arguments
    spec = [b for b in parts if any("tie.close" in l or "tie.spec" in l for l in b)]
    if len(spec) != 1:
        said.append(f"{path}: {len(spec)} declarations with tie.spec")
        return
    whole = "\n".join(spec[0])
    args = arguments(whole.split("tie.spec", 1)[1])
    invariants = [a for a in args if re.search(r"(?m)^\s*abbrev (pub )?" + re.escape(a) + r" : tie\.(invariant|decreases)", text)]
    answers = args[len(invariants):]
    if len(answers) != len(needs):
        said.append(f"{path}: {len(answers)} answers, {len(needs)} goals: {[n[0] for n in needs]}")
    named, inline = {}, []
    for i, a in enumerate(answers):
        new = needs[i][1] if i < len(needs) and len(answers) == len(needs) else None
        if re.fullmatch(WORD, a):
            named[a] = new
        elif not LEAVE.match(re.sub(r"\s+", " ", a)):
            inline.append((new, a))
    by_label = {}
    for o, n in needs:
        by_label.setdefault(norm(o), n)

    used = set()

    def places_in(t):
        """Places by their new names, and generated names without the loops' invariants."""
        # a place with the invariants of the loops before it
        pattern = r"tie\.((?:After|Then|Else|In|At|Start|Past|Join|On|Untold|Arm|Not|Before|With)[\w'-]*)((?: (?:" + "|".join(map(re.escape, invariants)) + r"))*)(?![\w'-])" if invariants else r"tie\.((?:After|Then|Else|In|At|Start|Past|Join|On|Untold|Arm|Not|Before|With)[\w'-]*)()(?![\w'-])"

        def one(m):
            n = norm(m.group(1))
            if n in places:
                used.add(places[n])
                return places[n]
            said.append(f"{path}: place {m.group(1)}?")
            return m.group(0)

        return re.sub(pattern, one, t)

    plain = {"args", "ranges", "requires", "well_formed", "well-formed", "type_inv", "type-inv", "lifetimes", "given", "result", "ensures", "new", "pre"}
    everywhere = steps_of([])

    # the places that a lemma of the file is stated at
    stated = {promoted.get(dashed[norm(m)], dashed[norm(m)]) for m in re.findall(r"tie\.([A-Z][\w'-]*)", text) if norm(m) in dashed}
    today = dict(zip((p[0] for p in entry["places"]), entry["places_by_name"]))

    def value_of(known, k):
        """The place k steps before a known one: by its name where a lemma is stated at it, else as what comes after it."""
        root, label, place = known
        q = above(place, k)
        if promoted.get(q) in stated:
            q = promoted[q]
        return f"(goal.at.{label} {root}).{today[q]}" if q in stated and label else root

    def path_in(var, known, tail):
        """A path from a variable, in today's words."""
        tokens = tail[1:].split(".")
        k = 0
        while k < len(tokens) and tokens[k] == "before":
            k += 1
        rest = tokens[k:]
        if known is not None:
            if not rest:
                return value_of(known, k)
            steps, fields = steps_of(way_to(known[2]))
        else:
            steps, fields = everywhere
            if not rest:
                said.append(f"{path}: {var}{tail}, from where?")
                return var + tail
            if k == 0 and var not in ("", "c"):
                return var + tail
        if rest[0] not in plain:
            n = norm(rest[0])
            if n not in steps and n.endswith("-lem"):
                n = n[:-4]
            for m in range(len(rest) - 1, 0, -1):
                if (n, tuple(rest[1 : m + 1])) in fields:
                    rest = fields[n, tuple(rest[1 : m + 1])].split(".") + rest[m + 1 :]
                    break
            else:
                if n in steps:
                    rest = steps[n].split(".") + rest[1:]
        rest = [{"well-formed": "well_formed", "type-inv": "type_inv", "pre": "requires"}.get(r, r) for r in rest]
        return ".".join([var] + rest)

    def paths_in(t, env):
        out, at = [], 0
        for m in re.finditer(r"(?<![\w'.-])let ([\w'-]+) = ([\w'-]+)((?:\.before)*|(?: [\w'.-]+)+) in\b|(?<![\w'.-])([a-zA-Z][\w'-]*|\))((?:\.[\w'«»-]+)+)|(?<![\w'.λ-])(?<!λ )([a-z])(?![\w'.-])", t):
            out.append(t[at : m.start()])
            at = m.end()
            if m.group(1):
                known = env.get(m.group(2))
                if m.group(3).startswith(" "):
                    # a place that a lemma gives
                    env.pop(m.group(1), None)
                    if m.group(2) in constants:
                        env[m.group(1)] = (m.group(1), None, constants[m.group(2)][2])
                    out.append(f"let {m.group(1)} = {m.group(2)}" + paths_in(m.group(3), env) + " in")
                    continue
                if known is not None:
                    k = len(m.group(3)) // 7
                    env[m.group(1)] = (known[0], known[1], above(known[2], k))
                    out.append(f"let {m.group(1)} = {value_of(known, k)} in")
                else:
                    env.pop(m.group(1), None)
                    out.append(m.group(0))
            elif m.group(6):
                known = env.get(m.group(6))
                if known is not None and known[0] == m.group(6) and promoted.get(known[2], known[2]) in stated and known[1] and re.match(r"[\s)]", t[m.end() : m.end() + 1] or " ") and not re.match(r"(?: [\w'«»]+)* (?:=|:)\s", t[m.end() :]):
                    out.append(value_of(known, 0))
                else:
                    out.append(m.group(0))
            else:
                var = m.group(4)
                if var == ")":
                    depth, i = 0, m.start()
                    while i >= 0:
                        depth += (t[i] == ")") - (t[i] == "(")
                        if depth == 0:
                            break
                        i -= 1
                    head = re.match(r"\(([\w'-]+)", t[i:]) if i >= 0 else None
                    known = constants.get(head.group(1)) if head else None
                    tail = path_in("", ("", None, known[2]) if known else None, m.group(5))
                    out.append(")" + tail)
                else:
                    out.append(path_in(var, env.get(var), m.group(5)))
        out.append(t[at:])
        return "".join(out)

    constants = {}
    for m in re.finditer(r"(?m)^\s*(?:abbrev )?([\w'-]+) : tie\.([A-Z][\w'-]*)(?: [\w' -]*)?$", text):
        if norm(m.group(2)) in dashed:
            constants[m.group(1)] = (m.group(1), None, dashed[norm(m.group(2))])

    def turned(t, place=None, label=None):
        env = dict(constants)
        for m in re.finditer(r"\(([\w' -]+) : tie\.([A-Z][\w'-]*)", t):
            for v in m.group(1).split():
                if norm(m.group(2)) in dashed:
                    q = dashed[norm(m.group(2))]
                    env[v] = (v, today[promoted.get(q, q)], q)
        if place is not None:
            env["c"] = ("c", label, place)
        t = re.sub(r"λ c κs\.", "λ c.", t)
        t = places_in(paths_in(t, env))
        t = re.sub(r"not-true (?:[\w'.-]+|_) ([\w'.-]+\.true)(?![\w'.-])", r"\1", t)
        t = re.sub(r"not-false (?:[\w'.-]+|_) ([\w'.-]+\.false)(?![\w'.-])", r"\1", t)
        t = re.sub(r"\.pre(?![\w'-])", ".requires", t)
        t = re.sub(r"(-arg(?:-\d+)+\.given)\.2", r"\1.1", t)
        for_names = {o: n for o, n in named.items() if n and o != n}
        if for_names:
            t = re.sub(r"(?<![\w'.-])(" + "|".join(sorted(map(re.escape, for_names), key=len, reverse=True)) + r")(?![\w'-]|\s*:\s)", lambda m: for_names[m.group(1)], t)
        return t

    where = {new: place[0] for (_, new), place in zip(needs, entry["asked_at"])}

    out, inv, uses = [], [], []
    for b in parts:
        code = [l for l in b if not l.startswith("--")]
        t = "\n".join(b)
        if b is spec[0]:
            continue
        if not code:
            out.append(t)
            continue
        if all(l.startswith("use ") for l in code):
            uses += [l for l in code]
            if len(code) != len(b):
                out.insert(0, "\n".join(l for l in b if l.startswith("--")))
            continue
        m = re.match(r"abbrev (?:pub )?(" + WORD + r") : tie\.(invariant|decreases)(-[\w'-]+)?\s*$", code[0])
        if m:
            name, kind, label = m.group(1), m.group(2), (m.group(3) or "-loop")[1:]
            loop = next((i for i, l in enumerate(loops) if norm(l[0][0]) == norm(label)), None)
            if loop is None:
                said.append(f"{path}: loop {label}?")
                continue
            (_, new), variables = loops[loop]
            changed = entry["changed"][loop]
            body = "\n".join(code[1:])
            h = re.match(re.escape(name) + r"((?: [\w'₀₁₂«»-]+)*) =", body)
            if not h:
                said.append(f"{path}: {name} isn't read")
                inv.append(t)
                continue
            params = h.group(1).split()
            rest = body[h.end():]
            want = len(variables) + sum(changed)
            if len(params) != want:
                said.append(f"{path}: {name} has {len(params)} parameters, {want} wanted: {variables} {changed}")
            now = [v for v, c in zip(variables, changed) if c]
            variables = [f"«{v}»" if v in ("record", "data", "open", "ruleset") else v for v in variables]
            now = [f"«{v}»" if v in ("record", "data", "open", "ruleset") else v for v in now]
            value = {}
            for i, p in enumerate(params):
                if i < len(variables):
                    value[p] = f"l.initial.{variables[i]}" if i < len(changed) and changed[i] else f"l.{variables[i]}"
                elif i - len(variables) < len(now):
                    value[p] = f"l.{now[i - len(variables)]}"
            rest = re.sub(r"(?<![\w'.«-])(" + "|".join(sorted(map(re.escape, value), key=len, reverse=True)) + r")(?![\w'»-])", lambda m: value[m.group(1)], rest) if value else rest
            label = f"{kind}-{new}"
            inv.append("\n".join([l for l in b if l.startswith("--")] + [f"abbrev pub {label} : goal.{label}", f"{label} l ={rest}"]))
            continue
        # an answer
        h = next((l for l in code), "")
        m = re.match(r"(pub )?(" + WORD + r") : tie\.Need-([\w'-]+)((?: [\w'-]+)*)\s*$", h)
        if m:
            name = m.group(2)
            new = named.get(name)
            if new is None:
                new = by_label.get(norm(m.group(3))) or by_label.get(norm(m.group(3)).replace("overflow-", ""))
                named[name] = new
                said.append(f"{path}: {name} by its label {m.group(3)}: {new}")
                if new is None:
                    out.append(turned(t))
                    continue
            lines, text_of = [], []
            for l in b:
                if l.startswith("--"):
                    lines.append(l)
                elif l is h:
                    lines.append(f"pub {new} : goal.{new}")
                elif not l.startswith((" ", "unfolding")) and re.match(re.escape(name) + r"(?![\w'-])", l):
                    text_of.append("\0" + re.sub(r"^( c) κs\b", r"\1", l[len(name):]))
                else:
                    text_of.append(l)
            out.append("\n".join(lines + [turned("\n".join(text_of), where[new], new).replace("\0", new)]))
            continue
        out.append(turned(t))
    for new, a in inline:
        a = turned(re.sub(r"^\((.*)\)$", r"\1", a, flags=re.S), where.get(new), new)
        m = re.match(r"λ c\. ?", a)
        if new is None:
            said.append(f"{path}: an answer without a place: {a[:80]}")
            new = "unknown"
        body = a[m.end():] if m else None
        if m is None:
            out.append(f"pub {new} : goal.{new}\n{new} = {a}")
        else:
            out.append(f"pub {new} : goal.{new}\n{new} c = {body}")
    def imports(body):
        lines = []
        for u in uses:
            if ".Statement.{statement}" in u or u.endswith(".Tie as tie"):
                continue
            m = re.match(r"(use [^{]+\.)\{(.*)\}$", u)
            if not m:
                alias = u.split()[-1].split(".")[-1]
                if re.search(r"(?<![\w'-])" + re.escape(alias) + r"\.", body):
                    lines.append(u)
                continue
            keep = []
            for n in (x.strip() for x in m.group(2).split(",")):
                seen = n.split(" as ")[-1]
                bits = [x for x in seen.split("◌") if x]
                if all(re.search(r"(?<![\w'-])" + re.escape(x) + r"(?![\w'-])" if re.match(r"\w", x) else re.escape(x), body) for x in bits):
                    keep.append(n)
            if keep:
                lines.append(m.group(1) + "{" + ", ".join(keep) + "}")
        return lines

    body = "\n\n".join(o for o in out if o.strip())
    has_answers = any(not l.startswith("--") for l in body.split("\n") if l.strip())
    os.remove(path)
    if inv:
        text_inv = "\n\n".join(inv)
        with open(os.path.join(folder, "Invariants.antt"), "w", encoding="utf-8") as f:
            f.write("\n".join(imports(text_inv) + [f"use Rattle.{crate}.proofs.{dotted}.Given as goal"]) + "\n\n" + text_inv + "\n")
    if has_answers:
        head = []
        rest = body.split("\n")
        while rest and (rest[0].startswith("--") or not rest[0].strip()):
            if rest[0].strip():
                head.append(rest[0])
            rest.pop(0)
            if head and rest and not rest[0].startswith("--"):
                break
        lines = head + imports("\n".join(rest)) + ([f"use Rattle.{crate}.proofs.{dotted}.Goals.{{{', '.join(sorted(used))}}}"] if used else []) + [f"use Rattle.{crate}.proofs.{dotted}.Goals as goal"]
        with open(os.path.join(folder, "Answers.antt"), "w", encoding="utf-8") as f:
            f.write("\n".join(lines) + "\n\n" + "\n".join(rest).strip("\n") + "\n")
    if not os.listdir(folder):
        os.rmdir(folder)


def main():
    folder, crates = sys.argv[1], sys.argv[2:]
    for crate in crates:
        with open(f"{folder}/crates/{crate}/names.json", encoding="utf-8") as f:
            names = json.load(f)
        said = []
        for path in sorted(glob.glob(f"crates/{crate}/proofs/**/Proof.antt", recursive=True)):
            turn(crate, path, names, said)
        for line in said:
            print(line)


main()
