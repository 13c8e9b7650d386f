#!/usr/bin/env python3
"""Brings the names of the repository's own definitions, lemmas, constructors and fields to the spelling of the library:
words in snake case, types and facts in upper camel case. Run once, at the top, after the kit's port.py.

Source names, exported names, strings, inputs and outputs keep theirs: in a .rt file only ghost text is turned.
usage: python3 tools/respell.py [--list]
"""

import collections
import os
import re
import sys

WORD = r"[^\s(){}\[\];,.«»\"]+"
HEAD = re.compile(r"^(\s*)((?:(?:pub|abbrev|unfoldable|mutual|data|record|axiom)\s+)*)([^\s(){}\[\];,.«»:]+)((?:\s+[({].*?)?)\s*:\s(.*)$")
TYPE = re.compile(r"Type\s*(\d|ℓ|\{)?\s*\d*$")

# Names that are no word of the library's spelling, or would fall together with another.
CHOSEN = {
    "getD-none": "get_or_none",
    "scan-++": "scan-++",
    "aConstant": "is_constant",
    "aName": "is_name",
    "a_type": "is_type",
    "all-free": "all_free_lem",
    "all-taken": "all_taken_lem",
    "builtIn": "built_in_result",
    "code-of": "instrs_of",
    "first-refusal": "first_refusal_lem",
    "flat-found": "flat_found_lem",
    "flat-got": "flat_got_lem",
    "formals-in": "formals_in_lem",
    "functions-in": "functions_in_lem",
    "program-in": "program_in_lem",
    "front_by": "front_by_lem",
    "ifElse": "if_else_code",
    "ifThen": "if_then_code",
    "is-taken": "taken_here",
    "is_read": "is_read_lem",
    "join-of": "join_by",
    "keyword-kind": "keyword_kind_lem",
    "mark-kind": "mark_kind_lem",
    "lower-cell": "lower_cell_lem",
    "raise-cell": "raise_cell_lem",
    "quiet-or-dying": "quiet_or_dying_lem",
    "Read-thing": "ReadThing",
}
# Names that only one proof or signature binds.
LOCAL = ["in-range", "is-n", "is-op", "is-nd", "no-if", "no-while", "no-free", "no-print", "no-brace", "nodes-long", "formals-long", "not-letter", "no-letter", "is-dead", "end-taken", "node-type", "function-type", "declarator-type", "codeOf'"]
# The same, in these crates alone: elsewhere the name is another's.
CHOSEN_IN = {
    ("grammar", "reader"): {
        "Bad": "why_bad",
        "Deep": "why_deep",
        "Many": "why_many",
        "Gas": "why_gas",
        "Done": "out_done",
        "Fail": "out_fail",
        "Lv": "level_by",
        "Cv": "level_in",
        "QS": "ends_statement",
        "QL": "ends_statements",
        "QE": "ends_expression",
        "QA": "ends_actual",
        "QT": "ends_test",
    },
}
# The same, where a file declares the name or takes it from the module that does.
CHOSEN_FROM = {
    "Rattle.grammar.proofs.Local": {"None": "no_kind"},
    "Rattle.grammar.specs.Parse": {"E": "thing_expr", "C": "thing_cond"},
}


def walk(ending):
    for folder, dirs, names in os.walk("crates"):
        dirs[:] = sorted(d for d in dirs if d != "out")
        for name in sorted(names):
            if name.endswith(ending):
                yield os.path.join(folder, name)


def read(path):
    with open(path, encoding="utf-8") as f:
        return f.read()


def module_of(path):
    parts = path[: -len(".antt")].split(os.sep)
    return ".".join(["Rattle"] + parts[1:])


def declared():
    """Each name that an .antt file of the repository declares, with the kinds it has."""
    kinds = collections.defaultdict(set)
    for path in walk(".antt"):
        lines = read(path).split("\n")
        block = None
        for i, line in enumerate(lines):
            if not line.strip() or line.strip().startswith("--"):
                continue
            indent = len(line) - len(line.lstrip())
            if block and indent <= block[1]:
                block = None
            m = HEAD.match(line)
            if not m or m.group(3) in ("let", "module", "use", "where", "λ", "in", "unfolding", "elim", "if") or "=" in line.split(":")[0]:
                continue
            words, name, said = m.group(2).split(), m.group(3), m.group(5)
            j = i + 1
            while j < len(lines) and lines[j].strip().startswith("→"):
                said += " " + lines[j].strip()
                j += 1
            if "data" in words or "record" in words:
                kinds[name].add("type")
                block = ("constructor" if "data" in words else "field", indent)
            elif block:
                kinds[name].add(block[0])
            elif os.path.basename(path) in ("Answers.antt", "Invariants.antt") and said.strip().startswith("goal."):
                continue
            else:
                kinds[name].add("type" if TYPE.search(said.strip()) else "term")
    return kinds


def snake(name):
    name = re.sub(r"([a-z0-9])([A-Z])", lambda m: m.group(1) + "_" + m.group(2).lower(), name)
    return name.replace("-", "_")


def camel(name):
    return "".join(p[:1].upper() + p[1:] for p in re.split(r"[-_]", name))


def renamings(kinds):
    turned = {name: snake(name) for name in LOCAL} | {a: b for a, b in CHOSEN.items() if a not in kinds}
    for name, of in kinds.items():
        if name in CHOSEN:
            turned[name] = CHOSEN[name]
        elif "type" in of:
            if "-" in name:
                turned[name] = camel(name)
        elif name[:1].islower() and snake(name) != name:
            turned[name] = snake(name)
    return {a: b for a, b in turned.items() if a != b}


def goals_taken(text):
    """Names that the file takes from Rattle's own modules of goals."""
    out = set()
    for m in re.finditer(r"use Rattle\.\S*\.(?:Goals|Given)\.\{([^}]*)\}", text):
        out |= {w.strip() for w in m.group(1).split(",")}
    return out


def aliases(text):
    """Names of modules in the file: a dot after one of these reaches into a module, not into a value."""
    out = set()
    for m in re.finditer(r"^\s*(?:ghost )?use (\S+?)(?: as (\S+?))?;?$", text, re.M):
        if "{" not in m.group(1):
            out.add(m.group(2) or m.group(1).split(".")[-1])
    return out - {"goal"}


def taken_from(text, module):
    out = set()
    for m in re.finditer(r"use " + re.escape(module) + r"\.\{([^}]*)\}", text):
        out |= {w.strip().split(" as ")[0] for w in m.group(1).split(",")}
    return out


def turn(text, path, turned, fields):
    crate = path.split(os.sep)[1]
    names = dict(turned)
    for crates, more in CHOSEN_IN.items():
        if crate in crates:
            names |= more
    for module, more in CHOSEN_FROM.items():
        here = taken_from(text, module) | (set(more) if path.endswith(".antt") and module_of(path) == module else set())
        names |= {a: b for a, b in more.items() if a in here}
    for name in goals_taken(text):
        names.pop(name, None)
    modules = aliases(text)
    chosen_in_modules = {a: b for module, more in CHOSEN_FROM.items() for a, b in more.items() if module.split(".")[-1] in modules}

    def path_of(start):
        """The dotted path that ends before text[start]."""
        m = re.search(r"((?:" + WORD + r"|«[^»]*»|\))(?:\.(?:" + WORD + r"|«[^»]*»))*)\.$", text[max(0, start - 300) : start])
        return m.group(1) if m else ""

    def one(m):
        word = m.group(0)
        new = names.get(word)
        if m.start() and text[m.start() - 1] == ".":
            before = path_of(m.start())
            root = before.split(".")[0]
            if root in modules or root == "Rattle":
                return names.get(word) or chosen_in_modules.get(word) or word
            return new if new and word in fields else word
        return new or word

    return re.sub(WORD, one, text)


GHOST = re.compile(r"(ghost use [^;]*;|(?:requires|ensures|decreases|invariant)\*?(?: \w+)? \{|ghost \w+(?:: \{| = \{|: \w))")


def ghost_spans(text):
    """The parts of a .rt file that are ghost text: imports, clauses, ghost fields and members."""
    at = 0
    while True:
        m = GHOST.search(text, at)
        if not m:
            return
        if m.group(0).endswith("{"):
            depth, i = 1, m.end()
            while depth:
                depth += {"{": 1, "}": -1}.get(text[i], 0)
                i += 1
            yield m.end(), i - 1
            at = i
        else:
            yield m.start(), m.end()
            at = m.end()


def turn_rt(text, path, turned, fields):
    uses = "\n".join(re.findall(r"ghost (use [^;]*);", text))
    out, last = [], 0
    for a, b in ghost_spans(text):
        out.append(text[last:a])
        part = uses + "\n\0" + text[a:b]
        out.append(turn(part, path, turned, fields).split("\0", 1)[1])
        last = b
    return "".join(out) + text[last:]


def main():
    kinds = declared()
    turned = renamings(kinds)
    fields = {n for n in turned if "field" in kinds[n]}
    if "--list" in sys.argv:
        for a, b in sorted(turned.items()):
            print(a, b)
        return
    for path in list(walk(".antt")) + list(walk(".rt")):
        old = read(path)
        new = (turn if path.endswith(".antt") else turn_rt)(old, path, turned, fields)
        if new != old:
            with open(path, "w", encoding="utf-8") as f:
                f.write(new)


if __name__ == "__main__":
    main()
