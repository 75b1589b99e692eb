#!/usr/bin/env python3
"""Respells this repository's own names as today's Rattle spells them (run once, at the top, behind the kit's port script).

Definitions, constructors and fields that `specs/` and `proofs/` declare become snake case, facts upper camel case; a dash stays only in
the name of a lemma, where it joins two names, and each of those is snake case too. Functions of `src/`, exported C names, strings, inputs
and outputs keep their names. Names that would fall together are printed, and left.
"""
import collections
import glob
import re
import sys

NAME = r"[^\s:(){}\[\],;.λ→×≡∷+*/%^<≤=|«»⌜⌝\"`]+"
TOKEN = re.compile(r"[A-Za-z_][A-Za-z0-9_'₀-₉-]*")


# Two of these names would be spelled alike where both are in scope, so one of them is worded differently: a constructor of a step of reading
# beside the expectation that it stands for, one of the grammar beside the meaning that it declares. A lemma that would have the name
# of a definition ends in `_lem`.
WORDED = {
    "is-star": "is_star",
    "limit-most": "most_of_limit", "limit-window": "window_of_limit", "bit-index": "index_of_bit", "new-input": "name_of_input",
    "new-store": "name_of_store", "new-define": "name_of_define", "new-production": "name_of_production", "of-production": "by_production",
    "an-input": "declares_input", "a-store": "declares_store", "a-define": "declares_define", "a-production": "declares_production",
}
# Names that are declared inside a module, a clause or a `where`, or as the name of a module that is brought in.
WITHIN = (
    "leaveM", "shiftAll", "shiftLetter", "askM", "noWire", "askRow", "leaveRow", "threadsIn", "stateFrom", "shiftPositions", "repliesFrom",
    "forkAt", "walkAt", "recordOf", "leaveVisits", "verdictReply", "shiftEntered", "judgedMonitors", "traceRead", "endsOpen", "placeUnder",
    "askVisits", "beforeThreads", "leaveTo-right", "enterOn-right", "goesOn-both", "goAll-shifted", "bothRuns", "roundRuns", "rowsIn-two",
    "anyRun", "isOne", "sidesAt", "leftWord", "rightWord", "bodyWord", "writeMet-shifted", "eitherRuns", "lettersPlace", "writeMet-renumbered",
    "branchRuns", "anyIdle",
)
LEMMAS = ("clean_line", "codes_all", "goes_on", "is_name", "met_at", "moved_by", "one_more", "past_the_end", "rows_in", "too_long", "too_many")


def antt_files():
    return sorted(f for f in glob.glob("crates/*/specs/**/*.antt", recursive=True) + glob.glob("crates/*/proofs/**/*.antt", recursive=True)
                  if "/out/" not in f)


def snake(name):
    """camelCase to snake_case."""
    return re.sub(r"(?<=[a-z0-9'])([A-Z])", lambda m: "_" + m.group(1).lower(), name)


def upper(name):
    return name[0].upper() + name[1:]


def declared(path):
    """(name, kind) for each name that a file declares; kind is fact, word or lemma."""
    text = open(path).read()
    proofs = "/proofs/" in path
    found = []
    block = None
    for line in text.split("\n"):
        m = re.match(r"^((?:abbrev |unfoldable |pub |private )*)(data|record)? ?(" + NAME + r")\s*((?:\([^)]*\)\s*|\{[^}]*\}\s*)*):(?!:)(.*)$", line)
        if m and not line.startswith(("--", " ", "use", "mod")):
            name, kind, rest = m.group(3), m.group(2), m.group(5)
            if kind:
                block = kind
                found.append((name, "type"))
            else:
                block = None
                word = "abbrev" in m.group(1) or "unfoldable" in m.group(1) or not proofs
                if word and re.search(r"Type( [01])?$", rest.strip()):
                    found.append((name, "fact"))
                else:
                    found.append((name, "word" if word else "lemma"))
            continue
        m = re.match(r"^  (?:pub )?(" + NAME + r") :", line)
        if m and block:
            found.append((m.group(1), "word"))
            continue
        if line and not line.startswith((" ", "--")):
            block = None
    return found


def new_name(name, kind):
    if kind == "type":
        return name
    if kind == "fact":
        return "".join(upper(p) for p in re.split(r"[-_]", name)) if re.match(r"[a-z]", name) else name
    if kind == "lemma":
        return "-".join(snake(p) if re.match(r"[a-z]", p) else p for p in name.split("-"))
    return snake(name).replace("-", "_") if re.match(r"[a-z]", name) else name


def main():
    kinds = collections.defaultdict(set)
    files = [f for f in antt_files() if re.search(r"/(specs/.*|proofs/[^/]*)\.antt$", f)]
    for path in files:
        for name, kind in declared(path):
            kinds[name].add(kind)
    renames = {}
    for name, found in kinds.items():
        # a name that is a word anywhere is a word, so that one name has one spelling
        kind = next(k for k in ("fact", "type", "word", "lemma") if k in found)
        new = WORDED.get(name) or new_name(name, kind)
        if new != name:
            renames[name] = new
    for name, new in WORDED.items():
        renames.setdefault(name, new)
    for name in WITHIN:
        renames.setdefault(name, new_name(name, "lemma"))
    for name, new in sorted(renames.items()):
        if new in kinds and new not in renames:
            print(f"falls together: {name} -> {new}")
    back = collections.defaultdict(list)
    for name, new in renames.items():
        back[new].append(name)
    for new, olds in back.items():
        if len(olds) > 1:
            print(f"falls together: {olds} -> {new}")
    # the files that declare a lemma of LEMMAS, and by their modules those that import it
    lemma_files = collections.defaultdict(set)
    for path in files:
        for name, kind in declared(path):
            if name in LEMMAS and kind == "lemma":
                lemma_files[name].add(path)
    if "--list" in sys.argv:
        for name, new in sorted(renames.items()):
            print(name, new, sorted(kinds[name]))
        return

    def turned(text, names):
        return TOKEN.sub(lambda m: names.get(m.group(0), m.group(0)), text)

    for path in antt_files():
        text = open(path).read()
        # what a file imports under another name, or already has under the new one
        tokens = set(TOKEN.findall(text))
        for name, new in renames.items():
            if name in tokens and new in tokens:
                if not (new in LEMMAS and any(k == "lemma" for n, k in declared(path) if n == new)):
                    print(f"{path}: {name} -> {new}: the new name stands there already")
        here = dict(renames)
        if "crates/live/" in path:
            here.pop("a-store")
        for name, origins in lemma_files.items():
            for origin in origins:
                crate, file = re.match(r"crates/(\w+)/proofs/(\w+)\.antt", origin).groups()
                if path == origin or re.search(r"^use Rattle\." + crate + r"\.proofs\." + file + r"\.\{[^}]*\b" + name + r"\b", text, re.M):
                    here[name] = name + "_lem"
        out = turned(text, here)
        if out != text:
            open(path, "w").write(out)
    for path in sorted(glob.glob("crates/*/src/*.rt")):
        text = open(path).read()
        out = []
        depth = 0
        ghost = False
        for line in text.split("\n"):
            starts = re.match(r"\s*(ghost use|requires|ensures|ghost|invariant)\b", line) is not None
            if starts or depth > 0:
                new = turned(line, renames)
                if new != line:
                    line = new
                depth += line.count("{") - line.count("}")
                if starts and depth < 0:
                    depth = 0
            out.append(line)
        out = "\n".join(out)
        if out != text:
            open(path, "w").write(out)


if __name__ == "__main__":
    main()
