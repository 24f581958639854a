#!/usr/bin/env python3
"""Counts in crates/*/src the places that docs/DESIGN-PASS.md is about, and in crates/*/proofs what belongs to them.

    tools/forms.py [by_name|by_shape] [--list WORD]

`by_name` looks for the older forms by the names that this repository gave them; `by_shape` looks for the same points with no name: by
what an enum, a body or a list of parameters looks like. `--list` prints the places of the rows that have WORD in their title. Run it at
the top of a checkout; of an older commit with the script of a newer one.
"""
import argparse
import collections
import glob
import re

NAMES = [
    ("1 enums of the shape of Option or Result", r"\benum (?:Held|Record|Last|Arisen|Said|Judged|JudgedEvents|Judgement|MaybeEnd|MaybeWatch|Written|Reading|Number|Finished|Decoded|Tlv|Mark|EventStep|EventNext|InformationStep|InformationNext|DescriptorStep|ContainerStep|RowStep)\b"),
    ("1 refusals made by number", r"\bRefused\((?:\d+|answer|too_many\(length\))\)"),
    ("1 functions that answer a refusal's number", r"fn \w*(?:answer|too_many|refused_number)\w*\([^{]*?-> u(?:8|64)\b"),
    ("1 a number answer beside values", r"\banswer: u8\b"),
    ("1 zero for none", r"return 0;"),
    ("2 octets joined and split by hand", r"\b(?:join_(?:two|three|four|six)|split_six)\b"),
    ("2 an event's reader for each type", r"fn (?:symbol_period|frame_event|frame_period|frame_seconds)_at"),
    ("2 a part's octets, from and test", r"fn (?:settings|link|peer|role|meter|own|watch|frames|seconds|stamp)_(?:octets|from)\b|fn is_(?:link|peer|role|own|watch)\("),
    ("3 while and loop", r"\bwhile\b|\bloop \{"),
    ("3 an index counted by hand", r"^\s*\w+ [+-]= 1;"),
    ("4 tests joined by calls", r"\b(?:either|all_three|all_four)\("),
    ("4 smaller, bit_of, wrapping_..", r"\b(?:smaller|bit_of|wrapping_\w+_u\d+)\("),
    ("4 a yes or no for every variant", r"=> (?:true|false),"),
    ("4 derive(Drop) on a plain type", r"derive\((?:Clone, Copy, )?Drop\)"),
    ("4 field: field", r"\b(\w+): \1,"),
    ("4 let x = e.x", r"let (\w+) = \w+\.\1;"),
    ("5 functions over a struct that are no methods", r"^(?:pub(?:\(crate\))? )?fn \w+\([^)]*\b\w+: (?:End|Meter|Role|Discovery|Window|Watch|Record|Heard|Settings|Own|Flags|Information|Progress|Line)\b"),
    ("5 steps by value, ..e", r"\.\.\w[\w.]*\s*\}"),
    ("5 source and flags beside each other", r"\bsource: u64,\s*flags: u16,"),
    ("5 slice and octet as a pair", r"\w+: &(?:mut )?\[u8\],\s*(?:at|position): usize"),
    ("6 pairs and sevens by index", r"\[2 \* i(?: \+ 1)?\]|\* 7\b|/ 7\b|% 7\b"),
    ("7 a kind that picks the step", r"\b(?:Kind|ListKind)::\w+,"),
]


def sources(pattern="crates/*/src/**/*.rt"):
    for path in sorted(glob.glob(pattern, recursive=True)):
        with open(path, encoding="utf-8") as file:
            yield path, file.read()


def bare(text):
    """The text without comments and ghost imports."""
    return re.sub(r"//[^\n]*|^ghost use [^;]*;", "", text, flags=re.M)


def by_name():
    for title, pattern in NAMES:
        places = []
        for path, text in sources():
            text = bare(text)
            for match in re.finditer(pattern, text, re.M):
                places.append((path, text.count("\n", 0, match.start()) + 1, match.group(0).split("\n")[0].strip()))
        yield title, places


def closing(text, start):
    """The place behind the brace that closes the one at start."""
    depth = 0
    for at in range(start, len(text)):
        depth += {"{": 1, "}": -1}.get(text[at], 0)
        if depth == 0:
            return at + 1
    return len(text)


def functions(text):
    """Each function: its line, name, what stands before its contract, its clauses and its body."""
    for match in re.finditer(r"\bfn (\w+)", text):
        end = re.compile(r"\n\s*(?:requires|ensures)\b|\{|;").search(text, match.end())
        if end is None or text[end.start()] == ";":
            continue
        head, at = text[match.start():end.start()], end.start()
        clauses = []
        while True:
            clause = re.compile(r"\s*(requires|ensures)(?: \w+)? \{").match(text, at)
            if clause is None:
                break
            stop = closing(text, clause.end() - 1)
            clauses.append((clause.group(1), " ".join(text[clause.end():stop - 1].split())))
            at = stop
        start = text.find("{", at)
        if start < 0:
            continue
        yield text.count("\n", 0, match.start()) + 1, match.group(1), head, clauses, text[start:closing(text, start)]


def parameters(head):
    inside = head[head.find("(") + 1:head.rfind(")")]
    return [" ".join(each.split()) for each in re.split(r",(?![^<\[(]*[>\])])", inside) if ":" in each]


def is_like_an_option(variants):
    """No payload or a refusal in one variant, and at most one other case with something in it."""
    empty = [v for v in variants if "(" not in v and "{" not in v]
    refused = [v for v in variants if re.match(r"Refus|Broken|Bad|Err", v)]
    full = [v for v in variants if v not in empty and v not in refused]
    return len(full) == 1 and len(variants) > 1 and len(empty) <= 2


def own_types(text):
    return set(re.findall(r"\b(?:struct|enum) (\w+)", text))


def by_shape():
    rows = collections.OrderedDict()

    def put(title, path, line, what):
        rows.setdefault(title, []).append((path, line, what))

    titles = [
        "1 enums with one case that holds something and a case of none or refusal", "1 functions that give a small number for a yes, a no or a refusal",
        "2 bodies that are alike but for names and numbers", "2 items that stand twice", "3 loops by while or loop", "3 counters stepped by one in a loop",
        "4 bodies that only spell out a derive, a test or a conversion", "5 free functions over a type of their own crate",
        "5 two parameters that stand together in three functions or more", "5 clauses that stand in three functions or more",
        "6 an element by a multiple of an index", "7 a case picked by a constant that the caller hands in",
    ]
    for title in titles:
        rows[title] = []
    shapes, types, pairs, facts = {}, collections.defaultdict(set), collections.defaultdict(list), collections.defaultdict(list)
    kinds = set()
    all_sources = [(path, bare(text)) for path, text in sources()]
    for path, text in all_sources:
        types[path.split("/")[1]] |= own_types(text)
        for match in re.finditer(r"\benum (\w+) \{([^}]*)\}", text):
            variants = [v.strip() for v in re.split(r",(?![^(]*\))", match.group(2)) if v.strip()]
            if is_like_an_option(variants):
                put(titles[0], path, text.count("\n", 0, match.start()) + 1, match.group(1))
            if all("(" not in v for v in variants):
                kinds.add(match.group(1))
    for path, text in all_sources:
        crate = path.split("/")[1]
        for line, name, head, clauses, body in functions(text):
            small = re.search(r"-> (u8|u16|usize)$", head.strip())
            answers = re.findall(r"(?:return |=> |else \{\s*|\{\s*)(\d+)(?:;|,|\s*\})", body)
            if small and "0" in answers and len(body.split("\n")) < 30:
                put(titles[1], path, line, name)
            shape = re.sub(r"\b(?!if\b|else\b|match\b|while\b|for\b|let\b|return\b|mut\b|true\b|false\b)\w+", "w", body)
            if len([each for each in body.split("\n") if each.strip()]) >= 5:
                shapes.setdefault((crate, shape), []).append((path, line, name))
            for match in re.finditer(r"\bwhile\b|\bloop \{", body):
                put(titles[4], path, line + body.count("\n", 0, match.start()), name)
                inside = body[match.start():closing(body, body.find("{", match.start()))]
                for step in re.findall(r"(\w+) [+-]= 1;", inside):
                    put(titles[5], path, line, f"{name}: {step}")
            flat = " ".join(body.split())
            if re.fullmatch(r"\{ match \w+ \{(?: [\w:]+(?:\([^)]*\))? => (?:true|false),?)+ \} \}", flat) \
                    or re.search(r"\{ true \} else \{ \w|\{ 1 \} else \{ 0 \}", flat):
                put(titles[6], path, line, name)
            plain = [each for each in parameters(head) if "self" not in each]
            takes = [each for each in plain if each.split(": ")[1].lstrip("&").replace("mut ", "") in types[crate]]
            if takes and "self" not in head:
                put(titles[7], path, line, f"{name}({takes[0]})")
            for left, right in zip(plain, plain[1:]):
                pairs[(crate, left, right)].append((path, line, name))
            for kind, clause in clauses:
                if kind == "requires":
                    facts[(crate, clause)].append((path, line, name))
            for match in re.finditer(r"\[(?:\d+ \* \w+|\w+ \* \d+)", body):
                put(titles[10], path, line, f"{name}: {match.group(0)}")
            for match in re.finditer(r"\w+\((?:[^()]*, )?(\w+)::\w+,", body):
                if match.group(1) in kinds:
                    put(titles[11], path, line, f"{name}: {match.group(0)}")
    for places in shapes.values():
        for place in places[1:]:
            put(titles[2], *place[:2], f"{place[2]}, as {places[0][2]}")
    items = collections.defaultdict(list)
    for path, text in all_sources:
        for match in re.finditer(r"^(?:pub )?(?:enum|struct|impl|fn) [^\n]*\{\n(?:[^}].*\n|\n)*\}", text, re.M):
            if match.group(0).count("\n") >= 4:
                items[match.group(0)].append((path, text.count("\n", 0, match.start()) + 1, match.group(0).split("\n")[0]))
    for places in items.values():
        for place in places[1:]:
            put(titles[3], *place)
    for (crate, left, right), places in pairs.items():
        if len(places) >= 3:
            put(titles[8], *places[0][:2], f"{left}, {right}: {len(places)} functions")
    for (crate, clause), places in facts.items():
        if len(places) >= 3:
            put(titles[9], *places[0][:2], f"{clause}: {len(places)} functions")
    yield from rows.items()


def proofs(listed):
    answers = lines = invariants = functions_with = 0
    for path, text in sources("crates/*/proofs/**/*.antt"):
        if path.endswith("/Answers.antt"):
            answers += 1
            lines += text.count("\n")
        elif path.endswith("/Invariants.antt"):
            invariants += 1
            lines += text.count("\n")
    for path, text in sources():
        functions_with += len(re.findall(r"#\[tactic\(", text))
    declared, cited = collections.Counter(), collections.Counter()
    everything = [each for each in sources("crates/*/*/**/*.antt") if "/out/" not in each[0]] + list(sources())
    for path, text in everything:
        for line in re.sub(r"--[^\n]*", "", text).split("\n"):
            head = re.match(r"(?:  )?(?:pub )?([\w'-]+)(?= (?:\{[^}]*\} )?: )", line)
            if head and "/proofs/" in path and not re.search(r"/(?:Answers|Invariants)\.antt$", path):
                declared[head.group(1)] += 1
            cited.update(re.findall(r"(?<=[^\w'-])[\w'-]+", re.sub(r"^\s*(?:pub )?[\w'-]+", "", line)))
    alone = sorted(name for name in declared if cited[name] == 0)
    print(f"{answers:5} 8 files Answers.antt, {invariants} Invariants.antt, {lines} lines in both; {functions_with} functions with a line #[tactic(..)]")
    print(f"{sum(declared.values()):5} 8 lemmas in proofs/, {len(alone)} of them cited nowhere (theorems are among them)" + (": " + " ".join(alone) if listed else ""))


def main():
    parser = argparse.ArgumentParser(description=__doc__.split("\n", maxsplit=1)[0])
    parser.add_argument("way", nargs="?", choices=["by_name", "by_shape"], default="by_name")
    parser.add_argument("--list", metavar="WORD")
    arguments = parser.parse_args()
    for title, places in by_name() if arguments.way == "by_name" else by_shape():
        by_crate = collections.Counter(path.split("/")[1] for path, _, _ in places)
        if arguments.list is None or arguments.list in title:
            print(f"{len(places):5} {title}: " + " ".join(f"{crate} {count}" for crate, count in sorted(by_crate.items())))
        if arguments.list is not None and arguments.list in title:
            for path, line, what in places:
                print(f"        {path}:{line}: {what}")
    if arguments.list is None or "lemmas".startswith(arguments.list):
        proofs(arguments.list is not None)


if __name__ == "__main__":
    main()
