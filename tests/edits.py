#!/usr/bin/env python3
"""Sees that each must-fail edit is refused for a fact, after `rt ci`, which says only that each is refused. A fact is a goal of a
function, or a lemma, that is no longer proved under the name that it has without the edit.

A goal's name is made of the code (`returns-then-n-lt-MOST`). An edit that changes such a name leaves the answer that a proof file has
for it without a goal, and would be refused for that alone, even where it means the same as before: then nothing was tried. Here each
edit is checked once more, the function that it changes alone where there is one, over the libraries that `rt ci` left, and what is
said is read to its end. Such an edit is mended by further pairs of lines that rename in the proof file too.

Three edits that show nothing are tried with them, to see that each is told from a refusal.

With names of crates only theirs are looked at, also over the libraries that `rt check` left: so each crate must first be proved as it
stands."""
import os
import re
import shutil
import subprocess
import sys
import tempfile
from concurrent.futures import ThreadPoolExecutor

os.chdir(os.path.dirname(os.path.dirname(os.path.abspath(__file__))))
KIT = os.path.dirname(subprocess.run(["rt", "doc"], stdout=subprocess.PIPE, text=True, check=True).stdout.strip())
LANES = len(os.sched_getaffinity(0))


# Edits that show nothing, and what is to be said of each: one that only takes a name from an answer, one that changes nothing, and
# one whose old line stands nowhere. They are made of the line that `foreign_digit` of text_listing changes.
EMPTY = (
    ("text_listing", "a_name_alone", [("src/line.rt", "if from_zero < 10 {", "if from_zero < 11 {")], "refused for a name alone"),
    ("text_listing", "no_change", [("src/line.rt", "if from_zero < 10 {", "if from_zero < 10 {")], "NOT REFUSED"),
    ("text_listing", "no_place", [("src/line.rt", "if from_ten < 10 {", "if from_ten < 11 {")], "cannot be applied"),
)


def words_of(crate):
    """The words that name a crate over the proved libraries, as absolute paths, since what is checked is a copy."""
    script = '. tests/kit.sh && words "$0" proved'
    told = subprocess.run(["bash", "-c", script, crate], stdout=subprocess.PIPE, text=True, check=True).stdout.split("\n")[:-1]
    return [it.replace("=../", f"={os.getcwd()}/crates/") for it in told]


def pairs(edit):
    path = old = ""
    for line in open(edit, encoding="utf-8").read().split("\n"):
        if line.startswith("file: "):
            path = line[6:].strip()
        elif line.startswith("old: "):
            old = line[5:]
        elif line.startswith("new:"):
            yield path, old, line[5:]


def function_at(path, text, place):
    """The function of a source in which a place stands, by its path below the crate, or None."""
    found = re.findall(r"(?m)^\s*(?:pub(?:\([^)]*\))? )?(?:const )?(?:unsafe )?(?:extern \"C\" )?fn (\w+)", text[:place])
    ended = re.search(r"(?m)^}", text[text.rfind(f"fn {found[-1]}", 0, place) : place]) if found else True
    modules = re.sub(r"^src/|\.rt$|/mod\.rt$", "", path).split("/")
    return None if ended else "::".join([it for it in modules if it not in ("lib", "main")] + [found[-1]])


def check(room, words, only):
    command = [f"{KIT}/bin/rattle", "check", *words, "--jobs", "1", *(["--only", only] if only else [])]
    how = {"cwd": room, "stdin": subprocess.DEVNULL, "stdout": subprocess.PIPE, "stderr": subprocess.STDOUT}
    ran = subprocess.run(command, errors="replace", **how)
    if ran.returncode < 0:  # ended from outside, for want of memory say: once more
        ran = subprocess.run(command, errors="replace", **how)
    return ran.returncode, ran.stdout.rstrip("\n").split("\n")


def why(lines):
    """The first fact that fails, or the first name that a proof file misses: beside a missing name nothing else counts, since it may
    follow from that."""
    errors = [it for it in lines if re.match(r"\S+:\d+:\d+: error: ", it) and "that depend" not in it]
    names = [it for it in errors if re.search(r"(^|/)proofs/", it.split(":")[0]) and re.search(r"has no `|has no field|is not in scope", it)]
    if names:
        return None, names[0]
    facts = [it for it in errors if "exports no `" not in it]
    facts += [it for it in lines if "allow values at which this goal is false" in it]
    facts += [it for it in lines if re.match(r"note: \S+:\d+:\d+: it is not proved", it)]
    return facts[0] if facts else None, None


def tried(crate, name, changes):
    """Whether an edit is refused for a fact, and what was said."""
    label = f"{crate}/{name}"
    with tempfile.TemporaryDirectory() as room:
        for part in ("src", "specs", "proofs"):
            if os.path.isdir(f"crates/{crate}/{part}"):
                shutil.copytree(f"crates/{crate}/{part}", f"{room}/{part}")
        only = set()
        for path, old, new in changes:
            text = open(f"{room}/{path}", encoding="utf-8").read()
            if text.count(old) != 1:
                return False, f"{label}: cannot be applied"
            if not path.startswith("proofs/"):
                only.add(function_at(path, text, text.index(old)) if path.startswith("src/") else None)
            with open(f"{room}/{path}", "w", encoding="utf-8") as it:
                it.write(text.replace(old, new))
        one = only.pop() if len(only) == 1 else None
        words = words_of(crate)
        status, lines = check(room, words, one)
        fact, name = why(lines)
        if one and (status != 1 or not fact and not name):
            status, lines = check(room, words, None)
            fact, name = why(lines)
    if status == 0:
        return False, f"{label}: NOT REFUSED"
    if fact and status == 1:
        return True, f"{label}: {fact[:200]}"
    if name:
        return False, f"{label}: refused for a name alone, and for no fact: {name[:200]}"
    return False, f"{label}: nothing is known of it (exit {status}): {lines[-1][:200]}"


def main(names):
    edits = []
    for crate in sorted(os.listdir("crates")):
        folder = f"crates/{crate}/must-fail"
        if os.path.isdir(folder) and (not names or crate in names):
            edits += [(crate, it, list(pairs(f"{folder}/{it}"))) for it in sorted(os.listdir(folder)) if it.endswith(".edit")]
    unchanged = [(crate, "as_it_stands", [], "NOT REFUSED") for crate in names]
    with ThreadPoolExecutor(LANES) as pool:
        empty = [(pool.submit(tried, *it[:3]), it[3]) for it in [*unchanged, *EMPTY] if not names or it[0] in names]
        results = list(pool.map(lambda it: tried(*it), edits))
    for well, text in results:
        print(f"edits: {'' if well else 'NOT WELL: '}{text}")
    well = sum(it for it, _ in results)
    print(f"edits: {well} of {len(results)} are refused for a fact")
    missed = [it.result()[1] for it, due in empty if it.result()[0] or due not in it.result()[1]]
    for text in missed:
        print(f"edits: NOT WELL: what shows nothing is not told from a refusal: {text}")
    return 0 if well == len(results) and not missed else 1


sys.exit(main(sys.argv[1:]))
