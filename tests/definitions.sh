#!/usr/bin/env bash
# Changes the definitions of the machine and of the windows, one at a time, and sees that the theorems on them no longer hold. A
# must-fail edit cannot do this: it changes and proves one crate alone, and the definitions are those of the crates below, whose own
# contracts would fail before any theorem. Here what is tried is the theorem: a function is added to a copy of its crate whose proof
# cites the theorem and needs nothing else, and the prover is asked for that function alone, with the crates below as sources. So
# only the files of lemmas that lead to the theorem are checked.
#
# Each edit is a file in tests/definitions, in the form of the must-fail edits (one pair of lines, each a whole line of the file), with
# two lines more: the crate in which the theorem stands, and the theorem that does not hold of the changed definition. Its comment says
# why. A lemma that fails may need only another proof, so the names of what fails are printed. With the word "stand" it only sees that
# each edit's line stands in its file and each theorem in its crate.
set -euo pipefail
cd "$(dirname "$0")/.."
. tests/kit.sh
edits="$PWD/tests/definitions"
line() { sed -n "s/^$1: //p" "$2"; }

# The file of proofs in which an edit's theorem stands.
home() { grep -l -E "^ *pub $2 *:" "crates/$1"/proofs/*.antt || true; }

lost=0
for edit in "$edits"/*.edit; do
  name=$(basename "$edit" .edit) file=$(line file "$edit") crate=$(line crate "$edit") theorem=$(line theorem "$edit")
  stands=$(grep -cxF -- "$(line old "$edit")" "$file" || true)
  [ "$stands" = 1 ] || { echo "definitions: $name: its old line stands $stands times in $file"; lost=1; }
  [ "$(home "$crate" "$theorem" | wc -w)" = 1 ] || { echo "definitions: $name: no one theorem $theorem in crates/$crate/proofs"; lost=1; }
done
[ "$lost" = 0 ] || exit 1
[ "${1:-}" != stand ] || exit 0

# Outside this repository, in which `rt ci` refuses every .rt and .antt file that no crate has.
room=$(mktemp -d)
trap 'rm -rf "$room"' EXIT
cp crates.txt "$room/"
for crate in $(for edit in "$edits"/*.edit; do line crate "$edit"; done | sort -u); do
  for it in "$crate" $(below "$crate"); do
    [ -d "$room/crates/$it" ] && continue
    mkdir -p "$room/crates/$it"
    for part in src specs proofs; do
      if [ -d "crates/$it/$part" ]; then cp -r "crates/$it/$part" "$room/crates/$it/"; fi
    done
  done
done
cd "$room"

# The function that cites a theorem, in a module of its own.
citing() { echo "cites_$(printf %s "$1" | tr -c 'a-zA-Z0-9' _)"; }
cite() {
  local crate=$1 theorem=$2 name module
  name=$(citing "$theorem") module=$(basename "$(home "$crate" "$theorem")" .antt)
  cd "crates/$crate"
  if [ ! -e src/citing_theorems.rt ]; then
    printf '\nmod citing_theorems;\n' >> src/lib.rt
    echo 'ghost use Rattle.std.specs.Prelude.{◌≡◌};' > src/citing_theorems.rt
  fi
  if ! grep -q "fn $name(" src/citing_theorems.rt; then
    printf '\npub fn %s(n: u64) -> u64\n    ensures { result ≡ n }\n{\n    n\n}\n' "$name" >> src/citing_theorems.rt
    mkdir -p "proofs/citing_theorems/$name"
    printf 'use %s\n' "Rattle.std.proofs.Common.{refl}" "Rattle.$crate.proofs.$module.{$theorem}" \
      "Rattle.$crate.proofs.citing_theorems.$name.Goals as goal" > "proofs/citing_theorems/$name/Answers.antt"
    printf '\npub returns : goal.returns\nreturns c = let theorem = %s in refl\n' "$theorem" >> "proofs/citing_theorems/$name/Answers.antt"
  fi
  cd ../..
}
for edit in "$edits"/*.edit; do cite "$(line crate "$edit")" "$(line theorem "$edit")"; done

# Asks for the functions that cite a crate's theorems, or for that of one theorem. The last line is `only=N proved=M`; the status is not
# 0 either where another lemma of the same file fails.
ask() {
  local words
  mapfile -t words < <(words "$1" sources)
  mkdir -p "kept/$1"
  (cd "crates/$1" && "$kit/bin/rattle" check "${words[@]}" --jobs 1 --incremental "$room/kept/$1" --only "citing_theorems${2:+::$(citing "$2")}") > log 2>&1
}
for crate in $(for edit in "$edits"/*.edit; do line crate "$edit"; done | sort -u); do
  ask "$crate" "" || { cat log; echo "definitions: the theorems of $crate do not hold before any edit"; exit 1; }
done

failed=0
for edit in "$edits"/*.edit; do
  name=$(basename "$edit" .edit) file=$(line file "$edit") crate=$(line crate "$edit") theorem=$(line theorem "$edit")
  cp "$file" before
  OLD="$(line old "$edit")" NEW="$(line new "$edit")" awk '{ print $0 == ENVIRON["OLD"] ? ENVIRON["NEW"] : $0 }' before > "$file"
  status=0
  ask "$crate" "$theorem" || status=$?
  cp before "$file"
  # What fails for itself; antt names the definition that an error stands in. In a file of specs/ or of src/ nothing may fail: such an
  # edit cannot be read.
  errors=$(grep -a -E '^[^ ]+:[0-9]+:[0-9]+: error' log || true)
  broken=$(printf '%s\n' "$errors" | grep -E '/proofs/[A-Za-z0-9]+\.antt:[0-9]+:[0-9]+: error: `' || true)
  first=$(printf '%s\n' "$broken" | head -n 1 | sed 's/: error: .*//; s/^\.\//crates\/'"$crate"'\//; s/^\.\.\//crates\//')
  names=$(printf '%s\n' "$broken" | sed -E 's/.*: error: `([^`]+)`.*/\1/' | sort -u | paste -s -d ' ')
  unread=$(printf '%s\n' "$errors" | grep -E '/(specs|src)/|is not in scope|has no `|has no field|cannot continue' | head -n 1 || true)
  if [ "$(tail -n 1 log)" = 'only=1 proved=1' ]; then
    echo "definitions: $name: NOT refused: \`$theorem\` holds of the changed definition too"
    failed=1
  elif [ -n "$unread" ]; then
    echo "definitions: $name: the changed text cannot be read, so nothing is known: $unread"
    failed=1
  elif [ "$status $(tail -n 1 log)" != '1 only=1 proved=0' ] || [ -z "$names" ]; then
    grep -a error log | head -n 5 || true
    echo "definitions: $name: no theorem refuses it (exit $status)"
    failed=1
  else
    echo "definitions: $name: refused, as it must be, in $names (first at $first), and \`$theorem\` is lost with it"
  fi
done
exit "$failed"
