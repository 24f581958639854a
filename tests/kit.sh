# For the scripts here that ask the prover what `rt` has no word for: where the kit is, what crates.txt says of a crate, and the
# words that name a crate to `rattle`. To be read in bash, at the top of a copy of the repository.
kit=$(dirname "$(rt doc)")

# What a crate stands on, as its line of crates.txt has it: libraries of the repository and of the kit.
uses() { sed -n -E "s/#.*//; s/^$1( [^:]*)?: *//p" crates.txt; }

is_ours() { grep -q -E "^$1( [^:]*)?:" crates.txt; }

# The repository's libraries below a crate, lowest first.
below() {
  awk -v crate="$1" '
    function visit(name,   each, i, n) {
      n = split(uses[name], each, /[ ,]+/)
      for (i = 1; i <= n; i++) if (each[i] in uses && !(each[i] in seen)) { seen[each[i]]; visit(each[i]); print each[i] }
    }
    { sub(/#.*/, "") }
    /^[A-Za-z0-9_]+[^:]*:/ { match($0, /^[A-Za-z0-9_]+/); name = substr($0, 1, RLENGTH); sub(/^[^:]*: */, ""); uses[name] = $0 }
    END { visit(crate) }' crates.txt
}

# The kit's libraries that a crate and those below it use.
of_kit() {
  local it named
  for named in "$1" $(below "$1"); do
    for it in core std $(uses "$named"); do
      is_ours "$it" || echo "$it"
    done
  done | sort -u
}

# The words for a crate, one a line, to be used in its folder. How the libraries below are named is the second word's: `sources`, from
# their text, with nothing built; or `proved`, as the libraries that `rt ci` leaves in their out/.
words() {
  local it named root=src/lib.rt
  [ ! -e "crates/$1/src/main.rt" ] || root=src/main.rt
  printf '%s\n' --crate-name "$1" "$root" -L "dependency=$kit/rlibs"
  if [ "$2" = sources ]; then
    for it in $(of_kit "$1"); do printf '%s\n' --extern "$it=$kit/rlibs/$it.rlib"; done
    for it in $(below "$1"); do
      named=$(printf ',%s' core std $(uses "$it"))
      printf '%s\n' --lib "$it:${named#,}=../$it/src/lib.rt"
    done
  else
    for it in std $(uses "$1"); do is_ours "$it" || printf '%s\n' --extern "$it=$kit/rlibs/$it.rlib"; done
    for it in $(uses "$1"); do is_ours "$it" && printf '%s\n' --extern "$it=../$it/out/rlib/$it.rlib"; done
    for it in $(below "$1"); do printf '%s\n' -L "dependency=../$it/out/rlib"; done
  fi
  printf '%s\n' --antt-project "$kit/rattle/logic/antt-project.json" --logic-built "$kit/logic_built"
}
