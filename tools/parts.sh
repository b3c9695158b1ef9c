# shellcheck shell=bash disable=SC2154
# What `hot`, `hot-try` and `.ci/run` share. Each sets `top`, the folder of the repository, before it reads this file.

# What the scripts keep between two calls; never committed.
made=$top/out
program=$top/crates/hot/out/hot

# The program's crate and all that it stands on, each behind those above it, as crates.txt lists them.
crates() {
  sed -e 's/#.*//' -e 's/,/ /g' "$top/crates.txt" | awk -F: '
    NF > 1 { split($1, word, " "); needs[word[1]] = $2 }
    END {
      wanted["hot"] = 1
      list[1] = "hot"
      for (i = last = 1; i <= last; i++) {
        count = split(needs[list[i]], low, " ")
        for (j = 1; j <= count; j++) if (low[j] in needs && !(low[j] in wanted)) {
          wanted[low[j]] = 1
          list[++last] = low[j]
        }
      }
      for (i = 1; i <= last; i++) print list[i]
    }'
}

# One sum over the names and the contents of all files that the program is made from.
source_sum() (
  export LC_ALL=C
  shopt -s globstar dotglob nullglob
  cd "$top/crates" || exit 1
  files=(../crates.txt)
  for name in $(crates); do
    files+=("$name"/{src,specs,proofs}/**)
  done
  # (of a folder it only complains)
  b2sum -- "${files[@]}" 2> /dev/null | b2sum
)

# What the stamp of a program holds that is proved: the sums of its source, which is given, and of the program.
stamp() { printf '%s\n%s\n' "$1" "$(b2sum < "$program")"; }

# Notes that the program was built from the source of this sum.
note_built() {
  mkdir -p "$made" && stamp "$1" > "$made/built.new" && mv "$made/built.new" "$made/built"
}

# Whether the program is there, and was built from the source as it is now.
is_built() {
  [ -x "$program" ] && [ -r "$made/built" ] && [ "$(< "$made/built")" = "$(stamp "$(source_sum)")" ]
}

# The minutes that tools/times has under a name.
usual_minutes() { awk -v name="$1" '$1 == name { print $2 }' "$top/tools/times"; }

# Seconds as minutes:seconds.
clock() { printf '%d:%02d' $(($1 / 60)) $(($1 % 60)); }
