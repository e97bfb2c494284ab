# How the program is made ready: proved and built with the kit's `rt` where it is missing or older than its sources.

# The logic of the kit for which these proofs were written, as `rt version` names it.
logic=dac8208d650f15bf

# The crates that the program is made of, lowest first: crates.txt has them in that order.
needed_crates() {
  awk -F: -v program="$program_crate" '{ sub(/#.*/, "") } NF > 1 { name[++n] = $1; rest[n] = $2 }
    END {
      need[program] = 1
      for (i = n; i > 0; i--) if (need[name[i]]) { k = split(rest[i], low, " "); while (k) need[low[k--]] = 1 }
      for (i = 1; i <= n; i++) if (need[name[i]]) print name[i]
    }' "$top/crates.txt"
}

# Whether a source of these crates is newer than a file. Tests are no part of what is built.
is_older() {
  local file=$1 crate places=("$top/crates.txt")
  shift
  [ -e "$file" ] || return 0
  for crate in "$@"; do places+=("$top/crates/$crate"/{src,specs,proofs}); done
  [ -n "$(find "${places[@]}" -type f ! -name '*tests.rt' ! -path '*tests/*' -newer "$file" -print -quit 2>/dev/null)" ]
}

# Makes the program ready: it is built where that is needed.
make_ready() {
  local crates
  crates=$(needed_crates)
  # shellcheck disable=SC2086
  { [ -x "$program" ] && ! is_older "$program" $crates; } || build
}

# The commit of the checkout, and -dirty where a source of the program is changed.
commit() {
  local commit crate places=(crates.txt)
  commit=$(git -C "$top" rev-parse HEAD 2>/dev/null) || { echo unknown; return; }
  for crate in $crates; do places+=("crates/$crate"); done
  [ -z "$(git -C "$top" status --porcelain -- "${places[@]}" 2>/dev/null)" ] || commit+=-dirty
  echo "$commit"
}

# Reads lib/shares into `share`, what each crate takes of the time in tenths of a minute, and `has`, its functions;
# counts the functions of all crates, and the time of those that have to be proved.
read_shares() {
  local crate part functions stale=''
  while read -r crate part functions _; do
    share[$crate]=$part has[$crate]=$functions
  done < <(grep -v '^#' "$top/lib/shares")
  for crate in $crates; do
    all_functions=$((all_functions + ${has[$crate]-0}))
    if [ "$crate" = "$program_crate" ] || is_older "$top/crates/$crate/out/rlib/stamp" "$crate"; then stale=yes; fi
    [ -n "$stale" ] || share[$crate]=0
    left=$((left + ${share[$crate]-0}))
  done
}

# Shows how far the build is: the crates, functions, the time so far, and the time expected. What was proved in this run
# says how fast it goes; before that a tenth of a minute is one. On a terminal it stays in one line.
show_progress() {
  local pace=600 ahead from='' to='\n'
  [ ! -t 2 ] || from='\r\033[K' to=''
  [ "$done_share" -lt 5 ] || pace=$(((last_done - began_building) * 100 / done_share))
  ahead=$((left * pace / 100 - (SECONDS - last_done)))
  [ "$ahead" -gt 0 ] || ahead=1
  printf "$from%s: crate %s of %s, %s; %s of %s functions; %s so far, about %s min to go$to" "$name" "$place" "$all" \
    "$proving" "$done_functions" "$all_functions" "$(((SECONDS - began_building) / 60)) min $(((SECONDS - began_building) % 60)) s" \
    $(((ahead + 59) / 60)) >&2
}

# Counts a crate that was proved as done. The table may be older than the crate.
count_done() {
  local functions
  functions=$(sed -n 's/^logic=proved functions=\([0-9]*\).*/\1/p' "$log/$crate" | tail -n 1)
  functions=${functions:-${has[$crate]-0}} last_done=$SECONDS
  all_functions=$((all_functions + functions - ${has[$crate]-0})) done_functions=$((done_functions + functions))
  left=$((left - ${share[$crate]-0})) done_share=$((done_share + ${share[$crate]-0}))
}

# Whether there is a kit; says so where its logic is another one.
has_kit() {
  local kit
  command -v rt >/dev/null 2>&1 ||
    { say 'the command rt of the Rattle kit is not in the PATH; README.md says more'; return 1; }
  kit=$(rt version 2>/dev/null)
  [[ "$kit " == *" logic $logic "* ]] ||
    say "this kit is '$kit', and the proofs are written for logic $logic, so with it they may fail or mean something else"
}

# Says where rt waits for another one that works on a crate, once for each, given its log and the crate.
say_wait() {
  [[ " $waited " != *" $2 "* ]] && grep -q '^rt: waiting for another rt' "$1" 2>/dev/null || return 0
  waited+=" $2"
  [ ! -t 2 ] || printf '\r\033[K' >&2
  say "another process is at $2 in this checkout; this one waits until that is done"
}

# Proves and builds the program, and only the crates that it needs.
build() {
  local crate place=0 all log began_building=$SECONDS commit waited=''
  local left=0 all_functions=0 done_functions=0 done_share=0 last_done=$SECONDS proving=''
  local -A share=() has=()
  has_kit || return 1
  log=$(mktemp -d) || return 1
  touch "$log/began"
  commit=$(commit)
  all=$(wc -w <<<"$crates")
  read_shares
  say 'proving and building the program: from nothing 20 minutes to an hour (docs/STATUS.md); later it is only run'
  build_in_lanes || {
    [ ! -t 2 ] || echo >&2
    tail -n 20 "$log/$crate" >&2
    say "$crate was not proved and built, so nothing was run; the whole output is in $log/$crate"
    return 1
  }
  [ ! -t 2 ] || echo >&2
  [ "$commit" = "$(commit)" ] || commit=${commit%-dirty}-dirty
  printf 'program %s\ncommit %s\nkit %s\n' "$(sum_of_program)" "$commit" "$(rt version 2>/dev/null)" >"$program.built"
  touch -r "$log/began" "$program"
  rm -rf "$log"
}

sum_of_program() { sha256sum <"$program" | cut -d' ' -f1; }
