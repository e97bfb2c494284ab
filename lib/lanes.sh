# The program is built in up to three lanes: rt works on one crate of a checkout at a time, and locks those below it, so each
# further lane is a copy of the sources, and is given what the others have made. The first lane is the checkout.

# The GB of memory that are free.
free_memory() { awk '$1 == "MemAvailable:" { memory = int($2 / 1048576) } END { print memory + 0 }' /proc/meminfo; }

# How many lanes serve, by the time that is left, the processors, and the GB of memory and of disk that are free. The gate
# has proved the crates already.
count_lanes() {
  local memory disk processors
  processors=$(nproc)
  memory=$(free_memory)
  disk=$(df --output=avail -BG "$top" | tail -n 1 | tr -dc 0-9)
  if [ -n "${CI-}" ] || [ "$left" -lt 100 ] || [ "$processors" -lt 2 ] || [ "$memory" -lt 12 ] || [ "${disk:-0}" -lt 10 ]; then echo 1
  elif [ "$processors" -lt 4 ] || [ "$memory" -lt 16 ] || [ "$disk" -lt 15 ]; then echo 2
  else echo 3; fi
}

# Makes the lanes: `folder` has the folder of the crates of each. A further one has all sources, and what is built of them.
make_lanes() {
  local lane crate count
  folder=("$top/crates")
  count=$(count_lanes)
  while [ ${#folder[@]} -lt "$count" ]; do
    lane=$(mktemp -d "$top/.lane-XXXXXX") && folder+=("$lane/crates") &&
      mkdir "$lane/crates" "$lane/.git" && cp "$top/crates.txt" "$top/HANDLES" "$lane/" &&
      (cd "$top/crates" && tar -cf - --exclude=out -- *) | tar -xf - -C "$lane/crates" || return 1
  done
  for crate in $crates; do
    [ ! -e "$top/crates/$crate/out" ] || give "$crate" 0
  done
}

# Gives what a lane has made of a crate to the others. rt writes into no file that it has made, so a second name does. It
# locks the folder of a crate while it works there, or on one above it, so another one is waited for.
give() {
  local at from=${folder[$2]}/$1/out
  for at in "${!folder[@]}"; do
    [ "$at" -ne "$2" ] || continue
    (flock 9; rm -rf "${folder[at]:?}/$1/out"; cp -al "$from" "${folder[at]}/$1/out" 2>/dev/null || cp -a "$from" "${folder[at]}/$1/out") 9<"${folder[at]}/$1"
  done
}

# The crates, those first that have the longest way behind them, up to the program; in front of each stands that way, in
# tenths of a minute.
longest_first() {
  awk -F: -v needed=" $crates " '
    FNR == NR { if ($0 !~ /^#/) { split($0, part, " "); takes[part[1]] = part[2] } next }
    { sub(/#.*/, "") }
    NF > 1 { name[++n] = $1; below[n] = $2 }
    END {
      for (i = n; i > 0; i--) if (index(needed, " " name[i] " ")) {
        way[name[i]] += takes[name[i]]
        print way[name[i]], name[i]
        k = split(below[i], low, " ")
        for (; k; k--) if (way[low[k]] < way[name[i]]) way[low[k]] = way[name[i]]
      }
    }' "$top/lib/shares" "$top/crates.txt" | sort -rn
}

# The first crate that can be proved in a lane, if there is one: of the crates that the program needs those that it stands on
# are made, or named in the second word. The program itself is made in the checkout.
next_in() {
  local next below
  for next in $todo; do
    [ "$next" != "$program_crate" ] || [ "$1" -eq 0 ] || continue
    for below in $(sed -n "s/#.*//; s/^$next:\(.*\)/\1/p" "$top/crates.txt"); do
      [[ " $crates " != *" $below "* ]] || [[ $made${2-} == *" $below "* ]] || continue 2
    done
    echo "$next"
    return
  done
}

# Whether the crate that begins in a lane is to have a second job: if no other could go on beside it, even once the
# other lanes have ended; and if a processor has nothing to do beside it and one job in each other lane, and its way is
# not far off the longest that is left: at least four fifths of that.
wants_second_job() {
  local at other busy=2 longest=0
  [ ${#folder[@]} -gt 1 ] && [ -n "$(next_in 1 "$(printf '%s ' "${of[@]}")")" ] || return 0
  for at in "${!folder[@]}"; do [ "$at" -eq "$1" ] || busy=$((busy + ${jobs_in[at]:-1})); done
  [ "$busy" -le "$(nproc)" ] && [ "$(free_memory)" -ge 8 ] || return 1
  for other in $todo "${of[@]}"; do
    [ -z "$other" ] || [ "${way[$other]:-0}" -le "$longest" ] || longest=${way[$other]}
  done
  [ $((${way[$crate]:-0} * 5)) -ge $((longest * 4)) ]
}

# Begins with the next crate in a lane.
begin_in() {
  local next
  next=$(next_in "$1")
  [ -n "$next" ] || return 0
  crate=$next todo=${todo/ $next / } place=$((place + 1)) jobs=1
  ! wants_second_job "$1" || jobs=$most_jobs
  of[$1]=$next jobs_in[$1]=$jobs
  # The program itself is built by a run that needs no file.
  # shellcheck disable=SC2086
  if [ "$crate" = "$program_crate" ]; then set -- "$1" $sample; else set -- "$1"; fi
  (cd "${folder[$1]}/$crate" && exec "$top/lib/prove" $jobs "${@:2}") </dev/null >"$log/$crate" 2>&1 &
  pid[$1]=$!
  note_lanes
  show_progress
}

# Takes note of what the lanes prove.
note_lanes() {
  local at
  proving=''
  for at in "${!folder[@]}"; do [ -z "${of[at]-}" ] || proving+=${proving:+ and }${of[at]}; done
}

# Ends with the crate of a lane whose process has ended.
end_in() {
  crate=${of[$1]} of[$1]='' jobs_in[$1]=''
  wait "${pid[$1]}" || return 1
  made+="$crate "
  count_done
  give "$crate" "$1"
  note_lanes
}

# Leaves nothing of the lanes behind.
end_lanes() {
  local at
  for at in "${!folder[@]}"; do
    [ -z "${of[at]-}" ] || kill "${pid[at]}" 2>/dev/null
    [ "$at" -eq 0 ] || rm -rf "${folder[at]%/crates}"
  done
}

# Proves and builds the crates in all lanes.
build_in_lanes() {
  local todo=' ' made=' ' second=0 at status=0 jobs most_jobs=2 of=() pid=() folder=() jobs_in=() length
  local -A way=()
  crates=${crates//$'\n'/ }
  while read -r length at; do way[$at]=$length todo+="$at "; done < <(longest_first)
  trap 'end_lanes; exit 130' INT TERM
  make_lanes || status=1
  if [ "$(nproc)" -lt 2 ] || [ "$(free_memory)" -lt 10 ]; then most_jobs=1; fi
  while [ $status -eq 0 ] && [ -n "${todo// /}$(printf %s "${of[@]}")" ]; do
    for at in "${!folder[@]}"; do [ -n "${of[at]-}" ] || begin_in "$at"; done
    sleep 1
    second=$((second + 1))
    [ ! -t 2 ] && [ $((second % 60)) -ne 0 ] || show_progress
    for at in "${!folder[@]}"; do
      [ -n "${of[at]-}" ] || continue
      say_wait "$log/${of[at]}" "${of[at]}"
      kill -0 "${pid[at]}" 2>/dev/null || end_in "$at" || { status=1; break; }
    done
  done
  end_lanes
  trap - INT TERM
  return $status
}
