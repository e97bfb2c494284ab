# How a program of a checkout is started; bin/taxi and bin/hiring_log source it. It needs, set by them: `top`, the top of the
# checkout; `name`, what the program is called; `program_crate`, its crate; `sample`, the words of a run that needs no file;
# `page`, where it is described; `opens_store`, its commands that open a store. What is said of a call says the program.

program=$top/crates/$program_crate/out/$program_crate

say() { echo "$name: $1" >&2; }

. "$top/lib/build.sh" && . "$top/lib/lanes.sh" || exit 125

# Takes what stands before the command, makes the program ready, and becomes it.
start() {
  local now=''
  while [ $# -gt 0 ]; do
    case $1 in
      --now) now=yes; shift ;;
      -C) go_to "${2-}"; shift $(($# > 1 ? 2 : 1)) ;;
      *) break ;;
    esac
  done
  [ -z "$now" ] || answer_now "$@"
  [ -x "$program" ] || tell_unbuilt "${1-}"
  make_ready || exit 125
  exec "$program" "$@"
}

# Goes to a folder; `-` is a folder's name.
go_to() {
  local into=$1
  [ "$into" != - ] || into=./-
  if [ -z "$into" ] || ! CDPATH= cd -- "$into" 2>/dev/null; then
    say "the folder ${1@Q} cannot be entered"
    exit 125
  fi
}

# Where nothing is built, help is the page, up to what it says of statuses, and nothing is built for it.
tell_unbuilt() {
  case $1 in
    help | -h | --help) sed '/^## What a status means/,$d' "$top/$page" ;;
    version | --version) printf '%s %s\nprogram: none is built\n' "$name" "$(cat "$top/VERSION")" ;;
    *) return ;;
  esac
  exit
}

# Answers from the same code, built at once and not proved, and ends. The program runs in another folder, so files go by
# their whole names.
answer_now() {
  local word log status watcher words=()
  [[ -n ${1-} && " $opens_store " != *" $1 "* ]] || { say "--now is for the commands that open no store"; exit 1; }
  case $(readlink /proc/$$/fd/1) in
    */taxi.store | */taxi.store.new | */taxi.log | */taxi.log.new) say 'the output is a store or a log; print to another file'; exit 8 ;;
  esac
  has_kit || exit 125
  for word in "$@"; do
    [ ! -e "$word" ] || [ -f "$word" ] || { say "--now reads plain files alone, and ${word@Q} is none"; exit 125; }
    if [ ${#words[@]} -gt 0 ] && [ -f "$word" ] && [[ $word != /* ]]; then word=$PWD/$word; fi
    words+=("$word")
  done
  log=$(mktemp) || exit 125
  [ ! -t 2 ] || say 'building without a proof; this takes a minute or two'
  (waited=''; while sleep 1 && kill -0 $$ 2>/dev/null; do say_wait "$log" "$program_crate"; done) >/dev/null &
  watcher=$!
  (cd "$top/crates/$program_crate" && exec rt try -- "${words[@]}") </dev/null 2>"$log"
  { kill $watcher && wait $watcher; } 2>/dev/null
  status=$(sed -n 's/^run=ended status=\([0-9]*\) .*proved=no$/\1/p' "$log" | tail -n 1)
  if [ -z "$status" ]; then
    tail -n 20 "$log" >&2
    say "nothing was answered; the whole output is in $log"
    exit 125
  fi
  grep -vE '^(run=ended|checked:|rt:) ' "$log" >&2
  rm -f "$log"
  say 'nothing is proved of this answer: it is of the same code, built at once'
  exit "$status"
}
