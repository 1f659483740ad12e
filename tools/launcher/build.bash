# Proves and builds the program, with a first look meanwhile. The launcher sources this file.

load words
log=$root/build.log

# How long the building takes; the README has the same words.
usual_time='25 to 45 minutes on 4 cores'

# The crates of the program, those below it first. Each has a line NAME: DEP DEP .. in crates.txt,
# maybe with words before the colon.
declare -gA below=() all_below=()
crates=()
add_crate() {
  local dep it all=' '
  [ -z "${all_below[$1]-}" ] && [ -n "${below[$1]+is}" ] || return 0
  for dep in ${below[$1]}; do
    [ -n "${below[$dep]+is}" ] || continue
    add_crate "$dep"
    for it in $dep ${all_below[$dep]}; do
      case $all in *" $it "*) ;; *) all+="$it " ;; esac
    done
  done
  all_below[$1]=$all
  crates+=("$1")
}
list_crates() {
  local line name
  while IFS= read -r line; do
    case $line in '' | '#'*) continue ;; esac
    name=${line%%:*}
    below[${name%% *}]=${line#*:}
  done <"$root/crates.txt"
  add_crate pbnf
}

# Whether the library of a crate is there and newer than the crate's own files. Its time is that
# of its being put there, since rt may copy one that was built elsewhere.
has_library() {
  local stamp=$root/crates/$1/out/rlib/stamp
  [ -e "$stamp" ] || return 1
  [ -z "$(find "$root/crates/$1" -name out -prune \
    -o \( -name '*.rt' -o -name '*.antt' \) -newermc "$stamp" -print -quit)" ]
}

# The crates that are to be built: the program, those without a library, and those above them.
to_do=()
note_to_do() {
  local name dep is_old
  local -A old=()
  for name in "${crates[@]}"; do
    is_old=
    for dep in ${below[$name]}; do [ -n "${old[$dep]-}" ] && is_old=1; done
    if [ -n "$is_old" ] || [ "$name" = pbnf ] || ! has_library "$name"; then
      old[$name]=1
      to_do+=("$name")
    fi
  done
}

# Whether each of the crates that are left is below the next one, so that no two can be proved side
# by side.
is_chain() {
  local name last=''
  for name in "${to_do[@]}"; do
    [ -z "$last" ] || [ "${all_below[$name]/ $last /}" != "${all_below[$name]}" ] || return 1
    last=$name
  done
}

# One line that is rewritten on a terminal, and one a crate elsewhere.
show_progress() {
  local minutes=$(((SECONDS - begun) / 60)) what=$doing
  # (all sources are read before the first crate is proved, which takes some minutes)
  [ $done_count -eq $done_before ] && [ -n "$is_building" ] && what="reading the sources, $doing"
  if [ -t 2 ]; then
    printf '\r\033[Kpbnf: %s: %d of %d crates, %d min' \
      "$what" "$done_count" "${#crates[@]}" "$minutes" >&2
  elif [ -n "${1-}" ]; then
    say "$1 is proved and built ($done_count of ${#crates[@]} crates, $minutes min)"
  fi
}

# Takes the crates from `to_do` whose library was put there since the beginning.
look_for_done() {
  local name found rest=()
  found=$(CDPATH='' cd -- "$root/crates" && find "${to_do[@]/%//out/rlib/stamp}" \
    -cnewer "$marker" 2>/dev/null)
  for name in "${to_do[@]}"; do
    if [ "$name" != pbnf ] && [[ $'\n'$found$'\n' = *$'\n'"$name/out/rlib/stamp"$'\n'* ]]; then
      done_count=$((done_count + 1))
      show_progress "$name"
    else
      rest+=("$name")
    fi
  done
  to_do=(${rest[@]+"${rest[@]}"})
}

# ---- groups of processes

# Begins a command in a group of processes of its own, with its number in `group`. The group ends
# when `end_group` is called, and also when the launcher ends, however it does: then the pipe that
# the launcher alone can write has its end.
begin_group() {
  set -m
  (
    set +m
    trap - INT TERM HUP PIPE
    if [ -n "$life_in" ]; then
      exec {life_out}>&-
      { read -r <&"$life_in" || kill -TERM 0; } >/dev/null 2>&1 &
      exec {life_in}<&-
    fi
    "$@"
  ) </dev/null 8>&- &
  group=$!
  set +m
}
end_group() {
  [ -n "$1" ] || return 0
  kill -TERM -- "-$1" 2>/dev/null
  wait "$1" 2>/dev/null || :
}

# The launcher alone has the end of this pipe that can be written.
life_in='' life_out=''
begin_life() { [ ! -e /proc/self/fd ] || make_pipe life_in life_out; }
end_life() { [ -z "$life_in" ] || exec {life_in}<&- {life_out}>&-; }

stop_building() {
  # (a group that was begun this moment has no name yet)
  end_group "${builder:-${!-}}"
  drop_look
  rm -f "$marker"
  clear_line
  if [ -n "$is_building" ]; then say "the building was stopped; what was proved is kept"
  elif [ -n "${doing-}" ]; then say "the waiting was stopped; the other run goes on"; fi
  end_by "$1"
}

# ---- the first look

# How many processors there are, and how many GB of memory can be taken, if that is known. A crate
# a processor is proved at a time, if each gets 3 GB.
count_room() {
  local word rest
  memory=''
  while read -r word rest; do
    [ "$word" = MemAvailable: ] && memory=$((${rest% kB} / 1000000))
  done 2>/dev/null </proc/meminfo
  jobs=$(nproc 2>/dev/null || getconf _NPROCESSORS_ONLN 2>/dev/null || echo 1)
  [ -n "$memory" ] && [ $((memory / 3)) -lt "$jobs" ] && jobs=$((memory / 3))
  [ "$jobs" -ge 1 ] || jobs=1
}

# Begins a first look at the answer to the words, by the program as it is before any proof. It is
# left out if little is to be built, and where memory is short: so many GB must be there. It takes
# up to 4, and a job up to 1.5. The caller may say `no` or `yes` to it in PBNF_FIRST_LOOK. Of those
# that wait for another run's building, one looks at a time.
look='' look_text=''
begin_look() {
  local group
  case ${PBNF_FIRST_LOOK-} in
    no) return 0 ;;
    yes) ;;
    *) [ ${#to_do[@]} -ge 10 ] && [ "${memory:-99}" -ge "$1" ] || return 0 ;;
  esac
  command -v python3 >/dev/null || return 0
  look_text=$(mktemp) || return 0
  begin_group take_look "${@:2}"
  look=$group
  had_look=1
}
take_look() {
  if [ -z "$is_building" ] && command -v flock >/dev/null; then
    exec 7<"$root/tools/first-look"
    flock 7
  fi
  exec nice -n 2 python3 "$root/tools/first-look" "$@" >"$look_text" 2>/dev/null
}

# Shows the first look, once it is there.
show_look() {
  [ -n "$look" ] && ! kill -0 "$look" 2>/dev/null || return 0
  clear_line
  cat "$look_text" >&2
  drop_look
}
drop_look() {
  end_group "$look"
  [ -z "$look_text" ] || rm -f "$look_text"
  look='' look_text=''
}

# ---- the building

# Takes the log for this run. Another run that has it is building, and is waited for. Meanwhile it
# can be seen how far that is, and there is a first look.
take_log() {
  { exec 8>>"$log"; } 2>/dev/null || { say "the log $(show "$log") can't be written"; return 1; }
  command -v flock >/dev/null || return 0
  flock -n 8 && return
  doing='another run is proving and building'
  say "another run is building the program: waiting for it"
  begin_look 6 "$@"
  until flock -w 1 8; do
    look_for_done
    show_look
    show_progress
  done
  clear_line
}

# The crates of the program are proved side by side while two of them can be. Then the run of an
# example makes rt build the program: before that rt proves the crates that are left in turn, and
# gives a large one several processes.
prove_side_by_side() {
  CDPATH='' cd -- "$root/crates/pbnf" && exec rt all check --jobs "$jobs"
}
prove_in_turn() {
  CDPATH='' cd -- "$root/crates/pbnf" &&
    exec rt run -- solve grid ../../examples/empty-3x3.map ../../examples/empty-3x3.scen
}

# Only the group writes to the log: the launcher's own words reach the user at every moment.
run_logged() {
  exec >>"$log" 2>&1
  "$@"
}

# Runs one of these two until it ends, or until the crates that are left form a chain.
run_builder() {
  local group status
  begin_group run_logged "$@"
  builder=$group
  while kill -0 "$builder" 2>/dev/null; do
    [ "$1" = prove_in_turn ] || ! is_chain || break
    sleep 1 8>&-
    look_for_done
    show_look
    show_progress
  done
  kill -0 "$builder" 2>/dev/null && { end_group "$builder"; return 0; }
  wait "$builder"
  status=$?
  end_group "$builder"
  return $status
}

# Says what is to be done. The line that is rewritten on a terminal is kept short, so that it fits.
say_what_is_built() {
  [ $done_count -gt 0 ] || say "the program is proved and built first: $usual_time"
  say "$done_count of ${#crates[@]} crates are proved and built (log: $(show "$log"))"
}

# A file that can't be read is named before the building, and not only after it.
warn_of_inputs() {
  local name
  local -a read_files
  list_read
  for name in ${read_files[@]+"${read_files[@]}"}; do
    [ -r "$name" ] && [ ! -d "$name" ] || say "note: $(show "$name") can't be read now"
  done
}

# Keeps the sums of the sources and of the program, if no source was changed meanwhile. The program
# gets the time of the beginning, so that a later change is seen.
keep_sums() {
  rm -f "$sums"
  touch -r "$marker" "$program"
  [ -z "$(find_sources "${is_source[@]}" -cnewer "$marker" -print -quit)" ] || return 0
  { sum_sources && sha256sum <"$program"; } 2>/dev/null >"$sums"
}

# Proves and builds what is to be done, with the words for a first look.
build_all() {
  to_do=()
  note_to_do
  done_count=$((${#crates[@]} - ${#to_do[@]}))
  done_before=$done_count
  doing='proving and building'
  : >"$log"
  touch "$marker"
  say_what_is_built
  is_building=1
  [ -n "$had_look" ] || begin_look $((3 * jobs / 2 + 4)) "$@"
  show_progress
  if is_chain || run_builder prove_side_by_side; then
    [ -t 2 ] || say "the ${#to_do[@]} crates that are left are proved one after another"
    run_builder prove_in_turn && [ -x "$program" ] && keep_sums && return
  fi
  clear_line
  say "the program couldn't be built; the last lines of the log $(show "$log") are:"
  tail -n 4 "$log" >&2
  return 1
}

build() {
  local status is_building='' builder='' had_look='' doing jobs memory marker begun=$SECONDS
  local done_count done_before
  if ! command -v rt >/dev/null; then
    say "the program isn't built, or a source has changed, and the toolchain's rt isn't found"
    return 1
  fi
  marker=$(mktemp) || { say "no file can be made in ${TMPDIR:-/tmp}"; return 1; }
  read_words "$@"
  warn_of_inputs
  list_crates
  note_to_do
  done_count=$((${#crates[@]} - ${#to_do[@]}))
  done_before=$done_count
  count_room
  begin_life
  trap 'stop_building INT' INT
  trap 'stop_building TERM' TERM
  trap 'stop_building HUP' HUP
  take_log "$@" && { is_built || build_all "$@"; }
  status=$?
  trap - INT TERM HUP
  drop_look
  end_life
  rm -f "$marker"
  clear_line
  [ $status -eq 0 ] || return 1
  say "the program is proved and built (${#crates[@]} crates, $(((SECONDS - begun) / 60)) min)"
}
