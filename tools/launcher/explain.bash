# What a status means for the caller, on standard error. The launcher sources this file.

load words

# What `check` and `journal` load at most.
most_judged=$((1 << 30))

explain() {
  local status=$1 steps
  read_words "${@:4}"
  read_steps
  case $status in
    2) explain_stop "$2" "$3" && warn_of_size ;;
    3 | 65) explain_refusal "${@:4}" ;;
    64) explain_words "${@:4}" ;;
    71)
      if [ -n "$steps" ]; then say "out of memory; the claims that were printed stand"
      else say "out of memory; nothing was printed, and no file was begun"; fi
      ;;
    73) explain_file ;;
    74) say "standard output could not be written; a first part of the report stands there" ;;
  esac
}

# ---- a stop

with_commas() {
  local rest=$1
  counted=''
  while [ ${#rest} -gt 3 ]; do
    counted=,${rest: -3}$counted
    rest=${rest%???}
  done
  counted=$rest$counted
}

# Milliseconds and MiB. Of a run that was too short to be looked at no memory is known.
explain_stop() {
  local took again='run it again with a greater --budget: it starts anew'
  printf -v took '%d.%d s' $(($1 / 1000)) $(($1 % 1000 / 100))
  if [ "$2" -ge 1024 ]; then took+=" and $(($2 / 1024)).$(($2 % 1024 * 10 / 1024)) GiB of memory"
  elif [ "$2" -gt 0 ]; then took+=" and $2 MiB of memory"; fi
  if [[ $command_word = check || $command_word = journal ]]; then
    say "grounding took $took and stopped; nothing was judged ($hard_to_ground)"
    return
  fi
  # (2^30 looks take more than a second, and the program's report isn't seen here)
  if [ "$command_word $kind" = 'solve strips' ] && [ "$1" -ge 1000 ]; then
    say "it took $took. $(what_is_known). If the line above is \`stopped budget\`, $again." \
      "If it is \`stopped grounding\`, see $hard_to_ground"
    return
  fi
  [ "$command_word" = make ] && again='' || again="; $again"
  say "$(count_budget) took $took. $(what_is_known)$again"
}
hard_to_ground="docs/PDDL.md, Where grounding stops"
count_budget() {
  local budget=${value_of[--budget]:-${default_of[--budget]//,/}} counted
  budget=${budget#+}
  with_commas $((10#$budget))
  [ "$counted" = 1 ] && echo '1 expansion' || echo "$counted expansions"
}
what_is_known() {
  if [ -n "$steps" ]; then echo 'The claims that were printed stand, and nothing else is known'
  else echo 'Nothing is known of plans'; fi
}

# Says if a saved file is too long to be judged.
warn_of_size() {
  local option name size
  local -a names
  for option in ${saving[@]+"${saving[@]}"}; do
    list_names "$option"
    for name in "${names[@]}"; do
      [ -f "$name" ] && size=$(stat -Lc %s -- "$name" 2>/dev/null) || continue
      [ "$size" -le $most_judged ] || say "the ${saves[$option]} $(show "$name") has" \
        "$((size >> 20)) MiB, and one of more than 1,024 MiB can't be judged by pbnf"
    done
  done
}

# ---- a refusal of words

explain_words() {
  local text
  load help
  print_usage "${1-}" >&2
  # (the text is had by a second run, which tests the words first and looks at no file)
  text=$("$program" "$@" 2>/dev/null) && return
  case $text in
    'words files') for_each form explain_form "$command_word" ;;
    'words weight') say "N of --num (1 if it isn't given) is less than D of --den, and the weight" \
      "N/D is at least 1" ;;
    'words names')
      if [ "$command_word" = check ]; then say "--rewrite is given the name of an input"
      else say "--cert and --trace are given one name"; fi
      ;;
    'words engine') explain_engine ;;
    'words falling') say "no journal is kept with --falling, and --trace is given" ;;
    'words estimate') explain_estimate ;;
    'words size') say "the size isn't in the range of its kind" ;;
    *)
      text=${text#error: }
      text=${text%%$'\n'*}
      say "${text//[^[:print:]]/?}"
      ;;
  esac
}
explain_engine() {
  if [ -n "${value_of[--trace]+is}" ]; then
    say "--engine hda keeps no journal, and --trace is given"
  else say "--engine hda has no falling weights, and --falling is given"; fi
}
explain_estimate() {
  if [ -n "${value_of[--estimate]+is}" ] && [ -n "${value_of[--tables]+is}" ]; then
    say "--estimate tables looks for tables, and --tables names a file of tables: give one of them"
  else
    local option=--tables
    [ -z "${value_of[--estimate]+is}" ] || option=--estimate
    say "no pattern database is used with $option, and --pattern is over 0"
  fi
}
explain_form() {
  case "$1 $kind" in
    "$2 ${3%% *}") say "$1 $kind takes ${3#* }; so many files were named:" \
      $((${#inputs[@]} + (${#judged} > 0))) ;;
  esac
}

# ---- a refusal of a text

# The refusal is had by a second run: it comes before any search, and nothing is saved. A pipe can't
# be read twice.
explain_refusal() {
  local name refusal flag
  local -a options=() read_files
  list_read
  for name in ${read_files[@]+"${read_files[@]}"}; do [ -f "$name" ] || return; done
  refusal=$(${with_launcher[@]+"${with_launcher[@]}"} "$program" "$@" 2>/dev/null) && return
  for flag in --swamp --reachable; do [ -z "${value_of[$flag]-}" ] || options+=("$flag"); done
  [ -z "$judged" ] || options+=(--judged "$judged")
  [ "$kind" = strips ] && [ -n "$tables" ] && options+=(--tables "$tables")
  python3 "$root/tools/launcher/explain-refusal" ${options[@]+"${options[@]}"} \
    "${refusal%%$'\n'*}" "$kind" "${value_of[--row]:-0}" "${inputs[@]}" >&2 2>/dev/null
}

# ---- a file that failed

# Each of these puts into `fault` what is wrong with a name, if that is seen.
look_at_input() {
  fault=
  if [ ! -e "$1" ]; then fault="isn't there"
  elif [ -d "$1" ]; then fault='is a folder'
  elif [ ! -r "$1" ]; then fault="can't be read"; fi
  [ "$1" != - ] || fault+='; standard input is /dev/stdin'
}
look_at_saved() {
  local folder=. left=''
  fault=
  case $1 in */*) folder=${1%/*}/ ;; esac
  if [ ! -d "$folder" ]; then fault="its folder isn't there"
  elif [ -d "$1" ]; then fault='is a folder'
  elif [ -e "$1" ] && [ ! -w "$1" ]; then fault="can't be written"
  elif [ ! -e "$1" ] && [ ! -w "$folder" ]; then fault="its folder can't be written"
  elif [ "$1" -ef /dev/full ]; then fault='no space left'
  elif [ ! -e "$1" ] || [ -f "$1" ]; then
    left=$(df -Pk -- "$folder" 2>/dev/null) && left=${left##*$'\n'}
    [[ $left =~ ^.*\ ([0-9]+)\ +[0-9]+% && ${BASH_REMATCH[1]} -lt 64 ]] && fault='no space left'
  fi
}

# The name under which an option's file was being saved, with what is wrong with it. Of several
# claims' certificates that is the first that isn't whole.
find_saved() {
  local -a names
  list_names "$1"
  for name in "${names[@]}"; do
    [ ${#names[@]} -gt 1 ] && is_whole "$name" || break
  done
  look_at_saved "$name"
}

# Names the files that failed, if that is seen: the inputs, and else those that are saved, since all
# inputs are loaded first. If nothing is seen, it names all that may have failed. An input that is
# there and can be read hasn't, if a file was to be saved.
explain_file() {
  local name option fault failed='' read='' saved='' is_pipe=''
  local -a read_files
  list_read
  for name in ${read_files[@]+"${read_files[@]}"}; do
    look_at_input "$name"
    [ -z "$fault" ] || failed+=", $(show "$name") ($fault)"
    [ -f "$name" ] || is_pipe=1
    read+=", $(show "$name")"
  done
  [ -n "$failed" ] || for option in ${saving[@]+"${saving[@]}"}; do
    find_saved "$option"
    [ -z "$fault" ] || failed+=", the ${saves[$option]} $(show "$name") ($fault)"
    saved+=", the ${saves[$option]} $(show "$name")"
  done
  if [ -z "$failed" ] && [ -n "$saved" ] && [ -z "$is_pipe" ]; then failed=$saved; fi
  [ -n "$failed" ] || failed=$read$saved
  say "a file could not be read or written: ${failed#, }"
}
