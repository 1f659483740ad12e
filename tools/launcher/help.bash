# The usage of the program, which refuses words for help like any others. It is printed from
# options.txt. The launcher sources this file.

# Calls a function with the parts of each line of options.txt that begins with a word.
for_each() {
  local word=$1 line part
  local -a parts
  while IFS= read -r line; do
    case $line in "$word "*) ;; *) continue ;; esac
    IFS='|' read -r -a parts <<<"${line#"$word "}"
    for part in "${!parts[@]}"; do trim "$part"; done
    "${@:2}" "${parts[@]}"
  done <"$root/tools/launcher/options.txt"
}
trim() {
  local text=${parts[$1]}
  text=${text#"${text%%[! ]*}"}
  parts[$1]=${text%"${text##*[! ]}"}
}

# Each of these takes a command, and then the parts of a line.
note_option_of() {
  case " $3 " in *" $1 "*) ;; *) return 0 ;; esac
  options+=" [$2]"
  count+=1
}
show_form() {
  [ "$1" = "$2" ] || return 0
  printf '%s pbnf %s %s%s\n' "$lead" "$1" "$3" "$options"
  lead='      '
}
show_purpose() { [ "$1" != "$2" ] || printf '\n%s.\n\n' "${3^}"; }
show_option() {
  case " $3 " in *" $1 "*) ;; *) return 0 ;; esac
  printf '  %-19s %s\n  %-19s   %s; without it: %s\n' "$2" "${4%%;*}" '' "$5" "$6"
}
show_word() {
  case $3 in *"$1 "*) printf '  %-19s %s\n  %-19s   %s\n' "$2" "${4%%;*}" '' "$5" ;; esac
}
show_example() { [ "$1" != "$2" ] || printf '  ./pbnf %s %s\n' "$1" "$3"; }
note_hint() { [ "$1" != "$2" ] || hints+=1; }
show_hint() { [ "$1" != "$2" ] || printf '  %s\n' "$3"; }
show_command() { printf '  %-9s %s\n' "$1" "$2"; }
note_command() { commands+=" $1 "; }

usage_of_command() {
  local lead=usage: options=''
  local -i count=0
  for_each option note_option_of "$1"
  [ $count -le 3 ] || options=' [OPTIONS]'
  for_each form show_form "$1"
  for_each command show_purpose "$1"
  for_each word show_word "$1"
  for_each option show_option "$1"
  printf '\nexamples, at the root of the repository:\n'
  for_each example show_example "$1"
  local -i hints=0
  for_each hint note_hint "$1"
  [ $hints -gt 0 ] || return 0
  printf '\nwhat saves time (docs/SEARCH.md has the figures):\n'
  for_each hint show_hint "$1"
}

usage_of_all() {
  printf 'usage: pbnf COMMAND KIND ..        (pbnf COMMAND --help has all of one)\n\n'
  for_each command show_command
  cat <<'TEXT'

KIND is grid (maps and scenarios of MovingAI, with moves to four sides), tiles, or
strips (PDDL).

The status says what came out: 0 a plan, or accepted; 1 no plan exists; 2 stopped at
the budget, or in grounding; 3 refused; 64 faulty words; 65 faulty input; 70 not
built; 71 out of memory; 73 a file failed; 74 the output failed.

README.md has an example a kind, and docs/FORMATS.md all formats.
TEXT
}

# The usage of a command, or of all if the word is none.
print_usage() {
  local commands=''
  for_each command note_command
  case $commands in *" ${1:-/} "*) usage_of_command "$1" ;; *) usage_of_all ;; esac
}

print_version() {
  local commit built='not built yet'
  [ -e "$root/.git" ] && commit=$(git -C "$root" rev-parse --short=12 HEAD 2>/dev/null) ||
    commit='of no known commit'
  if is_built; then built='built from these sources'
  elif [ -x "$program" ]; then built='built from other sources'; fi
  printf 'pbnf %s, %s\n' "$commit" "$built"
  rt version 2>/dev/null || echo "the toolchain's command rt isn't found"
}
