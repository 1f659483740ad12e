# The claim in hand of a search with falling weights, for the line that is shown on a terminal while
# it runs. The launcher sources this file.

is_falling=1

# Puts a claim into `claim`, from its weight, cost and bound. The gap is how far the cost is above
# the bound, in percent of the bound, rounded up.
note_claim() {
  local -i gap=0
  [ "$4" -eq 0 ] || gap=$(((($3 - $4) * 1000 + $4 - 1) / $4))
  claim="; weight $1/$2, cost $3, bound $4, gap $((gap / 10)).$((gap % 10))%"
}

# ---- from the text that the program prints to the terminal

# Hands lines on as they come, with the shown line between them. It ends with the text, or if
# nobody is left to read it.
hand_claims_on() {
  local line weight='' cost=''
  while :; do
    while read -r -t 0; do
      IFS= read -r line || {
        printf %s "$line"
        return
      }
      printf '%s\n' "$line" 2>/dev/null || return
      note_line
    done
    until await_text "${pauses[@]}"; do show_run "$1"; done
    hide_run
  done
}
note_line() {
  case $line in
    'weight '*) weight=${line#weight } ;;
    'plan '*) cost=${line#plan } ;;
    'bound '*) note_claim ${weight% *} ${weight#* } ${cost% *} ${line#bound } ;;
  esac
}

# ---- from the certificates, if the text goes elsewhere

# What the certificates' names stand for before the run, and the number of the next claim's.
names=()
known=()
next=0
look_at_name() { stat -Lc '%i %y %s' -- "$1" 2>/dev/null; }
note_old_claims() {
  local name
  [ -n "${value_of[--cert]-}" ] || return 0
  list_names --cert
  for name in "${names[@]}"; do known+=("$(look_at_name "$name")"); done
}
note_old_claims

# Looks for certificates of this run, each of which is saved after the one before it.
find_saved_claim() {
  local name='' text
  while [ $next -lt ${#names[@]} ] && is_whole "${names[next]}" &&
    [ "$(look_at_name "${names[next]}")" != "${known[next]}" ]; do
    name=${names[next]}
    next=$((next + 1))
  done
  [ -n "$name" ] || return 0
  text=$(sed -n -e '/^weight /p' -e '/^cost /{p;q}' -e '/^rows /q' -- "$name" 2>/dev/null)
  note_text
}
# The weight and the cost of a certificate's first lines; the bound follows from them.
note_text() {
  local -i num den cost
  [[ $text =~ ^weight\ ([0-9]+)\ ([0-9]+)$'\n'cost\ ([0-9]+)$ ]] || return 0
  num=${BASH_REMATCH[1]} den=${BASH_REMATCH[2]} cost=${BASH_REMATCH[3]}
  note_claim $num $den $cost $((cost / num * den + (cost % num * den + num - 1) / num))
}
