# What the words of a command line name, by options.txt. The launcher sources this file.

# An option that names a file which is saved has a word for it in `saves`: certificate or journal.
# One that names a file which is read is in `reads`.
declare -gA has_no_value=() saves=() reads=() default_of=()
read_options() {
  local line name what range default
  while IFS='|' read -r name line what range default; do
    case $name in 'option '*) ;; *) continue ;; esac
    name=${name#option }
    line=${name#* }
    name=${name%% *}
    case $range in
      ' no value ') has_no_value[$name]=1 ;;
      ' a file that is saved ')
        line=${line% }
        saves[$name]=${line,,}
        ;;
      ' a file that is read ') reads[$name]=1 ;;
      *) default_of[$name]=${default# } ;;
    esac
  done <"$root/tools/launcher/options.txt"
}

# The command, the kind of task, the files of the task, a certificate or a journal that is judged
# apart from them, the file of tables, values of options, and the options that name files which are
# saved, in order.
command_word='' kind='' judged='' tables='' are_read=''
inputs=() saving=()
declare -gA value_of=()
read_words() {
  local word option='' is_rest=''
  local -i place=0
  [ -z "$are_read" ] || return 0
  are_read=1
  read_options
  command_word=${1-}
  for word in "${@:2}"; do
    if [ -n "$option" ]; then
      note_option "$option" "$word"
      option=
    elif [ -n "$is_rest" ] || [ "$word" = - ] || [ "${word#-}" = "$word" ]; then
      place+=1
      note_name $place "$word"
    elif [ "$word" = -- ]; then is_rest=1
    elif [ -n "${has_no_value[$word]-}" ]; then value_of[$word]=1
    elif [ "${word#*=}" != "$word" ]; then note_option "${word%%=*}" "${word#*=}"
    else option=$word; fi
  done
}
note_name() {
  if [ "$1" -eq 1 ]; then kind=$2
  elif [ "$1" -eq 2 ] && [[ $command_word = check || $command_word = journal ]]; then judged=$2
  elif [ "$command_word" != make ]; then inputs+=("$2"); fi
}
note_option() {
  value_of[$1]=$2
  [ -z "${saves[$1]-}" ] || saving+=("$1")
  [ -z "${reads[$1]-}" ] || tables=$2
}

# The files that a run reads, into `read_files`: a file of tables for STRIPS problems alone.
list_read() {
  read_files=(${judged:+"$judged"} ${inputs[@]+"${inputs[@]}"})
  [ "$kind" != strips ] || [ -z "${value_of[--tables]+is}" ] || read_files+=("$tables")
}

# In how many steps the weight falls, into `steps`: nothing if the option isn't given, or if its
# value is out of form, which the program refuses.
read_steps() {
  steps=${value_of[--falling]-}
  steps=${steps#+}
  case $steps in *[!0-9]*) steps= ;; esac
  [ -z "$steps" ] || steps=$((10#$steps))
  [ "${steps:-0}" -ge 1 ] && [ "$steps" -le 20 ] || steps=
}

# The names under which a run saves what an option asks for, into `names`: with falling weights a
# certificate for each claim, which ends with the claim's number.
list_names() {
  local steps
  local -i at
  names=("${value_of[$1]}")
  read_steps
  [ -n "$steps" ] && [ "${saves[$1]}" = certificate ] || return 0
  names=()
  for ((at = 0; at <= steps; at += 1)); do names+=("${value_of[$1]}.$at"); done
}

# Whether a certificate is there as a whole.
is_whole() { [ -f "$1" ] && [ "$(tail -c 4 -- "$1" 2>/dev/null)" = end ]; }

# Whether two names are of one regular file, under any spelling.
is_one_file() { [ -f "$1" ] && [ "$1" -ef "$2" ]; }

# The same of two files that are saved, of which neither may be there yet.
will_be_one_file() {
  local first second
  [ "$1" != "$2" ] || return 1 # (the program itself refuses one name for both)
  if [ -e "$1" ] || [ -e "$2" ]; then is_one_file "$1" "$2"; return; fi
  first=$(readlink -f -- "$1") && second=$(readlink -f -- "$2") && [ "$first" = "$second" ]
}

# What of the caller's a run would destroy: an input that is saved over, or a file that is saved
# twice. It is put into `harm`. (The program refuses a journal with falling weights.)
find_harm() {
  local option other name input steps
  local -a names
  harm=
  read_steps
  for option in ${saving[@]+"${saving[@]}"}; do
    list_names "$option"
    for name in "${names[@]}"; do
      for input in ${judged:+"$judged"} ${inputs[@]+"${inputs[@]}"} ${tables:+"$tables"}; do
        is_one_file "$name" "$input" || continue
        harm="the ${saves[$option]} $(show "$name") would be written over the input "
        harm+=$(show "$input")
        return
      done
    done
    [ -z "$steps" ] || continue
    for other in "${saving[@]}"; do
      [ "$other" != "$option" ] || break
      if will_be_one_file "$name" "${value_of[$other]}"; then
        harm="the ${saves[$option]} $(show "$name") and the ${saves[$other]} "
        harm+="$(show "${value_of[$other]}") are one file"
        return
      fi
    done
  done
}
