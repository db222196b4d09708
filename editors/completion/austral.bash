# Completion of `austral` for bash: source this file, or put it into the folder of completions as `austral`.

# The commands, and the options of each. A command or an option that comes is added here and in the case below.
_austral_commands='caps check compile explain format run --help --version'
_austral_options() {
  case $1 in
    compile) echo '--entry=' ;;
    run) echo '--entry= --steps=' ;;
  esac
}

# Files behind the last comma of a part: those of the language and folders. Readline itself puts a slash behind a
# folder and quotes what is special, but not behind a comma.
_austral_files() {
  local word=$1 before= last file slash
  local -a found
  case $word in *,*) before=${word%,*}, ;; esac
  last=${word#"$before"}
  mapfile -t found < <(
    compgen -d -- "$last"
    compgen -f -X '!*.au[im]' -- "$last"
  )
  COMPREPLY=()
  for file in "${found[@]}"; do
    if [ -n "$before" ]; then
      slash=
      [ ! -d "$file" ] || slash=/
      printf -v file '%s%q%s' "$before" "$file" "$slash"
    fi
    COMPREPLY+=("$file")
  done
  [ -n "$before" ] || compopt -o filenames 2> /dev/null
  compopt -o nospace 2> /dev/null
}

_austral() {
  local word=${COMP_WORDS[COMP_CWORD]} before=${COMP_WORDS[COMP_CWORD - 1]}
  COMPREPLY=()
  if [ "$COMP_CWORD" -eq 1 ]; then
    mapfile -t COMPREPLY < <(compgen -W "$_austral_commands" -- "$word")
    return
  fi
  # The value of an option is for whoever writes it: `=` and `:` cut it into words.
  case $word in = | :) return ;; esac
  case $before in = | : | --entry | --steps) return ;; esac
  if [[ $word == -* && " ${COMP_WORDS[*]:1:COMP_CWORD-1} " != *' -- '* ]]; then
    mapfile -t COMPREPLY < <(compgen -W "$(_austral_options "${COMP_WORDS[1]}")" -- "$word")
    [[ ${COMPREPLY[0]-} != *= ]] || compopt -o nospace 2> /dev/null
    return
  fi
  _austral_files "$word"
}
complete -F _austral austral
