# Completes the arguments of rst2pseudoxml and of rst-tree in bash: their options, the values of these, and the file that is read.

_rst2pseudoxml() { # COMMAND
  local word=${COMP_WORDS[COMP_CWORD]} option='' before=''
  COMPREPLY=()
  # bash cuts --halt=w into three words, unless = is missing in COMP_WORDBREAKS.
  if [[ $word == = ]]; then
    option=${COMP_WORDS[COMP_CWORD - 1]}
    word=
  elif [[ ${COMP_WORDS[COMP_CWORD - 1]} == = ]]; then
    option=${COMP_WORDS[COMP_CWORD - 2]}
  elif [[ $word == -*=* ]]; then
    option=${word%%=*}
    before=$option=
    word=${word#*=}
  else
    option=${COMP_WORDS[COMP_CWORD - 1]}
  fi

  case $option in
  -r | --report | --halt | --exit-status)
    mapfile -t COMPREPLY < <(compgen -P "$before" -W 'info warning error severe none 1 2 3 4 5' -- "$word")
    return
    ;;
  --profile | --format)
    local names='docutils base'
    [[ $option == --profile ]] || names='pseudoxml json'
    mapfile -t COMPREPLY < <(compgen -P "$before" -W "$names" -- "$word")
    return
    ;;
  --tab-width | --line-length-limit) return ;; # any number
  esac
  if [[ $word == -* && " ${COMP_WORDS[*]:0:COMP_CWORD} " != *' -- '* ]]; then
    _rst2pseudoxml_options "$word" "${1-}"
  else
    _rst2pseudoxml_files "$word"
  fi
}

# The options of COMMAND that begin with WORD and aren't given yet.
_rst2pseudoxml_options() { # WORD COMMAND
  local option
  local -a options=(-r -v -q --report= --verbose --quiet --halt= --strict --exit-status= --no-doc-title --no-doc-info
    --tab-width= --line-length-limit=)
  [[ ${2##*/} != rst-tree ]] || options+=(--profile= --format= -h --help -V --version)
  for option in "${options[@]}"; do
    if [[ $option == "$1"* && " ${COMP_WORDS[*]:1:COMP_CWORD-1} " != *" ${option%=} "* ]]; then
      COMPREPLY+=("$option")
    fi
  done
  if [[ ${#COMPREPLY[@]} == 1 && ${COMPREPLY[0]} == *= ]]; then
    compopt -o nospace 2>/dev/null
  fi
}

# Documents and folders that begin with WORD or, where there are none, all files.
_rst2pseudoxml_files() { # WORD
  compopt -o filenames 2>/dev/null
  mapfile -t COMPREPLY < <(compgen -f -X '!*.rst' -- "$1"; compgen -f -X '!*.txt' -- "$1"; compgen -d -- "$1")
  if [[ ${#COMPREPLY[@]} == 0 ]]; then
    mapfile -t COMPREPLY < <(compgen -f -- "$1")
  fi
}

complete -F _rst2pseudoxml rst2pseudoxml
complete -F _rst2pseudoxml rst-tree
