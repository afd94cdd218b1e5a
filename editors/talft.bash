# Completion for bash: commands, the options of each, the sites of a fault, and files.

_talft() {
  local word joined=no words=() command options option at
  # Bash splits words at colons.
  for word in "${COMP_WORDS[@]:0:COMP_CWORD+1}"; do
    if [[ ${#words[@]} -gt 0 && ($word == :* || $joined == yes) ]]; then
      words[-1]+=$word
    else
      words+=("$word")
    fi
    if [[ $word == *: ]]; then joined=yes; else joined=no; fi
  done
  COMPREPLY=()
  word=${words[-1]} command=${words[1]-}

  case ${#words[@]}:$command in
    [01]:*) return ;;
    2:*)
      COMPREPLY=($(compgen -W 'asm campaign check compile debug demo dis exec link mean recover run schedule survey trial upgrade' -- "$word"))
      return
      ;;
    3:compile | 3:exec | 3:mean) _talft_files src; return ;;
    3:asm) _talft_files asm; return ;;
    3:link) _talft_files map; return ;;
    3:*)
      [[ $command == demo ]] || _talft_files obj
      return
      ;;
  esac

  if ((${#words[@]} % 2 == 1)); then
    case ${words[-2]} in
      --faults) _talft_files faults ;;
      --wild)
        case $word in *,*) option=${word%,*}, ;; *) option= ;; esac
        COMPREPLY=($(compgen -P "$option" -W stop -- "${word##*,}"))
        ;;
      --fault) _talft_site ;;
    esac
    return
  fi

  case $command in
    recover | run | trial) options='--fault --steps --wild' ;;
    exec) options=--steps ;;
    campaign | survey) options='--faults --steps --wild' ;;
    mean) options=--turns ;;
    debug) options=--wild ;;
    *) options= ;;
  esac
  # Each option occurs at most once.
  for ((at = 3; at < ${#words[@]} - 1; at += 2)); do
    options=" $options "
    options=${options/" ${words[at]} "/ }
  done
  COMPREPLY=($(compgen -W "$options" -- "$word"))
}

# Files with the right ending, and folders; or all files if there are none.
_talft_files() {
  local file
  COMPREPLY=()
  while IFS= read -r file; do
    COMPREPLY+=("$file")
  done < <(compgen -d -- "$word"; compgen -f -X "!*.$1" -- "$word")
  if [[ ${#COMPREPLY[@]} -eq 0 ]]; then
    while IFS= read -r file; do
      COMPREPLY+=("$file")
    done < <(compgen -f -- "$word")
  fi
  compopt -o filenames 2>/dev/null
}

# The site in STEP:SITE:WORD, with the colon after it.
_talft_site() {
  local step=${word%%:*} site=${word#*:} number sites='d pcg pcb'
  [[ $word == *:* && $site != *:* ]] || return
  for ((number = 0; number < 64; number++)); do sites+=" r$number"; done
  for ((number = 0; number < 8; number++)); do sites+=" qa$number qv$number"; done
  # If bash splits at colons, it puts the answer after the last one.
  if [[ $COMP_WORDBREAKS == *:* ]]; then step=; else step+=:; fi
  COMPREPLY=($(compgen -P "$step" -S : -W "$sites" -- "$site"))
  compopt -o nospace 2>/dev/null
}

# The tools: their options, from --help, and files.
_talft_tool() {
  local word=${COMP_WORDS[COMP_CWORD]}
  COMPREPLY=()
  if [[ $word == -* ]]; then
    COMPREPLY=($(compgen -W "$("$1" --help 2>/dev/null </dev/null | grep -o -- '--[a-z][a-z-]*' | sort -u)" -- "$word"))
  else
    compopt -o default 2>/dev/null
  fi
}

complete -F _talft talft
complete -F _talft_tool talft-build talft-campaign talft-cc talft-dap talft-debugger talft-ending talft-explain talft-faults \
  talft-lines talft-plot talft-report talft-set talft-show talft-wasm2asm
