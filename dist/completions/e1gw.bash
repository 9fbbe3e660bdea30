# bash completion for e1gw: subcommands, options and their values, and a file for the options that name one.

# The values of an option, or nothing where it takes a number of its own.
_e1gw_values() {
  case $1 in
    --law) echo 'a mu' ;;
    --codec) echo 'g711 g726-16 g726-24 g726-32 g726-40' ;;
    --ptime) echo '10 20 30' ;;
    --senders) echo 'any first host peer' ;;
    --fill) echo 'again ones' ;;
    --clock) echo 'packets own' ;;
  esac
}

# The options of a subcommand, or those without one.
_e1gw_options() {
  case $1 in
    align) echo '--totals --help' ;;
    crc4) echo '--check --live --reports --totals --help' ;;
    encode | decode) echo '--law --codec --payload --ptime --ssrc --sequence --timestamp --totals --help' ;;
    replay) echo '--config --load --save --seizure-wait --tell --totals --help' ;;
    check) echo '--config --load --seizure-wait --totals --help' ;;
    serve) echo '--config --load --save --repeat --seizure-wait --senders --totals --help' ;;
    trunk)
      echo '--config --load --save --align --control --crc4 --end --live --log --repeat' \
        '--seizure-wait --senders --slots --sockets --tell --totals --help' ;;
    satop) echo '--from --size --jitter --rtp --sequence --fill --clock --help' ;;
    '') echo '--help --version' ;;
  esac
}

_e1gw() {
  local subcommands='encode decode align crc4 replay check serve trunk satop help'
  local cur=${COMP_WORDS[COMP_CWORD]} prev=${COMP_WORDS[COMP_CWORD - 1]} subcommand=''
  [ "$COMP_CWORD" -lt 2 ] || subcommand=${COMP_WORDS[1]}
  # readline makes a word of the sign in --law=mu
  if [ "$cur" = = ]; then
    cur=''
  elif [ "$prev" = = ]; then
    prev=${COMP_WORDS[COMP_CWORD - 2]}
  fi
  COMPREPLY=()
  case $prev in
    --law | --codec | --ptime | --senders | --fill | --clock)
      mapfile -t COMPREPLY < <(compgen -W "$(_e1gw_values "$prev")" -- "$cur")
      return ;;
    --from | --payload | --ssrc | --sequence | --timestamp | --repeat | --seizure-wait | --size | --jitter | --rtp | \
      --end | --sockets)
      return ;;
    --config | --load | --save | --control | --log | --reports | --tell)
      compopt -o filenames 2> /dev/null
      mapfile -t COMPREPLY < <(compgen -f -- "$cur")
      return ;;
  esac
  case $subcommand:$cur in
    help:*) [ "$COMP_CWORD" -ne 2 ] || mapfile -t COMPREPLY < <(compgen -W "${subcommands% help}" -- "$cur") ;;
    :[!-]* | :) mapfile -t COMPREPLY < <(compgen -W "$subcommands" -- "$cur") ;;
    *) mapfile -t COMPREPLY < <(compgen -W "$(_e1gw_options "$subcommand")" -- "$cur") ;;
  esac
}

complete -F _e1gw e1gw
