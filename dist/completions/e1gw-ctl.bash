# bash completion of the programs in Python, by argcomplete: each says itself what its words may be. e1gw-trunk, which
# begins without all that takes time, does not; its --help has its options.

if command -v register-python-argcomplete > /dev/null; then
  eval "$(register-python-argcomplete \
    e1gw-call e1gw-config e1gw-ctl e1gw-exchange e1gw-pcap e1gw-picture e1gw-records e1gw-tie e1gw-watch)"
else
  echo 'e1gw: the completion of its programs in Python needs the package python3-argcomplete' >&2
fi

_e1gw_trunk() {
  local word=${COMP_WORDS[COMP_CWORD]} i
  COMPREPLY=()
  for ((i = 1; i < COMP_CWORD; i++)); do
    [ "${COMP_WORDS[i]}" != -- ] || return 0
  done
  case ${COMP_WORDS[COMP_CWORD - 1]} in
    --senders) mapfile -t COMPREPLY < <(compgen -W 'any first host peer' -- "$word") ;;
    --config | --folder | --in | --out | --program | --state | --unix) ;;
    *)
      [[ $word != -* ]] ||
        mapfile -t COMPREPLY < <(compgen -W "$("$1" --help | grep -o -e '--[a-z][a-z0-9-]*') --" -- "$word")
      ;;
  esac
}

complete -o default -F _e1gw_trunk e1gw-trunk
