# Completions of arbiter for bash, written by tools/manual from its help texts.
_arbiter() {
  local word=${COMP_WORDS[COMP_CWORD]} before=$((COMP_CWORD - 1)) files='' words=''
  # the = of `--config=FILE` and the < of `<FILE` are words of their own
  case $word in = | *[\<\>]) word='' before=$COMP_CWORD ;; esac
  [ "${COMP_WORDS[before]}" != = ] || before=$((before - 1))
  COMPREPLY=()
  case ${COMP_WORDS[before]} in
    --config | *[\<\>]) files=yes ;;
    --cores | --from | --to) ;;
    *)
      case $before:${COMP_WORDS[1]} in
        0:*) words='due check run play live draw help --help --version' ;;
        *:help) words='due check run play live draw' ;;
        *:due) words='--cores --help' ;;
        *:check) files=yes words='--help' ;;
        *:run) words='--config --help' ;;
        *:play) words='--config --ordered --help' ;;
        *:live) words='--config --endless --help' ;;
        *:draw) words='--config --from --to --by-time --help' ;;
      esac
      ;;
  esac
  if [ -n "$files" ]; then
    mapfile -t COMPREPLY < <(compgen -f -- "$word")
    # a folder gets a slash, and a name with spaces its quotes; bash takes this while it completes, and at no other time
    compopt -o filenames 2>/dev/null
  fi
  mapfile -t -O ${#COMPREPLY[@]} COMPREPLY < <(compgen -W "$words" -- "$word")
}
complete -F _arbiter arbiter
