# Completion of the words of vsim for bash. Read it by `source tools/completion/vsim.bash`, or copy it to
# /usr/share/bash-completion/completions/vsim.
_vsim() {
  local word=${COMP_WORDS[COMP_CWORD]} before=${COMP_WORDS[COMP_CWORD - 1]} words=
  # bash makes a word of `=` in --policy=fifo
  if [ "$word" = = ]; then
    word=
  elif [ "$before" = = ]; then
    before=${COMP_WORDS[COMP_CWORD - 2]}
  fi
  case $before in
    --policy) words='fifo lifo list:' ;;
    --out) words='lines vcd' ;;
    --grain) words='block statement' ;;
    --rules) words='narrow wide' ;;
    --top | --until | --steps | --tries | --seed | --from | --vcd | --certificate | --vcd-pair | -o | -D | -I | '<' | '>' | '>>') ;;
    *)
      case $COMP_CWORD:${COMP_WORDS[1]} in
        1:*) words='run check certify race elab preprocess help --help --version' ;;
        2:help) words='run check certify race elab preprocess' ;;
        *:run) words='--top --until --steps --policy --out --vcd --cert --certificate --rules --explain --short -D -I --help' ;;
        *:race) words='--top --until --steps --tries --seed --from --vcd-pair --rules --explain --short -D -I --help' ;;
        *:certify) words='--top --grain --rules --race -o --explain --short -D -I --help' ;;
        *:check) words='--top --certificate --rules --explain --short -D -I --help' ;;
        *:elab) words='--top --explain --short -D -I --help' ;;
        *:preprocess) words='-o --explain --short -D -I --help' ;;
      esac
      ;;
  esac
  # without a dash a word is a file, which `-o default` completes
  if [ "$COMP_CWORD" -gt 1 ] && [ "${word#-}" = "$word" ] && [ "${before#--}" = "$before" ] && [ "${COMP_WORDS[1]}" != help ]; then
    words=
  fi
  mapfile -t COMPREPLY < <(compgen -W "$words" -- "$word")
}
complete -o default -F _vsim vsim
