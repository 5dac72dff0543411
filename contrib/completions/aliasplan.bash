# Completions of aliasplan for bash. `install` puts them where bash-completion finds them; `source` takes them without it.
# tests/completions compares what is offered with the program's help.

_aliasplan() {
  local current=${COMP_WORDS[COMP_CWORD]} command= option= word
  local -i at operands=0
  for word in "${COMP_WORDS[@]:1:COMP_CWORD-1}"; do
    if [[ -n $option ]]; then
      # bash cuts --form=wire into three words
      [[ $word == = ]] || option=
    else
      case $word in
        --workers | --cut | --max-* | --form | --from | --to | --tables | --settings | --aliases | --mailboxes | --transport | --mx | --envelope) option=$word ;;
        -?*) ;;
        *) if [[ -z $command ]]; then command=$word; else operands+=1; fi ;;
      esac
    fi
  done
  [[ $current != = ]] || current=

  local words=
  case $option:$command:$operands:$current in
    --form:expand:*) words='lines dot' ;;
    --form:*) words='plan wire json' ;;
    --workers:* | --cut:* | --max-* | --from:* | --to:*) ;;
    --*:*) compopt -o default ;;
    :plan:*:-*) words='--workers --cut --max-bytes --max-names --max-owners --max-pairs --form --returns --each --tables --from --to --settings --aliases --mailboxes --transport --mx --envelope --verbose -v --help -h' ;;
    :explain:*:-* | :domains:*:-*) words='--workers --cut --max-bytes --max-names --max-owners --max-pairs --from --to --settings --aliases --mailboxes --transport --mx --envelope --verbose -v --help -h' ;;
    :expand:*:-*) words='--senders --tree --form --workers --cut --max-bytes --max-names --max-owners --max-pairs --settings --aliases --mailboxes --transport --mx --envelope --verbose -v --help -h' ;;
    :check:*:-*) words='--all --workers --cut --max-bytes --max-names --max-owners --max-pairs --settings --aliases --mailboxes --transport --mx --envelope --verbose -v --help -h' ;;
    :gather:*:-*) words='--settings --aliases --mailboxes --transport --mx --envelope --verbose -v --help -h' ;;
    ::*:-*) words='--verbose -v --help -h --version -V' ;;
    ::* | :help:0:*) words='plan explain expand check domains gather help' ;;
    :plan:0:* | :check:0:* | :domains:0:* | :explain:1:* | :expand:[1-9]*:*) compopt -o default ;;
  esac
  mapfile -t COMPREPLY < <(compgen -W "$words" -- "$current")
}

complete -F _aliasplan aliasplan
