# Completion for bash: the subcommands of oatlantern, what `oatlantern tally BOOK` does, and files elsewhere.
_oatlantern()
{
    local word=${COMP_WORDS[COMP_CWORD]} subcommand=${COMP_WORDS[1]} words=
    case $COMP_CWORD:$subcommand in
    1:*) words='list hear salvage excite decode encode tally --help --version' ;;
    3:tally) words='enter enter-key total totals held show merge check' ;;
    2:decode) [[ $word != -* ]] || words='-v --help --version' ;;
    2:*) [[ $word != -* ]] || words='--help --version' ;;
    esac
    # with no word of ours bash completes the names of files
    mapfile -t COMPREPLY < <(compgen -W "$words" -- "$word")
}
complete -o default -F _oatlantern oatlantern
