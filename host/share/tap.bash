# Completion for tap in bash. Commands, options and words come from `tap help`, so that none can be missing here.

# How many operands stand between the command and the word under the cursor. An option that takes a value has a word in capitals behind
# it in the help.
_tap_operands()
{
    local help=$1 at=2 count=0
    while ((at < COMP_CWORD)); do
        case ${COMP_WORDS[at]} in
        --*) if grep -q -- "${COMP_WORDS[at]} [A-Z]" <<< "$help"; then at=$((at + 1)); fi ;;
        *) count=$((count + 1)) ;;
        esac
        at=$((at + 1))
    done
    echo $count
}

_tap()
{
    local word=${COMP_WORDS[COMP_CWORD]} help files choices=''
    help=$("${COMP_WORDS[0]}" help 2> /dev/null) || return
    case ${COMP_WORDS[1]} in
    send) files=1 ;;
    record) files=2 ;;
    *) files=${#COMP_WORDS[@]} ;;
    esac
    if ((COMP_CWORD == 1)); then
        choices="help $(sed -n 's/^  tap \([a-z-]*\).*/\1/p' <<< "$help")"
    elif [[ $word == -* ]]; then
        choices=$(grep '^  -' <<< "$help" | grep -o -- '--[a-z0-9-]*[a-z0-9]')
    elif (($(_tap_operands "$help") >= files)); then
        choices=$(sed -n '/^  tap /d; s/^  \([a-z][a-z-]*\) .*/\1/p' <<< "$help")
    fi
    mapfile -t COMPREPLY < <(compgen -W "$choices" -- "$word" | sort -u)
}

# Where nothing of the above fits, the word is a file.
complete -o default -F _tap tap
