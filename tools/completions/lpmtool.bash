# Completion of lpmtool for bash: its commands, the options of a command, and as many files as it wants.

_lpmtool() {
    local IFS=$' \t\n' word=${COMP_WORDS[COMP_CWORD]} limits="--rules --groups --workers --threshold --max"
    local commands="lookup explain apply report storm migrate" command="" options="" files=0 is_value="" is_end="" at one
    # what stands before the word: the command, the options that are left, and how many files are
    for ((at = 1; at < COMP_CWORD; at++)); do
        one=${COMP_WORDS[at]}
        if [[ $is_value ]]; then
            # (bash parts the word --groups=10 into three)
            [[ $one == "=" ]] || is_value=""
        elif [[ ! $command ]]; then
            command=$one
            case $command in
                lookup | report) files=2 options=" $limits --help " ;;
                explain) files=1 options=" --rules --groups --help " ;;
                apply) files=3 options=" $limits --help " ;;
                storm) files=3 options=" $limits --rounds --stuck --help " ;;
                migrate) files=1 options=" --help " ;;
            esac
        elif [[ $is_end || $one != -?* ]]; then
            files=$((files - 1))
        elif [[ $one == -- ]]; then
            is_end=yes
        else
            options=${options/ ${one%%=*} / }
            [[ $one == *=* || $one == --stuck || $one == -h || $one == --help ]] || is_value=yes
        fi
    done
    # an empty list has bash complete files, if it isn't told otherwise
    COMPREPLY=()
    if [[ $is_value || $word == "=" ]]; then
        options=""
    elif [[ ! $command ]]; then
        options=$([[ $word == -* ]] && echo "--help --version" || echo "$commands help")
    elif [[ $command == help ]]; then
        options=$([[ $COMP_CWORD == 2 ]] && echo "$commands help")
    elif [[ $is_end || $word != -* ]] && ((files > 0)); then
        return
    elif [[ $is_end || $word != -* ]]; then
        options=""
    fi
    COMPREPLY=($(compgen -W "$options" -- "$word"))
    compopt +o default 2> /dev/null
}

complete -o default -F _lpmtool lpmtool
