# Completion of the words of olap for bash: commands, options, the values of --hash and --format, and files.

_olap() {
    local word=${COMP_WORDS[COMP_CWORD]} before=${COMP_WORDS[COMP_CWORD - 1]} place
    local options="--workers --depth --small --hash --rows --format --strict --explain --progress --part --help"
    COMPREPLY=()
    if ((COMP_CWORD == 1)); then
        mapfile -t COMPREPLY < <(compgen -W "run live session query schema check join help --help --version" -- "$word")
        return
    fi
    # (the `=` of an option is a word of its own)
    if [[ $before == "=" ]]; then
        before=${COMP_WORDS[COMP_CWORD - 2]}
    elif [[ $word == "=" ]]; then
        before=${COMP_WORDS[COMP_CWORD - 1]} word=""
    fi
    case $before in
        --hash)
            mapfile -t COMPREPLY < <(compgen -W "fnv plain" -- "$word")
            return
            ;;
        --format)
            mapfile -t COMPREPLY < <(compgen -W "classic csv json table" -- "$word")
            return
            ;;
        --partials)
            compopt -o filenames 2> /dev/null
            mapfile -t COMPREPLY < <(compgen -f -- "$word")
            return
            ;;
        --workers | --depth | --small | --rows | --shard | --query | --viewers | --shots | --part | --order | --limit | --columns | --delimiter | --number | --null)
            return
            ;;
    esac
    case ${COMP_WORDS[1]} in
        help)
            mapfile -t COMPREPLY < <(compgen -W "run live session query schema check shard join language $(echo {1..15})" -- "$word")
            return
            ;;
        live) options+=" --query --viewers --shots --as-they-come" ;;
        session) options="--workers --depth --small --hash --rows --format --strict --help" ;;
        query) options="--columns --delimiter --number --null --trim --lenient-quotes --order --limit --workers --rows --format --progress --help" ;;
        schema) options="--columns --delimiter --number --null --trim --lenient-quotes --help" ;;
        check) options="--part --help" ;;
        join) options="--format --partials --help" ;;
        run)
            # A shard takes few of the options.
            if [[ " ${COMP_WORDS[*]:2:COMP_CWORD-2}" =~ " --"(shard|partials|own-parts) ]]; then
                options="--shard --partials --own-parts --rows --part --help"
            else
                options+=" --shard --partials --own-parts"
            fi
            ;;
        *) return ;;
    esac
    # After the word `--` all words are file names.
    for ((place = 2; place < COMP_CWORD; place++)); do
        [[ ${COMP_WORDS[place]} == "--" ]] && options=""
    done
    if [[ $word == -* && -n $options ]]; then
        mapfile -t COMPREPLY < <(compgen -W "$options" -- "$word")
    else
        compopt -o filenames 2> /dev/null
        mapfile -t COMPREPLY < <(compgen -f -- "$word")
    fi
}

complete -F _olap olap
