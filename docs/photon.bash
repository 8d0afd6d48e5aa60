# Completes the words of photon in bash.

# The options of a command.
_photon_options() {
    case $1 in
    join) echo --queries --clicks --state --horizon --joiners --shards --batch ;;
    drill) echo --queries --clicks --plan --horizon --joiners --shards --batch ;;
    verify) echo --clicks --state ;;
    reshard) echo --state --add ;;
    bulk) echo --seed --clicks --joiners --shards --batch ;;
    esac
}

_photon() {
    local word=${COMP_WORDS[COMP_CWORD]} before=${COMP_WORDS[COMP_CWORD - 1]} command=${COMP_WORDS[1]} option options=
    COMPREPLY=()
    case $COMP_CWORD,$before,$command in
    1,*) options='join drill verify reshard bulk' ;;
    *,--clicks,bulk | *,--horizon,* | *,--joiners,* | *,--shards,* | *,--add,* | *,--batch,* | *,--seed,*) ;;
    *,--state,*) mapfile -t COMPREPLY < <(compgen -d -- "$word") ;;
    *,--queries,* | *,--clicks,* | *,--plan,*) mapfile -t COMPREPLY < <(compgen -f -- "$word") ;;
    *)
        for option in $(_photon_options "$command"); do
            case " ${COMP_WORDS[*]:0:COMP_CWORD} " in
            *" $option "*) ;;
            *) options="$options $option" ;;
            esac
        done
        ;;
    esac
    [ -z "$options" ] || mapfile -t COMPREPLY < <(compgen -W "$options" -- "$word")
}

complete -o filenames -F _photon photon
