# Completions of salsa for bash: jobs, errors, netlists and stems, and the options of approximate and explore.
_salsa() {
    COMPREPLY=()
    local word=${COMP_WORDS[COMP_CWORD]} job=${COMP_WORDS[1]} ending files=()
    case $COMP_CWORD,$job in
    1,*) mapfile -t COMPREPLY < <(compgen -W 'synth certify refine check confirm flat aag blif trim demo approximate explore explain outputs --hints --help --version' -- "$word") ;;
    2,synth | 2,certify | 2,refine | 2,check | 2,confirm | 2,trim | 2,explore)
        local metrics='abs sabs rel ham'
        [[ $word != @(abs|sabs|rel|ham)/* ]] || metrics=$(printf "${word%%/*}/%s " {1..64})
        mapfile -t COMPREPLY < <(compgen -W "$metrics" -- "$word")
        ;;
    5,synth | 5,explore | 5,certify | 5,refine | 6,certify | 6,refine | 4,check | 4,confirm | 4,trim | 2,flat | 2,aag | 2,outputs)
        files=(blif)
        ;;
    2,blif) files=(aag) ;;
    2,explain) mapfile -t COMPREPLY < <(compgen -W 'clause hierarchy aiger' -- "$word") ;;
    6,synth | 6,explore | 7,certify | 7,refine | 6,trim | 3,flat | 3,aag | 3,blif) mapfile -t COMPREPLY < <(compgen -f -- "$word") ;;
    5,check | 5,confirm | 5,trim) mapfile -t COMPREPLY < <(compgen -f -X '!*.txt' -- "$word" | sed 's/\.txt$//') ;;
    esac
    if [ "$job" = approximate ] && [ "$COMP_CWORD" -gt 1 ]; then
        case ${COMP_WORDS[COMP_CWORD-1]},$word in
        --map,*)
            files=(lib genlib)
            mapfile -t COMPREPLY < <(compgen -W 'gates lut4 lut6' -- "$word")
            ;;
        --effort,*) mapfile -t COMPREPLY < <(compgen -W 'synth explore' -- "$word") ;;
        --module,*)
            mapfile -t COMPREPLY < <(compgen -W "$(grep -ohE '^ *module +[A-Za-z_][A-Za-z0-9_$]*' -- "${COMP_WORDS[@]:2}" 2>/dev/null |
                sed 's/^ *module *//')" -- "$word")
            ;;
        --conflicts,* | --effort-seconds,*) ;;
        *,-*) mapfile -t COMPREPLY < <(compgen -W '--module --conflicts --map --effort --effort-seconds --help' -- "$word") ;;
        *) files=(v sv) ;;
        esac
    fi
    if [ "$job" = explore ] && [[ $word == -* ]]; then
        mapfile -t COMPREPLY < <(compgen -W '--area --most-depth --tries --seconds --jobs --seed --abc --without-abc --run --help' -- "$word")
    fi
    if [ "$job" = explore ] && [ "$COMP_CWORD" -gt 6 ]; then
        case ${COMP_WORDS[COMP_CWORD-1]} in
        --area) mapfile -t COMPREPLY < <(compgen -W 'ands luts4 luts6 literals cells' -- "$word") ;;
        --run) mapfile -t COMPREPLY < <(compgen -W 'local parallel slurm' -- "$word") ;;
        cells) files=(lib genlib) ;;
        esac
    fi
    if [ ${#files[@]} -gt 0 ]; then
        compopt -o filenames 2>/dev/null
        mapfile -t -O ${#COMPREPLY[@]} COMPREPLY < <(
            for ending in "${files[@]}"; do compgen -f -X "!*.$ending" -- "$word"; done
            compgen -d -- "$word"
        )
    fi
}
complete -F _salsa salsa
