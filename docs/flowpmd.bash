# Completion of flowpmd's words for bash. To use it, source this file, or put it into
# ~/.local/share/bash-completion/completions/flowpmd

_flowpmd() {
    local word=$2 key value
    # bash splits words at '=', so the key may be the word before
    if [[ ${COMP_WORDS[COMP_CWORD]} == = ]]; then
        key=${COMP_WORDS[COMP_CWORD - 1]} value=
    elif [[ ${COMP_WORDS[COMP_CWORD - 1]} == = ]]; then
        key=${COMP_WORDS[COMP_CWORD - 2]} value=$word
    elif [[ $word == --*=* ]]; then
        key=${word%%=*} value=${word#*=}
    elif [[ ${COMP_WORDS[COMP_CWORD - 1]} == --?* && $word != -* ]]; then
        # a value in a word of its own
        key=${COMP_WORDS[COMP_CWORD - 1]} value=$word
    fi
    COMPREPLY=()
    case $key in
    --cmdline-file | --rx-pcap | --tx-pcap)
        compopt -o filenames 2>/dev/null
        mapfile -t COMPREPLY < <(compgen -f -- "$value")
        ;;
    --rxq) mapfile -t COMPREPLY < <(compgen -W '1 2 3 4 5 6 7 8 9 10 11 12 13 14 15 16' -- "$value") ;;
    --nb-cores) mapfile -t COMPREPLY < <(compgen -W '0 1 2 3 4 5 6 7 8 9 10 11 12 13 14 15 16' -- "$value") ;;
    --flow-max) mapfile -t COMPREPLY < <(compgen -W '1 64 1024 4096 65536' -- "$value") ;;
    *)
        local option given
        for option in --cmdline-file= --rx-pcap= --tx-pcap= --rxq= --nb-cores= --flow-max=; do
            # each at most once
            given=" ${COMP_WORDS[*]:0:COMP_CWORD} "
            [[ ${given//=/ } == *" ${option%=} "* ]] || COMPREPLY+=("$option")
        done
        mapfile -t COMPREPLY < <(compgen -W "${COMPREPLY[*]}" -- "$word")
        compopt -o nospace 2>/dev/null
        ;;
    esac
}

complete -F _flowpmd flowpmd ./flowpmd
