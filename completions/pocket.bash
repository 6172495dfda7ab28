# Completions of pocket for bash: verbs, the keys of a verb that are not given yet, and files.

_pocket() {
    local -A keys=(
        [compress]="in= out= bits= apid= robust= plan= mask="
        [play]="in= out= report= apid= script="
        [restore]="in= out= report= bits= apid="
        [show]="in= out= bits= apid="
        [trial]="seed= packets= bits= robust= out="
        [multi]="in= out= report= streams="
        [late]="in= out= report= bits= apid= window="
        [table]="in= out= report= fields= bits="
        [forecast]="out= packets= robust= plan= script="
    )
    local line=${COMP_LINE:0:COMP_POINT} word key at
    local -a given
    word=${line##*[[:space:]]}
    read -ra given <<< "${line%"$word"}"
    # Before the command there may be others (sudo, nice, do): its own words come after its name.
    for ((at = ${#given[@]} - 1; at >= 0; at--)); do
        [[ ${given[at]} != "$1" ]] || break
    done
    given=("${given[@]:at + 1}")
    COMPREPLY=()
    if ((${#given[@]} == 0)); then
        mapfile -t COMPREPLY < <(compgen -W "${!keys[*]} --help --version" -- "$word")
        return
    fi
    case $word in
        in=* | out=* | report=* | plan=* | script=* | streams=* | fields=*)
            mapfile -t COMPREPLY < <(compgen -f -- "${word#*=}")
            compopt -o filenames
            ;;
        *=*) ;;
        *)
            for key in ${keys[${given[0]}]-}; do
                [[ " ${given[*]:1}" == *" $key"* ]] || mapfile -t -O "${#COMPREPLY[@]}" COMPREPLY < <(compgen -W "$key" -- "$word")
            done
            compopt -o nospace
            ;;
    esac
}
complete -F _pocket pocket
