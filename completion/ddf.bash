# Completes the words of ddf in bash. No disk is read for it, so that names of arrays and GUIDs of groups aren't offered.

# Those of the words behind the first that begin as the second does.
_ddf_offer() {
    mapfile -t COMPREPLY < <(compgen -W "$1" -- "$2")
}

# Images of the call that aren't named behind the command yet, given the current word and the words behind the command.
_ddf_offer_images() {
    local image
    for image in "${images[@]}"; do
        case " ${*:2} " in *" $image "*) continue ;; esac
        [[ $image != "$1"* ]] || COMPREPLY+=("$image")
    done
}

# The words before --: images, and -- itself. Given are the current word, how many images stand before it, and how many words.
_ddf_before() {
    mapfile -t COMPREPLY < <(compgen -f -- "$1")
    # Where nothing begins so, readline looks: it knows a tilde.
    compopt -o filenames -o default 2>/dev/null
    [[ -- != "$1"* || $2 -eq 0 ]] || COMPREPLY+=(--)
    [[ $3 -gt 0 || $1 != -* ]] || _ddf_offer "--careful --yes --help --version" "$1"
}

# The words of a command, given the current word and those from the command to it.
_ddf_behind() {
    local cur=$1
    shift
    case $1:$# in
    label:1)
        _ddf_offer_images "$cur"
        [[ linux != "$cur"* ]] || COMPREPLY+=(linux)
        [[ large != "$cur"* ]] || COMPREPLY+=(large)
        ;;
    label:2)
        _ddf_offer_images "$cur" "${@:2}"
        [[ $2 != linux || large != "$cur"* ]] || COMPREPLY+=(large)
        ;;
    label:*) _ddf_offer_images "$cur" "${@:2}" ;;
    fail:1 | spare:1 | copyback:2) _ddf_offer_images "$cur" ;;
    spare:2) _ddf_offer "global revertible for off" "$cur" ;;
    create:2) _ddf_offer "raid0 raid1 raid1e.adjacent raid1e.offset raid4.first raid4.last raid5.r0 raid5.rn raid5.rnc jbod concat" "$cur" ;;
    create:3) _ddf_offer "0 1 2 3 4 5 6 7 8 9 10 11 12 13 14 15" "$cur" ;;
    create:4) _ddf_offer "single striped mirrored concat spanned" "$cur" ;;
    esac
}

_ddf() {
    local line=${COMP_LINE:0:COMP_POINT} cur="" word cut first=1
    local -a given images behind
    # Readline cuts words at @ and colons, so the line is cut here.
    # shellcheck disable=SC2162
    read -a given <<<"$line"
    COMPREPLY=()
    if [[ $line != *[[:space:]] ]]; then
        cur=${given[-1]}
        unset 'given[-1]'
    fi
    case ${given[1]-} in --careful | --yes) first=2 ;; esac
    for word in "${given[@]:first}"; do
        if [[ ${#behind[@]} -gt 0 || $word == -- ]]; then behind+=("$word"); else images+=("$word"); fi
    done
    if [[ ${#behind[@]} -eq 0 ]]; then
        _ddf_before "$cur" "${#images[@]}" $((${#given[@]} - 1))
    elif [[ ${#behind[@]} -eq 1 ]]; then
        _ddf_offer "examine label assemble show read scrub accept resync rebuild copyback write create delete spare fail import batch exercise" "$cur"
    elif [[ ${#behind[@]} -eq 2 && ${behind[1]} == @* ]]; then
        _ddf_offer "assemble show read scrub accept resync rebuild copyback write create delete spare fail import batch" "$cur"
    elif [[ ${behind[1]} == @* ]]; then
        _ddf_behind "$cur" "${behind[@]:2}"
    else
        _ddf_behind "$cur" "${behind[@]:1}"
    fi
    cut=${cur%"${cur##*[:=@]}"}
    COMPREPLY=("${COMPREPLY[@]#"$cut"}")
}
complete -F _ddf ddf
