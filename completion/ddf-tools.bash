# Completes the words of ddf's tools in bash. No disk is read for it.

_ddf_tools() {
    local cur=${COMP_WORDS[COMP_CWORD]} words=""
    case ${COMP_WORDS[0]##*/}:$COMP_CWORD in
    ddf-save:1) words="save list diff restore --help" ;;
    ddf-guard:*) words="on off check --root --help" ;;
    ddf-check:*) words="--quiet --scrub --group --help" ;;
    ddf-save:*) words="--yes --some" ;;
    ddf-try:*) words="--keep --help --" ;;
    ddf-json:*) words="--careful --yes --text --help --" ;;
    ddf-scan:*) words="--all --help" ;;
    ddf-dmsetup:*) words="--write --group --help" ;;
    esac
    COMPREPLY=()
    # The words of ddf follow behind --, as its own completion has them.
    case " ${COMP_WORDS[*]:1:COMP_CWORD-1} " in
    *" -- "*) words="assemble show read scrub accept resync rebuild copyback write create delete spare fail import batch examine label" ;;
    esac
    case $cur:${COMP_WORDS[0]##*/}:$COMP_CWORD in
    -*:* | *:ddf-guard:* | *:ddf-save:1) mapfile -t COMPREPLY < <(compgen -W "$words" -- "$cur") ;;
    *)
        case $words in
        assemble*) mapfile -t COMPREPLY < <(compgen -W "$words" -- "$cur") ;;
        *) mapfile -t COMPREPLY < <(compgen -f -- "$cur") ;;
        esac
        compopt -o filenames 2>/dev/null
        ;;
    esac
}
complete -F _ddf_tools ddf-check ddf-save ddf-try ddf-json ddf-scan ddf-guard ddf-dmsetup
