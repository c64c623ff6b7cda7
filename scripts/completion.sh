#!/bin/sh
# Tries the completions of bash, zsh and fish, where one of them isn't here it ends with 77: behind each line below stand the words that are offered.
# And the commands that each file names are those of --help. Nothing of the program is run. The words of its tools are tried the same way.
set -eu
top=$(cd "$(dirname "$0")/.." && pwd)
# shellcheck disable=SC1091
. "$top/scripts/lacking.sh"
work=$(mktemp -d)
trap 'rm -rf "$work"' EXIT

fail() {
    echo "completion: $*" >&2
    exit 1
}

# The commands that --help lists, one a line.
sed -n 's/^  \([a-z][a-z]*\) .*/\1/p' "$top/crates/ddf_edge/src/help.rt" | sort -u >"$work/commands"
over=$(grep -v -x -e examine -e label -e exercise "$work/commands" | tr '\n' ' ')
all=$(tr '\n' ' ' <"$work/commands")
for file in ddf.bash _ddf ddf.fish; do
    while read -r command; do
        grep -q -w -e "$command" "$top/completion/$file" || fail "completion/$file has no command $command"
    done <"$work/commands"
done
levels="concat jbod raid0 raid1 raid1e.adjacent raid1e.offset raid4.first raid4.last raid5.r0 raid5.rn raid5.rnc"
for level in $levels; do
    grep -q -w "$level" "$top/crates/ddf_edge/src/help.rt" || fail "--help knows no level $level"
done

# A line, a bar, and what is offered at its end, in the order of sort.
cat >"$work/lines" <<TEXT
ddf d0.img d1.img -- |$all
ddf d0.img -- s|$(grep '^s' "$work/commands" | tr '\n' ' ')
ddf d0.img -- @4c69 |$over
ddf d0.img -- @4c69 create a raid0 0 st|striped
ddf d0.img d1.img -- label |d0.img d1.img large linux
ddf d0.img d1.img -- label linux |d0.img d1.img large
ddf d0.img d1.img -- label linux la|large
ddf d0.img d1.img -- label large |d0.img d1.img
ddf d0.img d1.img -- label d0.img |d1.img
ddf d0.img d1.img -- create |
ddf d0.img d1.img -- create a |$levels
ddf d0.img d1.img -- create a raid5|raid5.r0 raid5.rn raid5.rnc
ddf d0.img d1.img -- create a raid1e|raid1e.adjacent raid1e.offset
ddf d0.img d1.img -- create a raid5.rnc 1|1 10 11 12 13 14 15
ddf d0.img d1.img -- create a raid5.rnc 7 |concat mirrored single spanned striped
ddf d0.img d1.img -- create a raid5.rnc 7 single |
ddf d0.img d1.img -- spare |d0.img d1.img
ddf d0.img d1.img -- spare d1.img |for global off revertible
ddf d0.img d1.img -- spare d1.img for |
ddf d0.img d1.img -- copyback |
ddf d0.img d1.img -- copyback a |d0.img d1.img
ddf d0.img d1.img -- copyback a d1.img |
ddf d0.img d1.img -- fail |d0.img d1.img
ddf d0.img d1.img -- fail d0.img |
ddf d0.img d1.img -- read |
ddf d0.img d1.img -- resync |
ddf d0.img d1.img -- import |
ddf d0.img d1.img -- write |
ddf d0.img d1.img -- examine |
ddf d|d0.img d1.img
ddf d0.img d1|d1.img
ddf --c|--careful
ddf --careful d|d0.img d1.img
ddf --careful d0.img d1.img -- fail |d0.img d1.img
ddf --yes d0.img d1.img -- label |d0.img d1.img large linux
ddf-check --|--group --help --quiet --scrub
ddf-check --q|--quiet
ddf-check d0.img d1|d1.img
ddf-save r|restore
ddf-save restore --|--some --yes
ddf-save save file d1|d1.img
ddf-guard c|check
ddf-guard o|off on
ddf-try --k|--keep
ddf-scan --a|--all
ddf-dmsetup --w|--write
ddf-json --t|--text
ddf-json d1|d1.img
TEXT

cat >"$work/of.bash" <<'TEXT'
source "$1/completion/ddf.bash"
source "$1/completion/ddf-tools.bash"
COMP_LINE=$2 COMP_POINT=${#2} COMPREPLY=()
read -ra COMP_WORDS <<<"$2"
[[ $2 != *' ' ]] || COMP_WORDS+=("")
COMP_CWORD=$((${#COMP_WORDS[@]} - 1))
if [[ $2 == ddf-* ]]; then _ddf_tools; else _ddf; fi
printf '%s\n' "${COMPREPLY[@]}"
TEXT

cat >"$work/of.fish" <<'TEXT'
source $argv[1]/completion/ddf.fish
source $argv[1]/completion/ddf-tools.fish
complete -C $argv[2] | string replace -r '\t.*' ''
TEXT

# zsh completes on a terminal alone: one is made for it, and what it would list goes to a file. A line of the terminal that is the
# mark says that it is done.
cat >"$work/of.zsh" <<'TEXT'
zmodload zsh/zpty
export offered=$PWD/../offered
: >$offered
zpty shell zsh -f -i
zpty -w shell "PS1=; unsetopt zle_bracketed_paste 2>/dev/null; stty -echo; fpath=($1/completion \$fpath); autoload -Uz compinit; compinit -D -u"
zpty -w shell 'compadd() {
    if [[ ${(M)argv[1,(i)(-|--)]:#-[a-zA-Z]#[OAD]} != "" ]]; then builtin compadd "$@"; return; fi
    local -a hits; builtin compadd -A hits "$@"; print -rl -- $hits >>$offered; builtin compadd "$@"
}'
zpty -w shell 'look() { BUFFER=$wanted; CURSOR=$#BUFFER; zle complete-word; print -r -- "MA""RK"; BUFFER=; }; zle -C complete-word complete-word _main_complete; zle -N look; bindkey "^T" look'
zpty -w shell "wanted=${(q)2}; print -r -- RE''ADY"
zpty -r shell line $'*READY*'
zpty -w -n shell $'\C-t'
zpty -r shell line $'*MARK*'
zpty -d shell
sort -u $offered | grep .
TEXT

# Compares what a shell offers with the lines.
try_shell() {
    while IFS='|' read -r line wanted; do
        found=$(cd "$work/here" && timeout 60 "$@" "$top" "$line" 2>"$work/said" </dev/null | grep . | sort -u | tr '\n' ' ') || true
        [ ! -s "$work/said" ] || fail "$1 said: $(cat "$work/said")"
        [ "${found% }" = "${wanted% }" ] || fail "$1 offers '$found' behind '$line', not '$wanted'"
    done <"$work/lines"
    echo "completion: $1 offers what it is to behind $(grep -c . "$work/lines") lines"
}

export LC_ALL=C
mkdir "$work/here"
touch "$work/here/d0.img" "$work/here/d1.img"
for shell in bash zsh fish; do
    if ! command -v "$shell" >/dev/null; then
        lacks "no $shell"
        continue
    fi
    case $shell in
    bash) try_shell bash --norc --noprofile "$work/of.bash" ;;
    zsh) try_shell zsh -f "$work/of.zsh" ;;
    fish) try_shell fish --no-config "$work/of.fish" ;;
    esac
done
all_tried completion
