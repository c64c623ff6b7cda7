# shellcheck shell=sh
# Sourced by the checks. What one of them needs and isn't here is noted, and all else is tried; then its last line is
# `NAME: not tried: WHAT`, and its status 77, so that nobody takes it for a check that passed.
lacking=

# lacks WHAT: notes what could not be tried.
lacks() {
    lacking="${lacking:+$lacking, }$1"
}

# all_tried NAME: ends the check NAME where something could not be tried.
all_tried() {
    if [ -n "$lacking" ]; then
        echo "$1: not tried: $lacking"
        exit 77
    fi
}
