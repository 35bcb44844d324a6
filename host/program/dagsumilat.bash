# Completes the command line of dagsumilat in bash: commands, options and file names.
# shellcheck shell=bash

# _dagsumilat_options [COMMAND]
_dagsumilat_options() {
    local reading='--limit --no-progress --help' window='--from --to --around --seconds'
    case ${1-} in
    list) echo "--long --peer $window $reading" ;;
    check | peers) echo "$reading" ;;
    report) echo "--table $reading" ;;
    cut)
        echo "$window --mute --mute-file --mute-address --mute-address-file --only --only-file -o --output --report" \
            "--dry-run --strict --brief --verbose -f --force -q --quiet $reading"
        ;;
    *) echo "--help --version" ;;
    esac
}

# _dagsumilat_value OPTION: what stands behind it, a file or something that cannot be known; nothing if it takes no value.
_dagsumilat_value() {
    case $1 in
    -o | --output | --report | --mute-file | --mute-address-file | --only-file) echo file ;;
    --from | --to | --around | --seconds | --peer | --mute | --mute-address | --only | --limit) echo unknown ;;
    esac
}

# _dagsumilat_offer [WORDS]: those that start as what is typed, and no file names in their place.
_dagsumilat_offer() {
    compopt +o default +o bashdefault 2>/dev/null
    mapfile -t COMPREPLY < <(compgen -W "${1-}" -- "$typed")
}

# File names. Where a name is typed in quotes, nothing is found here and bash looks by itself.
_dagsumilat_offer_files() {
    compopt -o filenames 2>/dev/null
    mapfile -t COMPREPLY < <(compgen -f -- "$typed")
}

# Whether options have ended before what is typed: behind -- there are only files.
_dagsumilat_is_past_options() {
    local word
    for word in "${COMP_WORDS[@]:1:COMP_CWORD-1}"; do
        [ "$word" != -- ] || return 0
    done
    return 1
}

# What stands behind a command that reads files.
_dagsumilat_reading() {
    local value=
    _dagsumilat_is_past_options || value=$(_dagsumilat_value "$option")
    if [ "$value" = unknown ]; then
        _dagsumilat_offer
    elif [ -z "$value" ] && [[ $typed == -* ]] && ! _dagsumilat_is_past_options; then
        _dagsumilat_offer "$(_dagsumilat_options "${COMP_WORDS[1]}")"
    else
        _dagsumilat_offer_files
    fi
}

# Puts together what bash takes apart, at = and at colons, which times, addresses and file names have: sets `typed`, and `option`, the
# word before it.
_dagsumilat_join() {
    local at=$COMP_CWORD
    typed=${COMP_WORDS[at]}
    while [ "$at" -gt 2 ] && [[ ${COMP_WORDS[at]} =~ ^:+$ || ${COMP_WORDS[at - 1]} =~ ^:+$ ]]; do
        at=$((at - 1))
        typed=${COMP_WORDS[at]}$typed
    done
    option=${COMP_WORDS[at - 1]}
    if [ "$typed" = = ]; then
        typed=
    elif [ "$option" = = ]; then
        option=${COMP_WORDS[at - 2]}
    fi
}

_dagsumilat() {
    local typed option commands='list check peers report cut'
    _dagsumilat_join
    case $COMP_CWORD:${COMP_WORDS[1]} in
    1:-*) _dagsumilat_offer "$(_dagsumilat_options)" ;;
    1:*) _dagsumilat_offer "$commands help version" ;;
    *:list | *:check | *:peers | *:report | *:cut) _dagsumilat_reading ;;
    2:help) _dagsumilat_offer "$commands" ;;
    *) _dagsumilat_offer ;;
    esac
    # bash puts what is offered behind the last colon.
    COMPREPLY=("${COMPREPLY[@]#"${typed%"${typed##*:}"}"}")
}

complete -o bashdefault -o default -F _dagsumilat dagsumilat
