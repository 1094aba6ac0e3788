# Options of a verb, which may stand before and behind its other words.

# The entry of a verb's options that a word is, in $entry.
entry_of() { # WORD
    for entry in $options; do
        [ "${entry%[=+]}" != "$1" ] || return 0
    done
    return 1
}

# An option's value is kept under its name: one value, or one more line of them.
keep_option() { # OPTION VALUE
    held=option_${1##*-}
    case $1$2 in
    -o | -n) misused "$1 takes a name, and this one is empty" ;;
    -n*"
"*) misused "no item has a line end in its name" ;;
    esac
    case $entry in
    *+) eval "$held=\${$held:+\$$held
}\$2" ;;
    *) eval "$held=\$2" ;;
    esac
}

# One option. Where its value is the next word, the option is left in $wants.
take_option() { # WORD
    case $1 in
    --*=*)
        entry_of "${1%%=*}" || misused "unknown option ${1%%=*}"
        case $entry in *[=+]) keep_option "${1%%=*}" "${1#*=}" ;; *) misused "${1%%=*} takes no value" ;; esac
        return
        ;;
    esac
    if ! entry_of "$1"; then
        case $1 in --molfile | --sdfile | --progress | -o) misused "$1 is no option of this command" ;; *) misused "unknown option $1" ;; esac
    fi
    case $entry in
    *[=+]) wants=$1 ;;
    *) keep_option "$1" yes ;;
    esac
}

# Sorts a verb's words: options into $option_NAME; the places of all others into $words, for `eval "set -- $words"`,
# so that no byte of a name is touched.
sort_words() { # WORDS...
    asked_help= at=0 all= wants=
    begin_list
    option_o= option_progress= option_molfile= option_sdfile=
    for entry in $options; do
        bare=${entry%[=+]}
        eval "option_${bare##*-}="
    done
    for word in "$@"; do
        at=$((at + 1))
        if [ -n "$wants" ]; then
            keep_option "$wants" "$word"
            wants=
            continue
        fi
        case $all$word in
        --help | -h) asked_help=yes ;;
        --) all=/ ;;
        -?*) take_option "$word" ;;
        *) add "\"\${$at}\"" ;;
        esac
    done
    [ -z "$wants" ] || misused "$wants takes a value"
    end_list
    words=$list
}

# The kind of a file, in $kind: as the options say, or by its name.
kind_of() { # FILE
    case ${option_molfile}/${option_sdfile}/$1 in
    yes/yes/*) misused "--molfile and --sdfile exclude each other" ;;
    yes/*) kind=molfile ;;
    /yes/*) kind=sdfile ;;
    *.[mM][oO][lL]) kind=molfile ;;
    *) kind=sdfile ;;
    esac
}
