# Sourced by each bash script of tools/ before all else, in the folder that the user stands in. What every one of them has: --help, or -h, prints the
# comment at the script's head; a word that it does not know ends it with status 2; a path is taken from where the user stands.

# refuse TEXT: what is wrong with the words, in one line; status 2.
refuse() {
    echo "${0##*/}: $1; --help tells what there is" >&2
    exit 2
}

# no_option WORD: refuses a word that looks like an option.
no_option() {
    case $1 in -?*) refuse "there is no option $1" ;; esac
}

# no_words "$@": of a script that takes none.
no_words() {
    [ $# -eq 0 ] || refuse "$1 is not known"
}

# number OPTION VALUE: refuses a value that is not a whole number.
number() {
    case $2 in '' | *[!0-9_]*) refuse "$1 needs a number" ;; esac
}

# one_of WHAT WORD LIST..: refuses a word that is not of the list.
one_of() {
    local what=$1 word=$2 known
    shift 2
    for known in "$@"; do [ "$known" != "$word" ] || return 0; done
    refuse "there is no $what $word"
}

# is_newer FILE: it stands, and is newer than all that the crates are made of. At the top of the repository.
is_newer() {
    [ -f "$1" ] && [ -z "$(find crates crates.txt \( -name out -o -name must-fail \) -prune -o -type f -newer "$1" -print -quit)" ]
}

# program NAME: sees that the proved program stands as crates/NAME/out/NAME, and is newer than the crates. At the top of the repository. What is said goes to
# standard error.
program() {
    local made=crates/$1/out/$1 log
    ! is_newer "$made" || return 0
    echo "${0##*/}: proving and building $1" >&2
    log=$(mktemp)
    if ! (cd "crates/$1" && rt run) >"$log" 2>&1 </dev/null || [ ! -x "$made" ]; then
        tail -n 5 "$log" >&2
        rm "$log"
        echo "${0##*/}: $1 was not built" >&2
        return 1
    fi
    rm "$log"
    touch "$made"
}

for word in "$@"; do
    case $word in
    -h | --help)
        sed -n '2,${/^#/!q;s/^# \{0,1\}//p}' "$0" || exit 2
        exit 0
        ;;
    esac
done
