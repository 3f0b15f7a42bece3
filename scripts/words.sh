# What the scripts of hosts/, compare/ and bench/ share: the check of their words, and the use of cargo. It is sourced after
# project.sh.
#   help_in FILE              the text of a Rust program's --help, as it stands in its source, and what the script adds
#   take_words TEXT WORD...   answers --help with TEXT, and refuses a word that TEXT does not list, before anything is built
#   need_rust EFFECT          fails in a sentence where cargo, or the linker that it calls, is missing
#   run_rust FOLDER NAME WORD...   builds and runs the program NAME of FOLDER/Cargo.toml
# shellcheck shell=sh disable=SC2154

help_in() { # FILE
    awk '/^";$/ { on = 0 } on { print; found = 1 } /^const HELP: &str = "\\$/ { on = 1 } END { exit !found }' "$root/$1" ||
        fail "there is no usage text in $root/$1"
    cat <<'TEXT'

The script needs rt, cargo and a C compiler: with rt it proves and builds
libnergutsai.a where it is not current, the first time in some minutes. Where one of
the three tools is missing it ends with status 2.
The archive is for Linux on x86-64. On another processor set CARGO_BUILD_TARGET to
x86_64-unknown-linux-gnu, CARGO_TARGET_X86_64_UNKNOWN_LINUX_GNU_LINKER to a cross
compiler and CARGO_TARGET_X86_64_UNKNOWN_LINUX_GNU_RUNNER to an emulator.
TEXT
}

# An option is a line of TEXT that begins with two blanks and `--`. The word that it takes, if any, follows it in capitals: NAME is
# one of the names behind the line's colon, DIR a folder, any other a whole number, not below K where the line has `from K`.
take_words() { # TEXT WORD...
    text=$1
    shift
    while [ $# -gt 0 ]; do
        case $1 in
        --help | -h)
            printf '%s\n' "$text"
            exit 0
            ;;
        esac
        option=${1:-an empty word}
        line=$(printf '%s\n' "$text" | option=$option awk '/^  --/ && $1 == ENVIRON["option"]')
        shift
        case $line in
        '') fail "$option is not an option; $me --help lists them" ;;
        "  $option "[A-Z]*) ;;
        *) continue ;;
        esac
        [ $# -gt 0 ] || fail "$option: the word after it is missing; $me --help says which"
        wrong=$(line=$line given=$1 awk 'BEGIN {
            line = ENVIRON["line"]
            given = ENVIRON["given"]
            if (line ~ /^  --[a-z-]+ NAME /) {
                sub(/.*: /, "", line)
                n = split(line, names, /, | or /)
                for (i = 1; i <= n; i++) if (names[i] "" == given "") exit
                print "is none of " line
                exit
            }
            if (line ~ /^  --[a-z-]+ DIR /) {
                if (given == "") print "is no folder"
                exit
            }
            least = match(line, / from [0-9]+/) ? substr(line, RSTART + 6, RLENGTH - 6) : 0
            most = "18446744073709551615"
            gsub(/[_,]/, "", given)
            if (given !~ /^[0-9]+$/) { print "is not a whole number"; exit }
            sub(/^0+/, "", given)
            if (length(given) > length(most) || length(given) == length(most) && given "" > most "") print "is above " most
            if (given + 0 < least + 0) print "is below " least
        }')
        [ -z "$wrong" ] || fail "$option: ${1:-an empty word} $wrong; $me --help says more"
        shift
    done
}

need_rust() { # EFFECT
    need cargo "$1: install Rust, which it is part of"
    env | grep -q '^CARGO_TARGET_[A-Z0-9_]*_LINKER=.' ||
        need cc "$1: install a C compiler, with which cargo links, or name another linker in CARGO_TARGET_X86_64_UNKNOWN_LINUX_GNU_LINKER"
}

run_rust() { # FOLDER NAME WORD...
    folder=$1
    name=$2
    shift 2
    cd "$root" || exit 2
    set -- --quiet --offline --release --manifest-path "$folder/Cargo.toml" --target-dir "target/$folder" --bin "$name" -- "$@"
    exec cargo run "$@"
}
