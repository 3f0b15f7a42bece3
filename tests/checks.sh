# What the tests share. It is sourced, with `root` set to the project's folder; it makes the folder $work, which goes at the end.
#   try WORD..        runs a command in the folder $at with the tools of $path, and shows it with what it printed
#   try_line TEXT     the same for a line of shell
#   holds WHAT TEST.. one thing that must hold of the command that was tried last
#   skip WHAT         says what could not be tried here, and why
#   finish            the last line, `N passed, M failed`, and the status
# shellcheck shell=sh disable=SC2154

work=$(mktemp -d) || exit 2
trap 'chmod -R u+w "$work" 2>/dev/null; rm -rf "$work"' EXIT
trap 'exit 2' INT TERM HUP
everything=$PATH
export work everything
passed=0
failed=0
at=$root
path=$PATH

run() { # WORD...
    began=$(date +%s)
    (cd "$at" && exec env PATH="$path" "$@") >"$work/out" 2>"$work/err" </dev/null
    status=$?
    took=$(($(date +%s) - began))
    # Lines of an output are cut, and so is a long one: it is to be looked at.
    sed -e 's/^/    /' -e 's/\(.\{160\}\).*/\1 ../' -e '40q' "$work/out" "$work/err" | LC_ALL=C tr -c '[:print:]\n' '?'
    printf '    (status %s)\n' "$status"
}

try() { # WORD...
    printf '\n$ %s\n' "$*"
    run "$@"
}

try_line() { # TEXT
    printf '\n$ %s\n' "$1"
    run sh -c "$1"
}

holds() { # WHAT TEST...
    what=$1
    shift
    if "$@"; then
        passed=$((passed + 1))
        printf 'ok      %s\n' "$what"
    else
        failed=$((failed + 1))
        printf 'NOT OK  %s\n' "$what"
    fi
}

skip() { printf 'skipped %s\n' "$*"; }

finish() {
    printf '\n%s passed, %s failed\n' "$passed" "$failed"
    [ "$failed" -eq 0 ]
}

# ---- Tests of the command that was tried last

ended() { [ "$status" -eq "$1" ]; }
took_at_most() { [ "$took" -le "$1" ]; }
silent() { [ ! -s "$work/$1" ]; }
# FILE has a line with every WORD.
says() { # FILE WORD...
    cp "$work/$1" "$work/lines"
    shift
    for each in "$@"; do
        grep -a -F -e "$each" "$work/lines" >"$work/fewer"
        mv "$work/fewer" "$work/lines"
    done
    [ -s "$work/lines" ]
}
ends_in() { [ "$(tail -n 1 "$work/out")" = "$1" ]; }
same() { cmp -s "$work/$1" "$work/$2"; }
# it failed with status 2, listed nothing, and said why
refuses() { # WORD...
    ended 2 && silent out && says err "$@"
}
