# What the project's scripts share: messages, missing tools, and building by content. It is sourced, with `root` set to the
# project's folder and `me` to the word that opens each message.
#   say WORDS, fail WORDS     a message on standard error; fail ends with status 2
#   need TOOL WHY             fails in a sentence where a tool is missing
#   make_program NAME...      proves and builds programs: target/bin/NAME
#   make_library              proves and builds what hosts link: target/staticlib/libnergutsai.a
#   built_with NAME           the toolchain that built the crate NAME
# What was built from the sources as they are now, to the byte, is not built again. `quiet=0` shows what rt says.
# shellcheck shell=sh disable=SC2154

say() { printf '%s: %s\n' "$me" "$*" >&2; }

fail() {
    say "$*"
    exit 2
}

need() { # TOOL WHY
    command -v "$1" >/dev/null 2>&1 || fail "$1 is not on the path; $2"
}

# The crates that a crate stands on, and itself, by crates.txt, where a static library has a second word before the colon.
crates_under() { # NAME
    awk -v want="$1" '
        { sub(/#.*/, "") }
        /:/ { i = index($0, ":"); split(substr($0, 1, i - 1), words, " "); deps[words[1]] = substr($0, i + 1) }
        function visit(name,    parts, n, k) {
            if (seen[name] || !(name in deps)) return
            seen[name] = 1
            print name
            n = split(deps[name], parts, " ")
            for (k = 1; k <= n; k++) visit(parts[k])
        }
        END { visit(want) }' "$root/crates.txt"
}

# What a crate is made of: the SHA-256, with its name, of every file that is proved for it.
sources_of() { # NAME
    (
        cd "$root" || exit
        grep -v '^ *#' crates.txt
        # shellcheck disable=SC2046
        find $(crates_under "$1" | sed 's,.*,crates/&/src crates/&/specs crates/&/proofs,') -type f -exec sha256sum {} + 2>/dev/null | LC_ALL=C sort
    ) | sha256sum | cut -d' ' -f1
}

# target/made/NAME says of what and with what FILE was made: three fields, the last with blanks in it.
stamp_of() { # SOURCES FILE TOOLCHAIN
    printf '%s %s %s\n' "$1" "$(sha256sum <"$root/$2" | cut -d' ' -f1)" "$3"
}

built_with() { cut -d' ' -f3- <"$root/target/made/$1"; } # NAME

# Whether FILE is what the sources make. Where rt is missing nothing can be built anew, so any toolchain's work is taken.
is_current() { # NAME FILE
    [ -s "$root/$2" ] && [ -f "$root/target/made/$1" ] || return 1
    if command -v rt >/dev/null 2>&1; then with=$(rt version); else with=$(built_with "$1"); fi
    [ "$(cat "$root/target/made/$1")" = "$(stamp_of "$(sources_of "$1")" "$2" "$with")" ]
}

# One build at a time in a folder: the others wait, and then mostly find it done.
lock() { # WHY
    need flock "it is part of util-linux"
    (mkdir -p "$root/target/made" && : >>"$root/target/made/lock") 2>/dev/null || fail "$1, and nothing can be built, since $root/target cannot be written"
    exec 9>>"$root/target/made/lock"
    flock -n 9 && return
    say "another build is under way in $root; waiting for it"
    flock 9
}

unlock() { exec 9>&-; }

# Runs rt in a crate's folder. What it says is shown where it fails. `rt run` builds a program and runs it, here on no input, and says all
# that is its own on standard error: what the program writes is thrown away.
run_rt() { # COMMAND NAME
    (
        cd "$root/crates/$2" && exec </dev/null 9>&- || exit
        if [ "${quiet:-1}" -eq 0 ]; then exec 8>&2; else exec 8>"$root/target/made/said"; fi
        if [ "$1" = run ]; then exec rt "$@" >/dev/null 2>&8; else exec rt "$@" >&8 2>&8; fi
    ) && return
    [ "${quiet:-1}" -eq 0 ] || cat "$root/target/made/said" >&2
    return 1
}

# Builds by COMMAND what is not current: a copy of what rt makes in the crate's folder, where other commands of rt replace it. A copy that
# is not what the sources make is removed first, so that nothing stale is left where the build fails.
make_by() { # COMMAND NAME MADE FILE
    ! is_current "$2" "$4" || return 0
    if [ -e "$root/$4" ]; then why="$2 is not what the sources make"; else why="$2 is not built yet"; fi
    need rt "it is the Rattle toolchain's command, and $why"
    lock "$why"
    if ! is_current "$2" "$4"; then
        if [ -e "$root/$4" ] || [ -d "$root/crates/rules/out" ]; then say "$why; building it"; else say "$why; the first build proves everything, which takes some minutes"; fi
        if ! { mkdir -p "$root/${4%/*}" && rm -f "$root/$4" "$root/target/made/$2"; }; then fail "$why, and nothing can be built, since $root/target cannot be written"; fi
        # taken before the build: a source that changes meanwhile counts as changed
        sources=$(sources_of "$2")
        run_rt "$1" "$2" || fail "$2 could not be built; what rt said is above"
        made=$root/crates/$2/out/$3
        [ -s "$made" ] || fail "$2 could not be built: there is no $made"
        if ! { cp "$made" "$root/$4" && stamp_of "$sources" "$4" "$(rt version)" >"$root/target/made/$2"; }; then fail "$root/target cannot be written"; fi
    fi
    unlock
}

make_program() { # NAME...
    for one in "$@"; do make_by run "$one" "$one" "target/bin/$one"; done
}

# What hosts call stands in one crate, so that a program links one archive, by the project's name.
library=target/staticlib/libnergutsai.a

make_library() { make_by lib nergutsai_c libnergutsai_c.a "$library"; }
