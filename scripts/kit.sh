# What the commands of this repository share: the kit, proving with it, and how a program of it is run. Sourced by bash; the
# functions work from the repository's root.
# shellcheck shell=bash

# How the commands end, beside 0. The last is the status of a program that writes to a pipe which nobody reads any more, as in ./run | head.
NO_REPORT=1 MISSING=3 CLOSED_PIPE=141
# shellcheck disable=SC2034
BAD_USAGE=2

# Ends the command with a status and a line on standard error that says why.
end() { # STATUS LINE
    printf '%s\n' "$2" >&2
    exit "$1"
}

# Standard input or output must be open: of a number that is closed no copy can be made.
need_open() { # NUMBER NAME
    { : 4>&"$1"; } 2>&- || end "$NO_REPORT" "No whole report was printed: $2 is closed."
}

# The kit must be there, on a machine that it is for; another kit than the pinned one is only said, and once: the commands that this one
# calls do not say it again.
need_kit() {
    local machine pinned
    machine=$(uname -m)
    [ "$machine" = x86_64 ] || end "$MISSING" "The Rattle kit is for x86-64 alone, and this machine's processor is $machine."
    command -v rt >/dev/null 2>&1 || end "$MISSING" "The Rattle kit is missing: install it, so that the command rt is found."
    # what stands open as standard input is not for rt, which ends where it is a folder
    pinned=$(cat KIT) at_hand=$(rt version </dev/null)
    if [ "$at_hand" != "$pinned" ] && [ "$at_hand" != "${BINEFDAR_KIT_SAID-}" ]; then
        echo "Note: this repository is held to the kit '$pinned'; the kit at hand is '$at_hand'." >&2
        export BINEFDAR_KIT_SAID=$at_hand
    fi
}

# What the kit makes is written into the folder out/ of each crate, and what the commands here make of that below target/.
need_target() {
    local folder
    { mkdir -p target && [ -w target ]; } 2>/dev/null || cannot_write "$PWD/target"
    folder=$(find crates -mindepth 1 -maxdepth 1 ! -writable -print -quit)
    [ -z "$folder" ] || cannot_write "$PWD/$folder"
}
cannot_write() { # FOLDER
    end "$MISSING" "Nothing can be proved here, since $1 cannot be written to: use a copy that you may write to."
}

# Whether temporary files can be made in a folder. Where rt is root it runs programs as nobody, who must reach them, too.
holds_temporary() { # FOLDER
    [ -d "$1" ] && [ -w "$1" ] && [ -x "$1" ] || return
    [ "$(id -u)" -ne 0 ] || ! command -v setpriv >/dev/null ||
        setpriv --reuid=65534 --regid=65534 --clear-groups test -x "$1" 2>/dev/null
}

# A folder for temporary files: TMPDIR, or where that cannot be used the system's own.
need_temporary() {
    for folder in "${TMPDIR-}" "$(unset TMPDIR && dirname "$(mktemp -u)")"; do
        if holds_temporary "$folder"; then
            export TMPDIR=$folder
            return
        fi
    done
    end "$MISSING" "There is no folder for temporary files: set TMPDIR to one that you may write to."
}

# A sum over all that a program or an archive is made of, the kit at hand among it.
sources() {
    {
        echo "${at_hand:=$(rt version </dev/null)}"
        find crates crates.txt scripts -regex 'crates/[^/]*/\(out\|must-fail\)' -prune -o -type f -exec sha256sum {} + | sort
    } | sha256sum
}

# Shows of what rt and the prover say each crate as it is proved, with the seconds that it took, and rt's own words, but for those on how
# it goes about it.
show_progress() {
    local line crate='' begun=$SECONDS
    while IFS= read -r line; do
        case $line in
        'crate '*': modules '*) crate=${line#crate } crate=${crate%%:*} ;;
        'logic=proved '*) printf '%s proved (%d s)\n' "$crate" $((SECONDS - begun)) >&2 ;;
        'logic='*) printf '%s NOT PROVED\n' "$crate" >&2 ;;
        'rt: running '* | 'rt: chose '* | 'rt: nothing has changed '* | 'rt: '*': begins with '*) ;;
        'rt: '*) printf '%s\n' "$line" >&2 ;;
        esac
        case $line in logic=*) begun=$SECONDS ;; esac
    done
}

# Has rt prove a crate, and those below it where they have changed, and make of it what the command says, in the crate's folder out/. It
# begins with what earlier runs kept there. LOG has all that is said.
prove_crate() { # NAME LOG COMMAND
    mkdir -p "${2%/*}"
    (cd "crates/$1" && rt "$3") </dev/null 2>&1 | tee "$2" | show_progress
    return "${PIPESTATUS[0]}"
}

# Has rt prove and link a program. It does that only on the way to running it, so it runs it, too, here on no input. The status is then
# the program's: that it is proved and linked rt says in a line, just before it runs it.
link_program() { # NAME LOG
    prove_crate "$1" "$2" run
    grep -q "^rt: running out/$1;" "$2"
}

# Puts the program that rt linked where the commands here look for it, and keeps what it was made of. It goes there at once, so that
# one that runs can be replaced, too.
keep_program() { # NAME SUM-OF-THE-SOURCES
    mkdir -p target/bin target/proved
    cp "crates/$1/out/$1" "target/bin/$1.new" && mv -f "target/bin/$1.new" "target/bin/$1" &&
        echo "$2 $(sha256sum <"target/bin/$1")" >"target/proved/$1"
}

# Keeps what rt ci has just proved of the crates as they stand, so that nothing of it is proved again: the programs, and that the libraries
# in the folders out/ are proved (scripts/archive.sh).
keep_proved() { # SUM-OF-THE-SOURCES
    local main name
    mkdir -p target/proved
    for main in crates/*/src/main.rt; do
        name=${main#crates/} name=${name%%/*}
        [ ! -x "crates/$name/out/$name" ] || keep_program "$name" "$1"
    done
    echo "$1" >target/proved-by-ci
}

# Proves and links a program, unless it is there and was made of these very sources. It says what it does, and shows each crate as
# it is proved.
prove_program() { # NAME
    local sum log=target/log/proving-$1
    sum=$(sources)
    if [ "$(cat "target/proved/$1" 2>/dev/null)" = "$sum $(sha256sum 2>/dev/null <"target/bin/$1")" ]; then return; fi
    need_target
    need_temporary
    echo "Proving the program $1 and what it is made of, since that was not done of these sources yet. It may take minutes." >&2
    { link_program "$1" "$log" && keep_program "$1" "$sum"; } ||
        end "$NO_REPORT" "The program $1 is not proved: $log has all that the prover said."
}

# Runs a program that prints a report, and ends with NO_REPORT where it did not print all of it. What it says on standard error, which is
# kept back here, and its status tell. A program of the kit is not ended by the signal where nobody reads what it writes: it says so.
print_report() { # PROGRAM
    { said=$("$1" 2>&1 >&3 3>&-); } 3>&1
    status=$?
    [ "$status" -ne 0 ] || [ -n "$said" ] || return 0
    case $status:$said in "$CLOSED_PIPE":* | *[Bb]roken?[Pp]ipe* | *BrokenPipe*) exit "$CLOSED_PIPE" ;; esac
    # a program that fails by itself ends with 1, and says why
    case $status:$said in 0:* | 1:?*) ;; *) said="${said:+$said; }the program ended with status $status" ;; esac
    end "$NO_REPORT" "No whole report was printed: ${said//$'\n'/; }"
}
