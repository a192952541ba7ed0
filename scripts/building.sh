# What show-page and build-library share: their messages, and proving and building what is stale. It is read by them and not run. They
# set `root`, the repository's folder, `script`, the name that a message starts with, and `usage`.
# shellcheck shell=bash disable=SC2154

# Where standard error is closed the messages are dropped, and the work goes on.
[ -e "/proc/$$/fd/2" ] || exec 2>/dev/null

say() { printf '%s: %s\n' "$script" "$*" >&2 || true; }
fail() { say "$*"; exit 1; }

wrong_usage() { # SENTENCE
    say "$1"
    say "usage: $usage (--help says more)"
    exit 2
}

# A closed output is found before anything is built for it.
require_output() { { : 3>&1; } 2>/dev/null || fail "standard output is closed"; }

# Writes TEXT as the whole of standard output. Where its reader has gone away the status alone says so, as for any command in a pipe.
print() { # TEXT
    local reason status=0
    { reason=$(printf '%s\n' "$1" 2>&1 >&3) || status=$?; } 3>&1
    [ "$status" -ne 0 ] || return 0
    [ -n "$reason" ] || exit "$status"
    fail "cannot write to standard output: ${reason##*: }"
}

# The help is the comment at the head of the script.
show_help() {
    print "$(sed -n -e '/^set /q' -e '2,$s/^# \{0,1\}//p' "$root/$script")"
    exit
}

# Whether FILE is missing or something that it is made from is newer. A folder is newer when a file of it was added or removed; the toolchain
# makes a folder `out` in a crate's folder, so of these it is the folders src/, specs/ and proofs/ that count.
is_stale() { # FILE
    [ -f "$1" ] || return 0
    [ -n "$(find "$root/crates.txt" "$root/crates" -mindepth 0 \( -path "$root/crates/*/out" -prune \) -o \
        \( -name '*.rt' -o -name '*.antt' -o -name crates.txt -o -type d -path "$root/crates/*/*" \) -newer "$1" -print -quit)" ]
}

require_toolchain() { command -v rt >/dev/null || fail "the toolchain's command 'rt' is not on PATH"; }

# Whether a file can be made in target/ is tried: what the modes say does not tell of a file system that is mounted read-only.
require_writable() { # WHAT
    local made
    made=$(mkdir -p "$root/target" 2>&1 && mktemp "$root/target/try.XXXXXX" 2>&1) ||
        fail "$1 is missing or older than a source, and nothing can be built in $root, which cannot be written to: ${made##*: }"
    rm -f "$made"
}

# Has `rt WORDS`, in the folder of CRATE, prove and make MADE, and FILE of it, where FILE is stale; each line of rt's own is passed on as it
# comes, and all that it says is kept in target/log/.
build() { # WHAT FILE CRATE MADE WORDS...
    local what=$1 file=$2 crate=$3 made=$4 began
    shift 4
    is_stale "$file" || return 0
    require_toolchain
    require_writable "$what"
    say "proving and building $what; from nothing this takes a few minutes"
    began=$(date +%s.%N)
    mkdir -p "$root/target/log" "$(dirname "$file")"
    (cd "$root/crates/$crate" && rt "$@" </dev/null 2>&1 | tee "$root/target/log/$crate.out" | sed -u -n '/^rt:/p' >&2) ||
        fail "$what is not built; target/log/ has what the prover said"
    cp "$root/crates/$crate/out/$made" "$file" || fail "there is no crates/$crate/out/$made, though it is proved: remove crates/$crate/out and try again"
    # rt goes by what the sources say and leaves a file that is unchanged, so the date is set here. It is the one of the start: a source
    # that was changed since then is newer.
    touch -d "@$began" "$file"
}
