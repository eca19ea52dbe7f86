# Sourced by tests/bin/run: bin/pathcheck where its program is not built yet, in a checkout of its own, over a kit whose rt
# is tests/bin/rt and which is else the machine's own.
kit=$made/kit notes=$made/notes
mkdir -p "$kit/bin" && cp tests/bin/rt "$kit/bin/rt" && ln -s "$(dirname "$(dirname "$(readlink -f "$(command -v rt)")")")/toolchain" "$kit/toolchain"
export PLAY_NOTES=$notes PLAY_PROGRAM=$made/program
cp target/bin/pathcheck "$PLAY_PROGRAM"
played=$kit/bin:$PATH

# A checkout in which nothing is built.
anew() {
    rm -rf "$made/checkout" "$notes"
    mkdir -p "$made/checkout/docs" "$made/checkout/crates/paths/src" "$made/checkout/crates/pathcheck/src"
    cp -R bin include examples "$made/checkout/"
    cp docs/CHECKS.md "$made/checkout/docs/"
    printf '# Three crates.\npaths:\nlines:\npathcheck: paths lines\n' >"$made/checkout/crates.txt"
    echo '// nothing' >"$made/checkout/crates/paths/src/lib.rt"
    : >"$notes"
}

first() { PATH=$played "$made/checkout/bin/pathcheck" "$made/checkout/examples/rack14.hex"; }

# Whether the last command answered, and whether it had to build for it.
answered() { # NAME yes|no
    cmp -s "$made/out" <(sed '/^exit/d' tests/bin/expected/reached) || wrong "$1: another answer"
    tail -n 1 "$made/said" | grep -qx 'exit 1' || wrong "$1: $(tail -n 1 "$made/said")"
    case $2,$(grep -c 'has to be proved and built first' "$made/err") in
    yes,1 | no,0) ;;
    *) wrong "$1: built, or not built, against what was due: $(cat "$made/err")" ;;
    esac
}

# Whether a process runs; one that has ended may wait to be seen by its parent.
runs() { case $(sed 's/.*) //' "/proc/$1/stat" 2>/dev/null) in '' | Z*) false ;; esac; }

# No process of the played kit is left, a moment after.
nobody_left() { # NAME
    sleep 0.5
    while read -r process; do
        ! runs "$process" || wrong "$1: a process is left"
    done <"$notes"
    [ -s "$notes" ] || wrong "$1: nothing was begun"
}

anew
export PLAY_SECONDS=1.5
run first
answered 'the first run' yes
grep -q '^pathcheck: proving 0 of 3 crates; about [0-9]* s left$' "$made/err" || wrong 'the first run does not say how long it takes'
grep -q '^pathcheck: proving [12] of 3 crates, [a-z]* done; about [0-9]* s left$' "$made/err" || wrong 'the first run does not say how far it is'
export PLAY_SECONDS=0
run first
answered 'the second run' no
[ ! -s "$made/err" ] || wrong 'the second run says something'
touch "$made/checkout/crates/paths/src/lib.rt"
run first
answered 'a changed source' yes
PLAY_VERSION=another run first
answered 'another kit' yes

# On a terminal one line moves.
anew
PLAY_SECONDS=1.5 PATH=$played script -qec "'$made/checkout/bin/pathcheck' '$rack'" /dev/null </dev/null >"$made/screen"
[ "$(grep -c proving "$made/screen")" -eq 1 ] && [ "$(tr -dc '\r' <"$made/screen" | wc -c)" -gt 6 ] || wrong 'on a terminal the line does not move'

# A stop, by the terminal and by another process, while a crate is proved.
stopped() { # NAME SIGNAL TO-GROUP STATUS
    anew
    set -m
    PLAY_SECONDS=60 PATH=$played "$made/checkout/bin/pathcheck" "$rack" >"$made/out" 2>"$made/err" &
    local process=$!
    set +m
    while [ ! -s "$notes" ]; do sleep 0.1; done
    sleep 0.3
    kill "-$2" -- "$3$process"
    wait "$process" 2>/dev/null
    local ended=$?
    [ "$ended" -eq "$4" ] || wrong "$1 ends with $ended"
    grep -q 'stopped; what is proved so far is kept' "$made/err" || wrong "$1: $(cat "$made/err")"
    nobody_left "$1"
    run first
    answered "a run after $1" yes
}
stopped 'a stop by the terminal' INT - 130
stopped 'a hang-up' HUP - 129
stopped 'a stop by another process' TERM '' 143

# A fault of the kit: what it left half written is not run.
anew
export PLAY_FAULT=yes
PATH=$played held build_fails "$made/checkout/bin/pathcheck" "$rack"
unset PLAY_FAULT
run first
answered 'a run after a fault' yes

# Two at once: one builds, and the other waits for it.
anew
(PLAY_SECONDS=1 first) >"$made/out2" 2>"$made/err2" &
other=$!
while [ ! -s "$notes" ]; do sleep 0.1; done
run first
wait "$other"
answered 'the second of two at once' no
cmp -s "$made/out" "$made/out2" || wrong 'two at once give two answers'
grep -q 'another command is building here; waiting for it' "$made/err" || wrong 'the second of two at once does not say that it waits'

# What is missing.
anew
without=$(printf '%s\n' "$PATH" | tr : '\n' | while read -r folder; do [ -x "$folder/rt" ] || printf '%s:' "$folder"; done)
PATH=${without%:} held no_rt "$made/checkout/bin/pathcheck" "$rack"
cp "$rack" "$made/rack"
chmod -R a+rX "$made" && chmod a-w "$made/checkout"
as_nobody=''
[ "$(id -u)" -ne 0 ] || as_nobody='setpriv --reuid=65534 --regid=65534 --clear-groups'
# shellcheck disable=SC2086
PATH=$played held no_writing $as_nobody "$made/checkout/bin/pathcheck" "$made/rack"
chmod u+w "$made/checkout"
