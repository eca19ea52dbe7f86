# Sourced by the commands in bin/, which set `command`, their name, and `root`, the repository: messages and statuses, the
# version, and building what is missing.
unset CDPATH
LC_ALL=C
export LC_ALL
group='' room=''

say() { printf '%s: %s\n' "$command" "$1" >&2; }

# Every command ends so where it cannot do what it was called for.
fail() {
    say "$1"
    exit 3
}

# However the command ends, but by a kill that it cannot hear, no process and no temporary file of its own is left.
leave() {
    if [ -n "$group" ]; then
        kill -s TERM -- "-$group" 2>/dev/null || kill -s TERM "$group" 2>/dev/null
        wait "$group" 2>/dev/null
    fi
    [ -z "$room" ] || rm -rf "$room"
}
stopped() {
    [ -z "$group" ] || { clear_line; say 'stopped; what is proved so far is kept'; }
    exit "$1"
}
trap leave EXIT
trap 'stopped 129' HUP
trap 'stopped 130' INT
trap 'stopped 143' TERM

# A message has a place to go, and no file that is opened later takes the place of a standard one.
(exec 3>&2) 2>/dev/null || exec 2>/dev/null
(exec 3>&1) 2>/dev/null || fail 'standard output is closed'

# Runs what writes to standard output; a reader that has gone is a place that is closed.
printed() { (trap '' PIPE && "$@") 2>/dev/null || fail 'standard output is closed or full'; }

make_room() { room=$(mktemp -d 2>/dev/null) || fail "no temporary folder can be made in ${TMPDIR:-/tmp}"; }

# The project's version stands in the header alone.
version() {
    awk '$2 ~ /^LEVEECRUMB_VERSION_(MAJOR|MINOR|PATCH)$/ { said = said dot $3; dot = "." } END { print said }' "$root/include/leveecrumb.h"
}

# The kit's identity.
find_kit() {
    command -v rt >/dev/null || fail "the Rattle kit's command rt, which proves and runs the program, is not on the PATH"
    kit=$(rt version </dev/null 2>&1) || fail "the Rattle kit's command rt does not work: $kit"
}

# ---- building

# Whether target/FILE was built with this kit, and nothing has changed since.
is_built() { # NAME FILE
    mark=$root/target/built/$1
    [ -f "$root/target/$2" ] && [ -r "$mark" ] && [ "$(cat "$mark")" = "$kit" ] &&
        [ -z "$(find "$root"/crates/*/src "$root"/crates/*/specs "$root"/crates/*/proofs "$root/crates.txt" -newer "$mark" -print -quit 2>/dev/null)" ]
}

# The crates that CRATE rests on, and itself.
crates_of() { # CRATE
    awk -v want="$1" '
        function visit(name, list, count, i) {
            if (name in seen || !(name in rests)) return
            seen[name]
            count = split(rests[name], list, " ")
            for (i = 1; i <= count; i++) visit(list[i])
            print name
        }
        { sub(/#.*/, "") }
        split($0, part, ":") == 2 { split(part[1], word, " "); rests[word[1]] = part[2] }
        END { visit(want) }' "$root/crates.txt"
}

# How far rt is, by what it has said so far: crates done, of how many, the last of them, and about how long it will take. rt goes
# through CRATES in their order, and says nothing of those that it finds built. docs/CHECKS.md has the seconds of each crate on two
# cores; what is left goes by how fast this machine did the others.
how_far() { # CRATES LOG SECONDS
    checks=$root/docs/CHECKS.md
    [ -r "$checks" ] || checks=/dev/null
    awk -v crates="$1" -v log_file="$2" -v spent="$3" '
        BEGIN { total = split(crates, names, " ") }
        FILENAME != log_file && /^\| [a-z_]+ \| [0-9]+ \|/ { seconds[$2] = $4 }
        FILENAME == log_file && /^crate [a-z_]+: / { checked = substr($2, 1, length($2) - 1) }
        FILENAME == log_file && /^logic=proved / { last = checked; done[last] }
        END {
            for (i = 1; i <= total; i++) {
                cost = names[i] in seconds ? seconds[names[i]] : 10
                all += cost
                if (names[i] in done) part += cost
                if (names[i] == last) { count = i; behind = all }
            }
            left = part * 10 > all ? spent * (all - behind) / part : (all - behind) * 0.7
            about = left < 100 ? int(left / 10 + 1) * 10 " s" : int(left / 60 + 0.5) " min"
            printf "%d of %d crates%s; about %s left\n", count, total, count == 0 ? "" : ", " last " done", about
        }' "$checks" "$2"
}

# On a terminal one line moves, which must not reach its edge; elsewhere there is a line for each crate.
moving_line() { # WORDS
    columns=$(stty size <&2 2>/dev/null | cut -d ' ' -f 2)
    [ "${columns:-0}" -gt 1 ] && [ "$columns" -lt 79 ] || columns=79
    printf "\\r%-$((columns - 1)).$((columns - 1))s" "$1" >&2
}
clear_line() { [ ! -t 2 ] || { moving_line '' && printf '\r' >&2; }; }
tell() { # WORDS
    if [ -t 2 ]; then
        moving_line "$command: $1"
    elif [ "${1%%;*}" != "${told%%;*}" ]; then
        say "$1"
    fi
    told=$1
}

# Runs rt in CRATE's folder and in a group of its own, so that all of it can be stopped, and tells how far it is.
follow() { # CRATE LOG rt's WORDS...
    crates=$(crates_of "$1" | tr '\n' ' ')
    crate_folder=$root/crates/$1 log=$2 began=$(date +%s) told=''
    shift 2
    (cd "$crate_folder" && exec setsid rt "$@") </dev/null >>"$log" 2>&1 &
    group=$!
    while kill -0 "$group" 2>/dev/null; do
        tell "proving $(how_far "$crates" "$log" $(($(date +%s) - began)))"
        sleep 1
    done
    wait "$group"
    ended=$?
    group=''
    clear_line
    return "$ended"
}

# Proves CRATE and writes target/FILE, all that rt says to LOG. rt leaves what it builds in the crate's out/; a program it also runs,
# here on an empty input.
prove() { # FILE CRATE LOG
    case $1 in
    *.a) verb=lib made=lib$2.a ;;
    *) verb=run made=$2 ;;
    esac
    follow "$2" "$3" "$verb" || return
    # It comes into its place whole.
    { mkdir -p "$root/target/${1%/*}" && cp "$root/crates/$2/out/$made" "$root/target/$1.new" && mv -f "$root/target/$1.new" "$root/target/$1"; } 2>>"$3"
}

# Builds target/FILE from CRATE unless it is there already. One command builds at a time: a second one waits for it.
build() { # NAME FILE CRATE
    find_kit
    ! is_built "$1" "$2" || return 0
    folder=$root/target/built
    mkdir -p "$folder" 2>/dev/null && (: >>"$folder/lock") 2>/dev/null ||
        fail "$root cannot be written, and target/$2 has to be built there first"
    exec 9>>"$folder/lock"
    if command -v flock >/dev/null && ! flock -n 9; then
        say 'another command is building here; waiting for it'
        flock 9
        ! is_built "$1" "$2" || { exec 9>&-; return 0; }
    fi
    rm -f "$folder/$1"
    # What is changed from here on is newer than the mark.
    (printf '%s\n' "$kit" >"$folder/$1.new" && : >"$folder/$1.log") 2>/dev/null || fail "$folder cannot be written"
    say "target/$2 has to be proved and built first; this is done once"
    prove "$2" "$3" "$folder/$1.log" || {
        grep -v -e ': proved$' -e '^rt: chose ' -e '^only=' -e '^statements ' -e '^library ' -e '^crate ' -e '^axioms ' -e '^logic[ =]' "$folder/$1.log" | tail -n 20 >&2
        fail "target/$2 could not be built (target/built/$1.log has all that rt said)"
    }
    mv "$folder/$1.new" "$folder/$1" 2>/dev/null || fail "$folder cannot be written"
    exec 9>&-
}
