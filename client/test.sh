# What the tests of the programs share; they set `name` first. A sanitizer's report ends with 99, so that it is no refusal.
set -eu
export ASAN_OPTIONS="${ASAN_OPTIONS-}:exitcode=99" UBSAN_OPTIONS="${UBSAN_OPTIONS-}:exitcode=99"
cd "$(dirname "$0")"
work=$(mktemp -d)
trap 'rm -rf "$work"' EXIT
DAMAGES=300

# refusal 12, and what is said of a literal in a field of a fact
class='12 class: a literal as subject or object of subclass, subproperty, domain or range, or as object of type'
literal='is a literal (40000 to 59999); the'
a_class="must be a class: put the class's number, a name (6 to 39999)"
a_property="must be a property: put the property's number, a name (6 to 39999)"

stop() {
    echo "$name: $*"
    exit 1
}

# run STATUS COMMAND..: the command ends with this status; what it writes is in $work/out and $work/err
run() {
    status=$1 found=0
    shift
    "$@" >"$work/out" 2>"$work/err" </dev/null || found=$?
    [ "$found" = "$status" ] || { cat "$work/out" "$work/err"; stop "$*: status $found, not $status"; }
}

# expect STATUS FILE COMMAND..: its status, and what it writes, errors behind the rest
expect() {
    expected=$2 status=$1
    shift 2
    run "$status" "$@"
    cat "$work/out" "$work/err" >"$work/all"
    diff "$expected" "$work/all" || stop "$*: writes something else than $expected"
}

# unread COMMAND..: where nobody reads what it writes, it says so and ends with status 2
unread() {
    [ -p "$work/go" ] || mkfifo "$work/go"
    run 0 sh -c '{ read -r go <"$0/go"; found=0; "$@" || found=$?; echo $found >"$0/found"; } | { exec <&-; echo >"$0/go"; }' "$work" "$@"
    [ "$(cat "$work/found")" = 2 ] && grep -q "^[a-z]*: standard output: can't be written\$" "$work/err" ||
        stop "$*: status $(cat "$work/found") where nobody reads"
}

# nothing_beside: no program has left anything beside the files in $work
nothing_beside() { [ -z "$(find "$work" -name '.[a-z]*.??????*')" ]; }

# what is advised for a file of N-Triples
advised() { echo "this looks like N-Triples: \`import -o NEW $1\` makes a table of it"; }

# says FILE TEXT: one line of it has exactly this text, spaces before it apart
says() {
    sed 's/^ *//' "$1" | grep -Fxq -- "$2" || { cat "$1"; stop "does not say: $2"; }
}
