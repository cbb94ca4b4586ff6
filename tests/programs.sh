# Sourced by tests/sheet and tests/subsets: runs a program and says what does not hold. $program is its name, $binary its path.
work=$(mktemp -d) || exit 1
trap 'rm -rf "$work"' EXIT
failed=0

if [ ! -x "$binary" ]; then
    echo "tests/$program: the program $program is not at $binary: run \`rt run\` in crates/$program first"
    exit 1
fi

# What the last run ended with. A run that did not begin has none, so that no test takes the files of the run before.
status=none

# holds NAME TEST...: says whether the last run passes the test, and forgets it.
holds() {
    local name=$1
    shift
    if "$@"; then
        echo "$program: $name"
    else
        echo "$program: FAILED: $name"
        failed=1
    fi
    status=none
}

# wrote STATUS OUT ERR: the last run wrote just these bytes, and this was its exit status.
wrote() {
    [ "$status" = "$1" ] &&
        printf '%b' "$2" | cmp -s - "$work/out" && printf '%b' "$3" | cmp -s - "$work/err"
}

# wrote_file FILE: it wrote just this file and no message, and its exit status was 0.
wrote_file() {
    [ "$status" = 0 ] && cmp -s "$work/out" "$1" && [ ! -s "$work/err" ]
}

run() {
    timeout 20 "$binary" >"$work/out" 2>"$work/err"
    status=$?
}

# run_full, run_closed, run_left: the same with a standard output that is full, closed, or read by nobody any more.
run_full() {
    : >"$work/out"
    timeout 20 "$binary" >/dev/full 2>"$work/err"
    status=$?
}

run_closed() {
    : >"$work/out"
    timeout 20 "$binary" >&- 2>"$work/err"
    status=$?
}

run_left() {
    : >"$work/out"
    {
        sleep 1
        timeout 20 "$binary" 2>"$work/err"
        echo $? >"$work/status"
    } | :
    status=$(cat "$work/status")
}

# interrupted EXPECTED: reads and writes that are interrupted are made again, and nothing is told of them.
interrupted() {
    if ! command -v cc >/dev/null; then
        echo "tests/$program: a C compiler is missing on this machine, so interrupted reads and writes were not tried"
        return
    fi
    cc -shared -fPIC -o "$work/interrupted.so" tests/interrupted.c || failed=1
    LD_PRELOAD=$work/interrupted.so timeout 20 "$binary" >"$work/out" 2>"$work/err"
    status=$?
    holds 'interrupted reads and writes are made again, and nothing is told of them' wrote_file "$1"
}
