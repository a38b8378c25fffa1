# Sourced by the tests of tests/gate that count in the shell.
passed=0 failed=0

# try NAME COMMAND..: runs a command, counts it and says which failed.
try() {
    name=$1
    shift
    if "$@"; then passed=$((passed + 1)); else failed=$((failed + 1)); echo "failed: $name"; fi
}

# gives STATUS FILE COMMAND..: the command exits with that status and writes what the file has.
gives() {
    status=$1 file=$2
    shift 2
    got=0
    "$@" >"$work/gives" || got=$?
    [ "$got" -eq "$status" ] && cmp "$work/gives" "$file"
}

# counted COMMAND..: runs a test that ends with such a line of its own, and adds its counts.
counted() {
    "$@" >"$work/counted" 2>&1 || :
    line=$(tail -n 1 "$work/counted")
    sed '$d' "$work/counted"
    case $line in
    *[0-9]' passed, '[0-9]*' failed') ;;
    *) line='0 passed, 1 failed'; tail -n 1 "$work/counted" ;;
    esac
    passed=$((passed + ${line%% *}))
    line=${line#*, }
    failed=$((failed + ${line%% *}))
}

# The closing line; the status is 0 where nothing failed.
closing() {
    echo "$passed passed, $failed failed"
    [ "$failed" -eq 0 ]
}
