# What the shell scripts of tests/ start with: they read it by `.`. A script has a room of its own, which goes
# when it ends, and counts what fails.
set -eu

here=$(CDPATH='' cd -- "$(dirname -- "$0")" && pwd -P)
script=$(basename -- "$0")
room=$(mktemp -d)
trap 'rm -rf "$room"' EXIT
trap 'exit 1' HUP INT TERM
failures=0

# fail WHY: tells a failure, and goes on.
fail() {
    echo "$script: FAILED: $1" >&2
    failures=$((failures + 1))
}

# finish TEXT: ends the script; where nothing failed it says TEXT.
finish() {
    if [ "$failures" -gt 0 ]; then
        echo "$script: $failures failed" >&2
        exit 1
    fi
    echo "$script: $1"
    exit 0
}
