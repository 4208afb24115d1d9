# What the examples of commands on a directory begin with: a folder of their own, which is removed in the end, and a
# function that tells a command before what it writes, and its exit status behind that.
set -u
program=$(dirname "$(readlink -f "${BASH_SOURCE[0]}")")/../bin/zonefs
folder=$(mktemp -d) || exit 1
trap 'rm -rf "$folder"' EXIT
cd "$folder" || exit 1

zonefs() {
    echo "\$ zonefs $*"
    "$program" "$@"
    echo "exit status $?"
}
