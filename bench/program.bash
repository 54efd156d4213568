# Sets `program` to the build of `lbnfchart` that a measure is of: the first word of the script that
# reads this file, or else the one that stands here, which is built first where it has to be.
root=$(cd -- "$(dirname -- "${BASH_SOURCE[0]}")/.." && pwd)
program=${1:-$root/crates/lbnfchart/out/lbnfchart}

# With no word the program writes a line and ends with status 1.
if [[ $# -eq 0 ]]; then
    "$root/bin/lbnfchart" </dev/null >/dev/null || [[ $? -eq 1 ]] || exit 2
fi
