# What the scripts of this folder share. They source it with their own arguments, of which the first may name a program.
set -euo pipefail
here=$(cd "$(dirname "$0")" && pwd)
program=${1:-$here/../crates/aqueue/out/aqueue}
if [ ! -x "$program" ]; then
    echo "there is no program $program: build it by 'rt run' in crates/aqueue" >&2
    exit 1
fi
folder=$(mktemp -d)
trap 'rm -r "$folder"' EXIT

# Runs a command of the program on a script, and sets its status and the microseconds that it took.
measure() {
    local from
    python3 "$here/script.py" "$2" "$3" > "$folder/script"
    status=0
    from=${EPOCHREALTIME/[.,]/}
    "$program" "$1" < "$folder/script" > "$folder/output" 2>&1 || status=$?
    took=$((${EPOCHREALTIME/[.,]/} - from))
}

speed() {
    measure "$1" "$2" "$3"
    local bytes
    bytes=$(stat -c %s "$folder/script")
    awk -v shape="$2" -v size="$3" -v bytes="$bytes" -v took="$took" -v status="$status" \
        'BEGIN { printf "%-10s %8d: %8d bytes, %7.3f seconds, %9.0f bytes a second, status %d\n", shape, size, bytes, took / 1e6, bytes * 1e6 / took, status }'
}

depth() {
    measure replay "$1" "$2"
    printf '%-10s %8d: status %d\n' "$1" "$2" "$status"
}
