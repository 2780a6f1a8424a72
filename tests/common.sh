# What the shell scripts over the built program share. Use: . common.sh, in a script whose first word is PROGRAM.
# It sets $program, $samples and $place, a folder that is removed at the end; a script ends with `exit $failed`.
set -u
program=$(readlink -f "${1:?the path of the built program}")
samples=$(dirname "$(readlink -f "${BASH_SOURCE[0]}")")/../samples
place=$(mktemp -d)
trap 'rm -rf "$place"' EXIT
failed=0

# check NAME WANTED FOUND
check() {
    if [ "$2" = "$3" ]; then echo "ok      $1"; else echo "FAILED  $1: wanted '$2', found '$3'"; failed=1; fi
}

# run WORD..: runs the program on $place/in; its output, its errors and its status are left in $place and $status
run() {
    "$program" "$@" <"$place/in" >"$place/out" 2>"$place/err"
    status=$?
}

# summed BODY: the sentence of this body, with its sum and without a line end, in $summed
summed() {
    local sum=0 at code
    for ((at = 0; at < ${#1}; at++)); do printf -v code '%d' "'${1:at:1}"; sum=$((sum ^ code)); done
    printf -v summed '$%s*%02X' "$1" "$sum"
}
