#!/bin/sh
# The gate, `rt ci`, and one thing more: it fails also where a must-fail edit no longer applies to the code (a bad edit),
# which the gate itself lets pass. To be run at the top of the repository.
log=$(mktemp)
status=$(mktemp)
trap 'rm -f "$log" "$status"' EXIT
{
    rt ci 2>&1
    echo $? > "$status"
} | tee "$log"
if grep -q '^rt: ok.*, [1-9][0-9]* bad' "$log"; then
    echo 'a must-fail edit is bad: it counts for nothing'
    exit 1
fi
exit "$(cat "$status")"
