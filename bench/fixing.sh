#!/bin/sh
# Times the fixing price of 512 buys and 512 sells at the reference prices 1,000 and 1,000,000. The second band has
# 1,000 times as many prices; it must not take more than three times as long.
#   (cd crates/fixing_load && rt run -- 1000 1) && bench/fixing.sh [ROUNDS]
set -eu
program=$(dirname "$0")/../crates/fixing_load/out/fixing_load
rounds=${1:-200}

milliseconds() {
    begin=$(date +%s%N)
    "$program" "$1" "$rounds" > /dev/null
    echo $((($(date +%s%N) - begin) / 1000000))
}

milliseconds 1000 > /dev/null
narrow=$(milliseconds 1000)
wide=$(milliseconds 1000000)
echo "$rounds rounds: reference 1,000 in $narrow ms, reference 1,000,000 in $wide ms"
if [ "$wide" -gt $((3 * narrow)) ]; then
    echo "the wider band takes more than three times as long"
    exit 1
fi
