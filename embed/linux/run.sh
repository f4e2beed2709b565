#!/bin/sh
# run.sh SCENARIOS LIVE LOGS SEEDS [NAME..]
# Plays the scenarios plain and under each seed, and ends with the sum of what passed and failed.
set -u
scenarios=$1 live=$2 logs=$3 seeds=$4
shift 4
here=$(cd "$(dirname "$0")" && pwd)
[ -x "$live" ] || { echo "run.sh: there is no program $live; README.md says how it is made" >&2; exit 2; }
mkdir -p "$logs"
passed=0 failed=0
for seed in 0 $seeds; do
	[ "$seed" = 0 ] && echo "plain" || echo "seed $seed"
	"$scenarios" "$live" "$here/../../examples/applications" "$here/applications" "$logs" "$seed" "$@" >"$logs/run.$seed"
	sed '$d' "$logs/run.$seed"
	sum=$(tail -n 1 "$logs/run.$seed")
	passed=$((passed + ${sum%% passed*}))
	sum=${sum#*, }
	failed=$((failed + ${sum%% failed*}))
done
echo "$passed passed, $failed failed"
[ "$failed" = 0 ]
