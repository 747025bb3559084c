#!/bin/sh
# Drives a fleet over two named pipes: each robot goes on as soon as it is released, until all stand at the ends of their paths.
# Usage: examples/client.sh FLEET MAP PLAN JOURNAL
pipes=$(mktemp -d) && trap 'rm -r "$pipes"' EXIT
mkfifo "$pipes/reports" "$pipes/answers"
"$1" run "$2" "$3" "$4" <"$pipes/reports" >"$pipes/answers" &
exec 3>"$pipes/reports" 4<"$pipes/answers"
due=1
while [ "$due" -gt 0 ] && IFS= read -r line <&4; do
    echo "$line"
    set -- $line
    case $1 in
    ready) echo "arrive 0 0 $(date +%s)" >&3 ;; # known: its answer comes behind the whole greeting
    release) echo "arrive $2 $3 $(date +%s)" >&3 && due=$((due + 1)) ;;
    ok | known | refused) due=$((due - 1)) ;;
    esac
done
exec 3>&-
wait $!
