#!/bin/sh
# Serves a session over real files, and again over two named pipes that a client holds open. The binary is the one
# that the program's own run reads.
top=$(cd "$(dirname "$0")/.." && pwd)
room=$(mktemp -d)
trap 'rm -rf "$room"' EXIT
binary=$top/crates/wcet/data/row1.elf
script=$top/crates/wcet/data/session.txt
"$top/wcet" serve "$binary" - - "$script" "$room/out" >"$room/report" || exit 1
echo "replies:"
cat "$room/out"
echo "report:"
cat "$room/report"

# The server opens the pipe of the script first, and then that of the replies.
mkfifo "$room/to" "$room/from"
"$top/wcet" serve "$binary" - - "$room/to" "$room/from" >"$room/report" &
exec 3>"$room/to" 4<"$room/from"
for line in 'bound f' 'list' 'quit'; do
    echo "$line" >&3
done
echo "replies over pipes:"
cat <&4
exec 3>&- 4<&-
wait $! && tail -n 1 "$room/report"
