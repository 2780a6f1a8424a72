#!/bin/sh
# Runs the daemon so that SIGTERM, SIGINT and SIGHUP stop it in order, for a shell or a container:
#
#   examples/launcher.sh gpsrelay serve gps0=file:/run/gps0
#
# It adds the words `--stop FIFO`, and its status is the daemon's. The signals may come to it alone or to its whole process group (`timeout`,
# `tini -g`, a service manager): the daemon ignores them, and is stopped by the FIFO. If the launcher is killed, the daemon stops in order too.
[ $# -gt 0 ] || { echo "usage: launcher.sh gpsrelay serve WORD .." >&2; exit 2; }
dir=$(mktemp -d) && mkfifo "$dir/stop" && exec 3<>"$dir/stop" 4<&0 || exit 1
trap 'echo >&3' TERM INT HUP
status=1
(
    trap '' TERM INT HUP
    "$@" --stop "$dir/stop"
    echo $? >"$dir/status"
    kill -0 $$ 2>/dev/null || rm -rf "$dir" # nobody is left to read it
) <&4 3>&- 4<&- &
while kill -0 $! 2>/dev/null && [ ! -s "$dir/status" ]; do # a signal ends the wait, and not the daemon
    wait $!
    status=$?
done
[ ! -s "$dir/status" ] || read -r status <"$dir/status"
rm -rf "$dir"
exit "$status"
