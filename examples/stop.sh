#!/bin/sh
# Asks the desk_web on a port to stop, and waits until its process has gone.
#
#     stop.sh PORT HEADER PID
#
# HEADER is a file with the one line "Desk-Token: ..", of a person who holds SuperUser on all queues.
set -eu
port=$1 header=$2 pid=$3
curl --fail --silent --show-error --max-time 5 --output /dev/null --request POST \
    --header "@$header" "http://127.0.0.1:$port/stop"
while kill -0 "$pid" 2>/dev/null; do sleep 0.1; done
