#!/bin/sh
# Asks the desk_web on a port to copy its tables, and tries that the copy is whole.
#
#     copy.sh PORT HEADER COPY
#
# COPY is what `--copies` says. HEADER is a file with the one line "Desk-Token: ..", of a person who
# holds SuperUser on all queues.
set -eu
port=$1 header=$2 copy=$3
curl --fail --silent --show-error --max-time 600 --output /dev/null --request POST \
    --header "@$header" "http://127.0.0.1:$port/copy"
[ "$(sqlite3 "$copy" 'PRAGMA integrity_check')" = ok ]
