#!/bin/sh
# Mails the requests that are late, as one who may show them is told; nothing where none is late.
#
#     overdue.sh DESK HEADER SMTP FROM TO
#
# HEADER is a file with the one line "Desk-Token: ..", so that no list of processes tells the token.
set -eu
desk=$1 header=$2 smtp=$3 from=$4 to=$5
late=$(curl --fail --silent --show-error --max-time 60 --header "@$header" "$desk/overdue")
# the first line is the header of the list
count=$(($(printf '%s\n' "$late" | wc -l) - 1))
[ "$count" -gt 0 ] || exit 0
printf 'From: %s\r\nTo: %s\r\nSubject: %s late\r\nDate: %s\r\n\r\n%s\n' \
    "$from" "$to" "$count" "$(date -R)" "$late" |
    curl --silent --show-error --max-time 60 --mail-from "$from" --mail-rcpt "$to" \
        --upload-file - "$smtp"
