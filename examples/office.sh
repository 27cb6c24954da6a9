#!/bin/sh
# The office of office.toml, one command after the other on a file of tables, with its lists and
# reports. It needs `make desk` first; the file is office.tables beside this one, or the one named.
cd "$(dirname "$0")" || exit 1
tables=${1:-office.tables}

# as CALLER MOMENT COMMAND ..
as() {
    caller=$1
    moment=$2
    shift 2
    ../bin/desk --db "$tables" --settings office.toml --caller "$caller" --at "$moment" "$@"
}

# Friday, 20 November 2026: the queues are opened at noon UTC, and two requests filed
as dora 29919600 queue support default standard
as dora 29919600 queue purchases purchase
as ann 29919660 create support "The printer on the second floor is jammed"
as ben 29919670 create purchases "A chair for room 12"
as bob 29919680 take 1
# what there is in a queue, as one who may show it sees it
as bob 29919690 ls support
# ann may see the queue, and of its requests her own
as ann 29919690 ls support
# Monday at noon in the office the answer is due; a minute later it is late
as bob 29923861 overdue
as bob 29923861 workload
