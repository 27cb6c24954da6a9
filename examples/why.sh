#!/bin/sh
# Tells the journal why desk_web ended: what its status means, and where a fault stands that settings
# or tables have. The unit calls it when the program has ended.
#
#     why.sh TABLES SETTINGS
tables=$1 settings=$2
case ${EXIT_CODE:-}:${EXIT_STATUS:-} in
exited:0) exit 0 ;;
exited:2) echo "why: the words of ExecStart are wrong: another start is no help" ;;
exited:3) echo "why: the settings have a fault: another start is no help" ;;
exited:4) echo "why: the disk, the files, memory or the port: it is started again" ;;
exited:5) echo "why: the tables have a name that the settings lack: another start is no help" ;;
*) echo "why: it was ended by ${EXIT_STATUS:-something}" ;;
esac
for file in "$settings" "$tables" "$tables-wal"; do
    if [ -e "$file" ] && [ ! -r "$file" ]; then
        echo "why: $(id -un) can't read $file, of $(stat -c '%U:%G, mode %a' "$file")"
    fi
done
if [ -e "$tables" ] && [ ! -w "$tables" ]; then
    echo "why: $(id -un) can't write $tables, of $(stat -c '%U:%G, mode %a' "$tables")"
fi
case ${EXIT_STATUS:-} in
3 | 4 | 5) desk_load --db "$tables" --settings "$settings" --check ;;
esac
exit 0
