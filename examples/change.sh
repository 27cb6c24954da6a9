#!/bin/sh
# Puts new settings in place of those of a running desk, where nothing is wrong with them and with the
# tables. The old ones stay as settings.toml.before.
#
#     change.sh NEW
#
# What is wrong with the settings alone is told while the desk runs. Then it is stopped for as long as
# its tables are read, and started with the new settings, or with those that it had.
set -eu
new=$1 settings=${2:-/etc/desk/settings.toml} tables=${3:-/var/lib/desk/desk.db}
umask 077
install -m 640 -g desk "$new" "$settings.new"
check() {
    runuser -u desk -- desk_load --db "$1" --settings "$settings.new" --check
}
# no file has this name, so there are no tables to look at
told=$(check "$tables.none") || {
    echo "$told"
    exit 1
}
trap 'exit 130' HUP INT TERM
trap 'systemctl start desk-web' EXIT
systemctl stop desk-web
check "$tables" || exit 1
cp -p "$settings" "$settings.before"
mv "$settings.new" "$settings"
