#!/bin/sh
# Copies a site while it is served.
#
#     examples/copy_site.sh SITE COPY
#
# Whoever serves a site holds SQLite's lock on its file, so `.backup` of sqlite3 says that the database is locked. What the site has kept lies in two
# files: SITE, and the log behind it, SITE-wal. Rows are written one behind the other into the log. When that is long, its pages are copied into SITE,
# and then it begins anew, with another head (its first 32 bytes). So a copy of SITE, and then of the log, is whole where the log had the same head
# before and after: each page that was put into SITE meanwhile is then in the copied log too. Where the head was another, both are copied again.
#
# sqlite3 then opens the copy, which puts the log's rows into it, and looks it over. One file is left, with at least the rows that were kept when the copy
# was begun.
set -eu

if [ $# -ne 2 ]; then
    echo "usage: $0 SITE COPY" >&2
    exit 2
fi
site=$1
copy=$2
part=$copy.part
if [ -e "$copy" ] || [ -e "$copy-wal" ]; then
    echo "$copy is there already" >&2
    exit 1
fi

log_head() {
    if [ -e "$site-wal" ]; then
        head -c 32 "$site-wal" | od -A n -t x1
    fi
}

# Copies both files, and fails where the log began anew meanwhile.
copy_both() {
    rm -f "$part" "$part-wal" "$part-shm"
    before=$(log_head)
    cp -- "$site" "$part"
    if [ -e "$site-wal" ]; then
        cp -- "$site-wal" "$part-wal"
    fi
    [ "$before" = "$(log_head)" ]
}

tries=1
until copy_both; do
    if [ $tries -ge 50 ]; then
        rm -f "$part" "$part-wal"
        echo "the log of $site began anew during each of $tries copies" >&2
        exit 1
    fi
    tries=$((tries + 1))
    sleep 0.1
done

found=$(sqlite3 "$part" 'pragma integrity_check; select count(*) = ifnull(max(seq), 0) from kept')
if [ "$found" != "ok
1" ] || [ -s "$part-wal" ]; then
    echo "the copy $part isn't whole: $found" >&2
    exit 1
fi
rm -f "$part-wal" "$part-shm"
sync "$part"
mv -- "$part" "$copy"
