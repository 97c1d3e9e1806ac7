# What the archive defines and what it needs of its surroundings. Usage: archive.sh FILE
set -e
fail() {
    echo "FAILED archive: $1"
    exit 1
}
defined=$(nm -g --defined-only "$1" | awk 'NF == 3 { print $3 }' | sort -u)
for entry in check_plan check_queue most_kept plan split table_entries version; do
    echo "$defined" | grep -qx "kippertarn_$entry" || fail "no kippertarn_$entry"
done
needed=$(nm -u "$1" | awk 'NF == 2 { print $2 }' | sort -u | while read -r name; do
    echo "$defined" | grep -qx "$name" || echo "$name"
done)
for name in $needed; do
    case $name in
    memcpy | memmove | memset | memcmp) ;; # a compiler asks these of every target
    *) fail "needs $name" ;;
    esac
done
writable=$(nm "$1" | awk 'NF == 3 && $2 ~ /^[bBdDcC]$/ { print $3 }')
[ -z "$writable" ] || fail "keeps state in $writable"
echo "archive: seven entries, no state, needs:" ${needed:-nothing}
