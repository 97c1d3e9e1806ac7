# Runs rt in a crate's folder, and shows a line for each crate as it is proved; all that rt said where it fails. Usage: crate_lines.sh rt WORDS
room=$(mktemp -d) || exit 2
trap 'rm -rf "$room"' EXIT
{ "$@" 2>&1; echo $? > "$room/status"; } | while IFS= read -r line; do
    printf '%s\n' "$line" >> "$room/said"
    case $line in
        "crate "*:*) crate=${line#crate }; crate=${crate%%:*} ;;
        logic=proved*) printf '  %s proved\n' "$crate" ;;
    esac
done
status=$(cat "$room/status")
[ "$status" = 0 ] || cat "$room/said"
exit "$status"
