# shellcheck shell=bash
# Sourced by what tries edits: applies one to the files below a folder. An edit is lines `file:`, `old:`, `new:`, as those of `rt must-fail`; each `old:`
# text stands exactly once in its file.
apply() { # EDIT FOLDER
    local line file='' old='' pairs=0
    while IFS= read -r line || [ -n "$line" ]; do
        case $line in
        'file: '*) file=$2/${line#file: } ;;
        'old: '*) old=${line#old: } ;;
        'new:'*)
            line=${line#new:}
            OLD=$old NEW=${line# } awk '
                { text = text $0 "\n" }
                END {
                    old = ENVIRON["OLD"]
                    at = index(text, old)
                    rest = substr(text, at + length(old))
                    if (!at || old == "" || index(rest, old)) exit 3
                    printf "%s%s%s", substr(text, 1, at - 1), ENVIRON["NEW"], rest
                }' "$file" >"$file.edited" || { echo "not exactly once in $file: $old"; return 1; }
            mv "$file.edited" "$file"
            pairs=$((pairs + 1))
            ;;
        esac
    done <"$1"
    [ "$pairs" -gt 0 ]
}
