#!/bin/sh
# Looks at each link of each page below a folder: it has to lead to a file that is there, and its anchor to a heading. Wants a
# shell and what every Debian has. Prints a line for each that doesn't, and the counts; the status is 1 if there is one.
cd "$1" || exit 2
room=$(mktemp -d)
trap 'rm -rf "$room"' EXIT
links=0 dead=0
find . -name '*.md' > "$room/pages"
while read -r page; do
    # Blocks of code, and code within a line, have no links.
    sed -e '/^```/,/^```/d' -e 's/``[^`]*``//g' -e 's/`[^`]*`//g' "$page" | grep -o '](\([^) ]*\))' | sed -e 's/^](//' -e 's/)$//' > "$room/links"
    while read -r link; do
        links=$((links + 1))
        to=${link%%#*} anchor=
        case $link in
            *://*) continue ;;
            *'#'*) anchor=${link#*#} ;;
        esac
        path=$(dirname "$page")/$to
        [ -n "$to" ] || path=$page
        if [ ! -e "$path" ]; then
            dead=$((dead + 1))
            echo "$page: the link to $link leads nowhere"
        elif [ -n "$anchor" ] && [ "${path%.md}" != "$path" ]; then
            sed -n 's/^#\{1,\} \(.*\)$/\1/p' "$path" | sed 's/\[\([^]]*\)\]([^)]*)/\1/g' | tr '[:upper:]' '[:lower:]' |
                sed -e 's/[^a-z0-9_ -]//g' -e 's/ /-/g' > "$room/headings"
            if ! grep -qxF -e "$anchor" "$room/headings"; then
                dead=$((dead + 1))
                echo "$page: the link to $link leads to no heading"
            fi
        fi
    done < "$room/links"
done < "$room/pages"
echo "$links links, $dead problems"
[ "$links" -gt 0 ] && [ "$dead" -eq 0 ]
