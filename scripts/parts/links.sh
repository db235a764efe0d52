# The links of pages, for scripts/check-docs and for the packages.

# A heading as it stands behind `#` in a link.
anchors() {
    sed -n 's/^##* //p' "$1" | tr '[:upper:]' '[:lower:]' | sed 's/[^a-z0-9 _-]//g; s/ /-/g'
    sed -n 's/.*<a id="\([^"]*\)">.*/\1/p' "$1"
}

# The links of a page into files, each once. Code between back-quotes has none.
links() {
    sed 's/`[^`]*`//g' "$1" | grep -o '](\([^) ]*\))' | sed 's/^](//; s/)$//' | grep -v '^https\{0,1\}://' | sort -u
}

# The file that a link of a page leads to, without its heading: target PAGE LINK
target() {
    case $1:${2%%#*} in
    *:) echo "$1" ;;
    */*:*) echo "${1%/*}/${2%%#*}" ;;
    *) echo "${2%%#*}" ;;
    esac
}

# Says which links of these pages lead to no file or to no heading: dead PAGE..
dead() {
    for page; do
        links "$page" | sed 's/#.*//' | sort -u | while IFS= read -r to; do
            file=$(target "$page" "$to")
            if ! [ -e "$file" ]; then
                echo "$page: $to leads nowhere"
                continue
            fi
            headings=$(links "$page" | awk -F '#' -v to="$to" '$1 == to && NF > 1 { print $2 }')
            [ -z "$headings" ] || printf '%s\n' "$headings" | grep -vxF -e "$(anchors "$file")" |
                sed "s|.*|$page: $to#& has no such heading|"
        done
    done
}

# Makes plain text of each link of a page that leads to no file, with the file's place in the sources: plain PAGE, from the
# folder that stands for the top of the sources.
plain() {
    links "$1" | while read -r link; do
        file=$(target "$1" "$link")
        if ! [ -e "$file" ]; then
            printf 's|\\[\\([^][]*\\)\\](%s)|\\1 (%s of the sources)|g\n' \
                "$(printf '%s\n' "$link" | sed 's/[.[*^$\\]/\\&/g')" "$(realpath -m --relative-to=. "$file")"
        fi
    done | sed -i -f - "$1"
}
