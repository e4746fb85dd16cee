#!/bin/sh
# Compares the keys that docs/reference/configuration.md lists, map by map, and what stands where they
# are not given, with the tables of conf_shape.
cd "$(dirname "$0")/.." || exit 1
# A row that takes several lines, as one; a match key as a row.
of_code() {
    awk '/asked!\("/ { sub(/asked!\(/, "row!("); sub(/, [A-Za-z0-9]+\)/, ", Never, Nothing)") }
        /row!\($/ { row = $0; next }
        row != "" { sub(/^ +/, " "); row = row $0; if (/^ \)/) { gsub(/\( /, "(", row); gsub(/ \)/, ")", row); print row; row = "" }; next }
        { print }' crates/conf_shape/src/tables.rt | awk '
        /^const [A-Z_]+: Table/ { map = $2; sub(":", "", map); part = "key" }
        /left_out: &\[/ { part = "left out" }
        /spellings: &\[/ { part = "spelling" }
        /^};/ { map = "" }
        map == "" { next }
        part == "key" && match($0, /(Always|Never|UnlessNumbered|UnlessBgp),? ?/) {
            given = substr($0, RSTART + RLENGTH)
        }
        part == "key" && given ~ /\)/ {
            sub(/\)[],]*$/, "", given)
            sub(/^Count\(/, "", given)
            sub(/^Spelled\("/, "", given)
            sub(/"?\)$/, "", given)
            print map, "default", given
        }
        { given = "" }
        part == "key" && !/row!\("|^ +"/ { next }
        part == "key" { sub(/(Always|Never|UnlessNumbered|UnlessBgp).*/, "") }
        {
            rest = $0
            while (match(rest, /"[^"]*"/)) {
                print map, part, substr(rest, RSTART + 1, RLENGTH - 2)
                rest = substr(rest, RSTART + RLENGTH)
            }
        }'
}
of_document() {
    awk '
        /^## / { map = ""; next }
        /^### / { map = toupper(substr($0, 5)); gsub(" ", "_", map); next }
        map == "" { next }
        # Prose between the tables names keys too.
        !/^(\| `|Left out: |Other spellings: )/ { next }
        /^\| `/ {
            given = $0
            sub(/ *\|$/, "", given)
            sub(/.*\| ?/, "", given)
            if (given == "`true`") given = "On"
            if (given == "`false`") given = "Off"
            if (given == "its key") given = "OwnKey"
            if (given == "its name") given = "OwnName"
            if (given == "") given = "Nothing"
            gsub("`", "", given)
            print map, "default", given
            part = "key"
            $0 = substr($0, 1, index(substr($0, 4), "`") + 3)
        }
        /^Left out: / { part = "left out" }
        /^Other spellings: / { part = "spelling" }
        {
            rest = $0
            while (match(rest, /`[^`]*`/)) {
                print map, part, substr(rest, RSTART + 1, RLENGTH - 2)
                rest = substr(rest, RSTART + RLENGTH)
            }
        }' docs/reference/configuration.md
}
code=$(mktemp) && document=$(mktemp) || exit 1
trap 'rm -f "$code" "$document"' EXIT
of_code > "$code"
of_document > "$document"
diff "$code" "$document" && echo "the tables agree: $(wc -l < "$code") keys"
