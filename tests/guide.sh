# The guide: made from what the verbs say, the man page from it; each number explained; its recipes do what it says. Sourced by tests/run.

got docs/make --check
is "docs/GUIDE.md and docs/capellanote.1 are up to date" 0 "" ""
if command -v man >/dev/null && command -v groff >/dev/null; then
    got env LC_ALL=C MANWIDTH=100 man -l docs/capellanote.1
    [ "$status" = 0 ] && grep -q '^NAME' "$room/out" && grep -q "capellanote fetch \[--tsv\]" "$room/out" && ok || bad "the man page" "man does not show it: $(head -c 300 "$room/err")"
fi
missing=$(sed -n 's/^    \([0-9]*\)) echo.*/\1/p' command/says.sh | sort -nu | while read -r no; do
    grep -q "^| $no |" docs/GUIDE.md || echo "$no"
done)
[ -z "$missing" ] && ok || bad "docs/GUIDE.md" "it does not say what these numbers mean: $(echo $missing)"

# The recipes: a heading with the tools that it needs, a command, and what it writes.
mkdir "$room/guide"
awk -v room="$room/guide" '
    /^## / { inside = $0 == "## Recipes" }
    !inside { next }
    /^### / {
        n++
        part = ""
        tools = match($0, /\([^)]*\)$/) ? substr($0, RSTART + 1, RLENGTH - 2) : ""
        print tools >(room "/" n ".tools")
        print substr($0, 5) >(room "/" n ".name")
        next
    }
    /^    / { if (part == "") part = "command"; if (part == "writes") part = "expected"; print substr($0, 5) >(room "/" n "." part); next }
    /^writes$/ { part = "writes" }
    /^[^ ]/ && part == "expected" { part = "done" }
    ' docs/GUIDE.md
cp examples/sample.sdf "$room/guide/delivery.sdf"
for command in "$room"/guide/*.command; do
    recipe=${command%.command}
    lacks=
    for tool in $(cat "$recipe.tools"); do
        case $tool in
        pandas) python3 -c 'import pandas' 2>/dev/null || lacks=$tool ;;
        *) command -v "$tool" >/dev/null || lacks=$tool ;;
        esac
    done
    if [ -n "$lacks" ]; then
        echo "tests/guide.sh: no $lacks: not tried: $(cat "$recipe.name")"
        continue
    fi
    (cd "$room/guide" && PATH=$OLDPWD:$PATH sh "$command") >"$room/out" 2>"$room/err"
    status=$?
    is "recipe: $(cat "$recipe.name")" 0 "$(cat "$recipe.expected")" ""
done
