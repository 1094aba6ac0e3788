# The pages under docs/ name files, functions and wrong programs that are there. Sourced by tests/run.

# Every crate's file that a page names, as `rules/specs/Record` or `crates/rules/must-fail`.
missing=$(grep -ohE '`(crates/)?[a-z_]+/(specs|src|proofs|must-fail)(/[A-Za-z_.]+)?' docs/*.md README.md | tr -d '\140' | sed 's,^crates/,,' | sort -u |
    while read -r name; do
        [ -e "crates/$name" ] || [ -e "crates/$name.antt" ] || echo "$name"
    done)
if [ -z "$missing" ]; then ok; else bad "files that docs/ names" "$(echo $missing)"; fi

# Every wrong program in the table of entry points, and the other way round.
listed=$(sed -n '/^## Wrong programs/,/^## Wrong rules/p' docs/PROMISES.md | grep '^|' | grep -oE '`[a-z0-9_]+`' | tr -d '\140' | sort -u)
missing=$(for name in $listed; do
    [ -d "crates/$name" ] || ls crates/*/must-fail/"$name".edit >/dev/null 2>&1 || echo "$name"
done)
if [ -z "$missing" ]; then ok; else bad "wrong programs that docs/PROMISES.md names" "$(echo $missing)"; fi

# Every function of a crate that a page names, as `reader_check::check`.
missing=$(grep -ohE '`[a-z_]+::([A-Z][A-Za-z]+::)?[a-z_]+' docs/*.md README.md | tr -d '\140' | sort -u |
    while IFS= read -r name; do
        crate=${name%%::*} function=${name##*::}
        [ -d "crates/$crate" ] || continue
        grep -qE "fn $function\b" -r "crates/$crate/src" || echo "$name"
    done)
if [ -z "$missing" ]; then ok; else bad "functions that docs/ names" "$(echo $missing)"; fi

# Every definition, law, type and wrong program that docs/PROMISES.md and docs/TRUST.md name, as `one_promise` or `Checked.accepts`.
{
    grep -rhoE "[A-Za-z][A-Za-z0-9_-]*" --include='*.antt' --include='*.rt' crates
    find crates -name '*.antt' -o -name '*.edit' | sed 's,.*/,,; s,\.[a-z]*$,,'
    ls crates
} | sort -u >"$room/words"
missing=$(grep -ohE '`[A-Za-z][A-Za-z0-9_-]*(\.[a-z][a-z_-]*)?`' docs/PROMISES.md docs/TRUST.md | tr -d '\140' | tr . '\n' | sort -u | comm -23 - "$room/words")
if [ -z "$missing" ]; then ok; else bad "definitions and laws that docs/ names" "$(echo $missing)"; fi
