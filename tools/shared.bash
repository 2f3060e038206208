# What the script `snp` and its tools have in common: where things stand, how they fail, and what a program was made of.
# It is sourced by them, and needs the variable `top`: the folder of the repository, or of an unpacked archive.

program=$top/crates/snp_cli/out/snp_cli
# what the program was made of, as lines of a word and its value:
#   program   the SHA-256 of the program
#   sources   that of its sources, as `sources_sum` has it
#   kit       the line of the kit that proved them
#   by        what had it proved: `./snp build`, or `.ci/run`, the whole gate
note=$program.made_of

# the statuses of the script's own, which docs/FORMATS.md lists; the program's are below 100
misused=101
nothing_to_run=102
not_proved=103
no_answer=104
kit_failed=105
other_sources=106
not_written=107

# Says why this ends, in a line on standard error, and ends with a status.
fail() {
    echo "snp: $2" >&2
    exit "$1"
}

# Whether the sources stand here: an archive has none.
has_sources() {
    [ -f "$top/crates.txt" ]
}

has_kit() {
    command -v rt >/dev/null
}

# What the note beside the program says under a word; nothing where it says nothing.
noted() {
    local word value
    [ -f "$note" ] || return 0
    while read -r word value; do
        [ "$word" != "$1" ] || echo "$value"
    done <"$note"
}

sum_of() {
    sha256sum <"$1" | cut -d ' ' -f 1
}

# The crates that the program is made of, each behind those that it stands on.
crates_of_program() {
    awk '
        { sub(/#.*/, "") }
        /:/ { cut = index($0, ":"); split(substr($0, 1, cut - 1), head, " "); below[head[1]] = substr($0, cut + 1) }
        function visit(name,    names, count, k) {
            if (!(name in below) || name in seen) return
            seen[name] = 1
            count = split(below[name], names, " ")
            for (k = 1; k <= count; k++) visit(names[k])
            print name
        }
        END { visit("snp_cli") }' "$top/crates.txt"
}

# One sum of all that the program is proved and built of: HANDLES, and of each of its crates the line of crates.txt and the files
# below src/, specs/, proofs/ and c/. What is only tried with it, as must-fail edits, is no part of it, nor are other crates.
sources_sum() (
    cd "$top" && mapfile -t names < <(crates_of_program | LC_ALL=C sort) && [ "${#names[@]}" -gt 0 ] || exit 1
    folders=()
    for name in "${names[@]}"; do
        for part in src specs proofs c; do
            [ ! -d "crates/$name/$part" ] || folders+=("crates/$name/$part")
        done
    done
    {
        sha256sum HANDLES
        for name in "${names[@]}"; do
            grep "^$name[ :]" crates.txt
        done
        find "${folders[@]}" -type f -print0 | LC_ALL=C sort -z | xargs -0 sha256sum
    } | sha256sum | cut -d ' ' -f 1
)

# How the program stands to the sources that are here, in one word: `same` or `other`, `unknown` where no note of this very
# program says what it was made of, or `apart` where there are no sources. Where nothing was touched since the note was written
# or last found right, no sum is computed.
standing() {
    local looked
    has_sources || { echo apart; return; }
    [ -f "$note" ] || { echo unknown; return; }
    if [ -n "$(find "$program" "$top/HANDLES" "$top/crates.txt" "$top/crates" -path '*/out' -prune -o -cnewer "$note" -print -quit 2>&1)" ]; then
        looked=$(date +%s.%N)
        [ "$(sum_of "$program")" = "$(noted program)" ] || { echo unknown; return; }
        [ "$(sources_sum)" = "$(noted sources)" ] || { echo other; return; }
        touch -d "@$looked" "$note" 2>/dev/null
    fi
    echo same
}

# Notes beside the program which sources it was made of, by which kit, and what had it proved.
write_note() {
    local sources=$1 by=$2 looked
    looked=$(date +%s.%N)
    [ "$(sources_sum)" = "$sources" ] || fail "$other_sources" 'the sources have changed meanwhile, so nothing is noted beside the program'
    {
        echo "program $(sum_of "$program")"
        echo "sources $sources"
        echo "kit $(rt version)"
        echo "by $by"
    } >"$note.new" && touch -d "@$looked" "$note.new" && mv "$note.new" "$note" || fail "$not_written" "$note can't be written"
}
