#!/usr/bin/env bash
# Checks the documents. What is wrong is printed with its file and line, and then the status is 1.
#
# Names. What the documents name is looked up in the sources: a name in backticks that looks like one of the code has to
# stand in some source, and a path in backticks or behind a link has to be there.
#
# Words, as 'wc -w' counts them. Each document has a budget, and may take a tenth more. All together have 39,500 words, and
# the budget of each later document and of each crate behind the fifty-eighth in addition.
#
# Sentences. At most ten of all documents have over 40 words. Tables, code blocks and headings are passed over: a table's
# line begins with a bar or follows on a line of dashes and bars, a code block stands between fences or is indented by four
# spaces where no list goes on. What is left is paragraphs and items of lists, whose lines are joined. A sentence ends at a
# word whose last letter is a point, an exclamation or a question mark, behind which brackets, quotes and stars may stand,
# and at the end of its paragraph or item. What stands in backticks ends none. Words are what lies between spaces.
#
# The page for 'man' has no warning of 'mandoc', and 600 words and a tenth at most as it is rendered.
set -uo pipefail
cd "$(dirname "$0")/.." || exit 1
export LC_ALL=C

work=$(mktemp -d) || exit 1
trap 'rm -rf "$work"' EXIT

find . -mindepth 1 \( -name .git -o -name out \) -prune -o -print | sed 's|^\./||' >"$work/paths"
grep -E '\.(rt|antt|sh|edit|script)$|(^|/)(stdin|stdout|args|crates\.txt)$' "$work/paths" | tr '\n' '\0' |
    xargs -0 grep -hoE "[A-Za-z_][A-Za-z0-9_'-]*" | sort -u >"$work/words"
grep -E '\.md$' "$work/paths" | sort >"$work/documents"

failed=0

# shellcheck disable=SC2046
awk -v paths="$work/paths" -v words="$work/words" '
    # A path, and each end of it that begins at a slash, with its ending and without.
    function add_path(path) {
        for (;;) {
            known[path] = 1
            bare = path
            if (sub(/\.(antt|rt)$/, "", bare)) known[bare] = 1
            if (!sub(/^[^\/]*\//, "", path)) break
        }
        word[path] = 1
        word[bare] = 1
    }
    function gone(what) {
        print FILENAME ":" FNR ": " what
        missing++
    }
    function look_name(name,    i, n, part) {
        n = split(name, part, "::")
        for (i = 1; i <= n; i++) if (!(part[i] in word)) { gone(name); return }
    }
    # A file by its name, or a field after the record that has it.
    function look_field(name,    i, n, part) {
        if (name in word) return
        n = split(name, part, ".")
        for (i = 1; i <= n; i++) if (!(part[i] in word)) { gone(name); return }
    }
    function look_path(path,    bare) {
        bare = path
        sub(/\/$/, "", bare)
        if (!(bare in known) && !((folder "/" bare) in known)) gone(path)
    }
    function look(token) {
        looked++
        if (token ~ /^[A-Za-z_][A-Za-z0-9_:]*$/) { if (length(token) > 2) look_name(token) }
        else if (token ~ /^[A-Za-z_][A-Za-z0-9_]*(\.[A-Za-z_]+)+$/) look_field(token)
        else if (token ~ /^[A-Za-z0-9_.-][A-Za-z0-9_.\/-]*$/ && token ~ /\//) look_path(token)
    }
    # The target of a link begins at the folder of its document.
    function look_link(target) {
        looked++
        sub(/#.*$/, "", target)
        if (target == "" || target ~ /^[a-z]+:/) return
        if (folder != ".") target = folder "/" target
        while (sub(/[^\/]+\/\.\.\//, "", target));
        sub(/\/$/, "", target)
        if (!(target in whole)) gone(target)
    }
    BEGIN {
        while ((getline line <words) > 0) word[line] = 1
        while ((getline line <paths) > 0) { whole[line] = 1; add_path(line) }
    }
    FNR == 1 { fenced = 0; folder = FILENAME; if (!sub(/\/[^\/]*$/, "", folder)) folder = "." }
    /^ *```/ { fenced = !fenced; next }
    fenced { next }
    {
        rest = $0
        while (match(rest, /`[^`]+`/)) {
            look(substr(rest, RSTART + 1, RLENGTH - 2))
            rest = substr(rest, RSTART + RLENGTH)
        }
        rest = $0
        while (match(rest, /\]\([^)]+\)/)) {
            look_link(substr(rest, RSTART + 2, RLENGTH - 3))
            rest = substr(rest, RSTART + RLENGTH)
        }
    }
    END {
        print looked " names, paths and links in the documents, " missing + 0 " of them gone"
        exit missing > 0
    }
' $(cat "$work/documents") || failed=1

# The budgets. A pattern with a star stands for each file by itself, and names with a plus between for files together. What is
# later comes on top of the total once it is there.
cat >"$work/budgets" <<'BUDGETS'
README.md                                       900
docs/MANUAL.md                                  4500
docs/PROMISES.md                                3000
docs/MODEL.md                                   1450
docs/DISK.md                                    2500
docs/FORMATS.md                                 2800
docs/COLLECTOR.md                               3500
docs/MAP.md                                     1500
docs/CHANGING.md                                1800
docs/TESTS.md                                   3500
docs/DECISIONS.md                               2200
docs/BENCHMARKS.md                              900
CHANGELOG.md+examples/README.md+CONTRIBUTING.md 2000
docs/TALK.md                                    1500  later
docs/EMBED.md                                   1800  later
docs/TOUR.md                                    600   later
crates/*/README.md                              140   58
BUDGETS
# shellcheck disable=SC2046
wc -w $(cat "$work/documents") | sed '$d' | awk -v most=39500 '
    # The words of a file, and the file.
    function wrong(what) { print what; failed = 1 }
    FILENAME != "-" && $2 != "" {
        n = split($1, names, "+")
        for (i = 1; i <= n; i++) { group[names[i]] = $1; files[$1]++ }
        budget[$1] = $2
        later[$1] = $3
        next
    }
    {
        words = $1
        name = $2
        total += words
        if (name ~ /^crates\/[^\/]*\/README\.md$/) {
            pattern = "crates/*/README.md"
            if (++crates > later[pattern]) most += budget[pattern]
            if (words * 10 > budget[pattern] * 11) wrong(name ": " words " words, and a tenth over " budget[pattern] " at most")
        } else if (name in group) {
            it = group[name]
            sum[it] += words
            if (later[it] == "later") most += budget[it]
        } else wrong(name ": " words " words, and no budget")
    }
    END {
        for (it in sum) if (sum[it] * 10 > budget[it] * 11) wrong(it ": " sum[it] " words, and a tenth over " budget[it] " at most")
        if (total > most) wrong("all documents: " total " words, and at most " most)
        print total " words in the documents, of " most
        exit failed
    }
' "$work/budgets" - || failed=1

# shellcheck disable=SC2046
awk -v most=10 '
    # Ends the sentence in which the words stand that were counted.
    function ends() {
        if (count > 40) { print file ":" first ": a sentence of " count " words"; long++ }
        count = 0
    }
    # Reads a line of a paragraph or of an item.
    function read_line(text,    i, n, word, span, out) {
        out = ""
        while (match(text, /`[^`]*`/)) {
            span = substr(text, RSTART, RLENGTH)
            gsub(/[.!?]/, "_", span)
            out = out substr(text, 1, RSTART - 1) span
            text = substr(text, RSTART + RLENGTH)
        }
        n = split(out text, word, " ")
        for (i = 1; i <= n; i++) {
            if (count == 0) { first = FNR; file = FILENAME; sentences++ }
            count++
            if (word[i] ~ /[.!?][])"*_`\047]*$/) ends()
        }
    }
    FNR == 1 { ends(); fenced = 0; table = 0; item = 0 }
    /^ *```/ { ends(); fenced = !fenced; next }
    fenced { next }
    /^[ \t]*$/ { ends(); table = 0; was_blank = 1; next }
    /^#/ { ends(); table = 0; item = 0; was_blank = 0; next }
    # A table, with bars at its ends or without. Without them its head was taken as a paragraph: its words go.
    /^ *\|/ || table { if (!table) ends(); was_blank = 0; next }
    /^ *:?-+:? *(\| *:?-+:? *)+$/ { count = 0; table = 1; next }
    # Code that is indented. Behind an item the same indent goes on with it.
    /^    / && !item && (was_blank || count == 0) { ends(); next }
    /^ *([-*]|[0-9]+\.) / { ends(); item = 1; was_blank = 0; sub(/^ *([-*]|[0-9]+\.) +/, ""); read_line($0); next }
    { if (was_blank && !/^ /) item = 0; was_blank = 0; read_line($0) }
    END {
        ends()
        print sentences " sentences, " long + 0 " of them over 40 words, of " most
        exit long > most
    }
' $(cat "$work/documents") || failed=1

if command -v mandoc >/dev/null; then
    mandoc -T lint docs/pmos.1 >"$work/lint" 2>&1
    if [ -s "$work/lint" ]; then
        cat "$work/lint"
        failed=1
    fi
    rendered=$(mandoc -T utf8 docs/pmos.1 | wc -w)
    echo "$rendered words in the page for man, of 660"
    [ "$rendered" -le 660 ] || failed=1
else
    echo "The page for man is not checked: there is no mandoc."
fi

exit "$failed"
