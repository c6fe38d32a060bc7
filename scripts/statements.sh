#!/usr/bin/env bash
# docs/STATEMENTS.md against the repository, both ways. Fails where the page
# - names something that stands nowhere: a definition, a law, a contract, an edit, a file or a test. A name by itself is looked for in the
#   file or the crate named before it in its cell, then among programs and tests;
# - leaves out something that it owes its reader: a function that `zolbine` exports; an edit of crates/*/must-fail or of mutations/; a row
#   "| NUMBER WORD" for a number of `refusal`; a public law of a file of claims (below); a public law of another file that nothing cites. A
#   law is there for another one or for the reader: one that is neither goes.
set -euo pipefail
cd "$(dirname "$0")/.."
page=${1:-docs/STATEMENTS.md}
claims='claims/specs/Claim claims/specs/Once claims/specs/Made claims/specs/NotRefused paper/specs/Claim paper/specs/Happens'
claims="$claims protocol/specs/Order protocol/specs/Figures protocol/specs/SignatureClaim protocol/specs/NoteClaim zolbine/specs/Refused"
claims="$claims examples/specs/SplitProof examples/specs/Fleets claims/specs/Before claims/specs/Gain claims/specs/Power"
claims="$claims claims/specs/Culprits claims/specs/OldPacks claims/specs/Joined paper/specs/First"
claims="$claims dispatch_claims/specs/Answers dispatch_claims/specs/Tickets dispatch_claims/specs/Waits dispatch_claims/specs/LongestAgo"
claims="$claims dispatch_claims/specs/SevenReached"

{
    find crates/*/specs crates/*/src crates/*/proofs crates/*/must-fail mutations scripts harness/data harness/tests -print | sed 's/^/path /'
    # each declaration as FILE: NAME, each function as CRATE::MODULE::NAME or, in an impl, CRATE::MODULE::TYPE::NAME, and what is owed of them
    LC_ALL=C awk -v claims="$claims" '
        BEGIN { count = split(claims, list); for (i = 1; i <= count; i++) of_claims[list[i]] }
        FNR == 1 {
            file = FILENAME
            sub(/^crates\//, "", file)
            sub(/\.(antt|rt)$/, "", file)
            code = file ~ /\/src\//
            # a law stands in specs/ or, in a file of laws, right in proofs/
            spec = file ~ /\/specs\// || file ~ /^[^\/]*\/proofs\/[^\/]*$/
            module = file
            sub(/\/src\/(lib|main)$/, "", module)
            sub(/\/src\//, "::", module)
            gsub(/\//, "::", module)
            split("", alias)
            current = ""
            depth = 1000
            exported = 0
            type = ""
        }
        # what a file takes from another: names in a list, or all by a short name
        /^ *((ghost|pub|unfoldable) )*use Rattle/ {
            line = $0
            sub(/^.*use Rattle[^a-z]*/, "", line)
            crate = line
            sub(/[^a-z0-9_].*/, "", crate)
            if (!match(line, /\.(specs|proofs)\./)) next
            line = substr(line, RSTART + 1)
            from = line
            sub(/(\.\{| as ).*/, "", from)
            gsub(/\./, "/", from)
            from = crate "/" from
            if (!sub(/^[^{]*\{/, "", line)) { alias[from]; next }
            sub(/\}.*/, "", line)
            count = split(line, item, /, */)
            for (i = 1; i <= count; i++) {
                sub(/ as .*/, "", item[i])
                cited[from ": " item[i]]
            }
            next
        }
        # what an attribute of tactics takes: `crate::proofs::Runs::law`
        code && /^ *#!?\[tactic\(/ {
            line = $0
            while (match(line, /[a-z0-9_]+::(specs|proofs)::[A-Za-z0-9_:]+/)) {
                from = substr(line, RSTART, RLENGTH)
                line = substr(line, RSTART + RLENGTH)
                if (from ~ /^crate::/) { crate = file; sub(/\/.*/, "", crate); sub(/^crate/, crate, from) }
                gsub(/::/, "/", from)
                sub(/\/[^\/]*$/, ": &", from)
                sub(/: \//, ": ", from)
                cited[from]
            }
            next
        }
        code && /^#\[unsafe\(no_mangle\)\]/ { exported = 1; next }
        # a method is CRATE::MODULE::TYPE::NAME
        code && /^impl/ {
            type = $0
            sub(/ *\{.*/, "", type)
            sub(/<[^ ]*$/, "", type)
            sub(/.* /, "", type)
            type = type "::"
            next
        }
        code && /^}/ { type = "" }
        # the numbers of `refusal`: the cases of its enum and, retired, its constant
        module == "refusal" && /^    [A-Z][A-Za-z]* = [0-9]+,$/ {
            name = $1
            gsub(/[A-Z]/, " &", name)
            print "number " $3 + 0 tolower(name)
            next
        }
        code && match($0, /(^|[ \t])(fn|struct|enum|const) [A-Za-z0-9_]+/) {
            name = substr($0, RSTART, RLENGTH)
            sub(/.* /, "", name)
            print "name " module "::" type name
            if (exported && module == "zolbine") print "owed " module "::" name
            exported = 0
            if (module == "refusal" && /^pub const /) {
                gsub(/_/, " ", name)
                number = $0
                gsub(/.*= |;.*/, "", number)
                print "number " number " " tolower(name)
            }
            next
        }
        code || /^ *$/ || /^ *--/ { next }
        {
            line = $0
            match(line, /^ */)
            indent = RLENGTH
            keywords = ""
            while (match(line, /^ *(unfoldable|abbrev|pub|record|data|module|mod) /)) {
                keywords = keywords substr(line, RSTART, RLENGTH)
                line = substr(line, RLENGTH + 1)
            }
            sub(/^ */, "", line)
            name = line
            sub(/ .*/, "", name)
            if (spec && line ~ /^[^ (){}:;]+ (.*)?:/) print "name " file ": " name
            # declarations one after another, each with the lines below it that stand deeper
            if (keywords ~ /module/) { current = ""; depth = 1000 }
            else if (indent <= depth && name != "unfolding" && name != "where") {
                current = name
                depth = indent
                if (spec && keywords ~ /^ *pub $/ && line ~ /^[^ (){}:;]+ (.*)?:/) laws[++law_count] = file ": " name
            }
            # the names that a declaration cites; a word after a point is a field, or taken by a short name
            count = split(line, word, /[ \t(){},;]+/)
            for (i = 1; i <= count; i++) {
                if (word[i] !~ /\./) { if (word[i] != current) cited[file ": " word[i]] }
                else if (word[i] !~ /^\./) {
                    sub(/.*\./, "", word[i])
                    for (from in alias) cited[from ": " word[i]]
                }
            }
        }
        END {
            for (i = 1; i <= law_count; i++) {
                file = laws[i]
                sub(/: .*/, "", file)
                if (file in of_claims || !(laws[i] in cited)) print "owed " laws[i]
            }
        }' $(find crates/*/specs crates/*/src crates/*/proofs -name '*.antt' -o -name '*.rt') scripts/mutations.sh
    sed 's/^/line /' "$page"
} | LC_ALL=C awk -v page="$page" '
    $1 == "path" {
        paths[$2]
        if ($2 !~ /\.edit$/) next
        name = $2
        gsub(/^crates\/|must-fail\/|\.edit$/, "", name)
        owed[++owed_count] = name
        next
    }
    $1 == "name" {
        name = substr($0, 6)
        names[name]
        crate = name
        sub(/[\/:].*/, "", crate)
        word = name
        sub(/.*: /, "", word)
        sub(/.*::/, "", word)
        within[crate " " word] = within[crate " " word] "\n" name
        next
    }
    $1 == "owed" { owed[++owed_count] = substr($0, 6); next }
    $1 == "number" {
        words[$2] = substr($0, 9 + length($2))
        if (last < $2 + 0) last = $2 + 0
        next
    }
    function stands(path) { return path in paths }
    function wrong(what) { printf "%s:%d: `%s` stands nowhere\n", page, row, what; failed = 1 }
    # one name of the page, in the place that was named before it in its cell
    function look(what,    list, count, i, base) {
        if (what ~ /^std::/ || what !~ /^[A-Za-z+]/ || what ~ / : / || what ~ /^[^:{]* [^:{]*$/) return
        if (what ~ /::\{/) {
            base = what
            sub(/\{.*/, "", base)
            list = what
            gsub(/.*\{|\}/, "", list)
            count = split(list, parts, /, */)
            for (i = 1; i <= count; i++) expand[i] = base parts[i]
            for (i = 1; i <= count; i++) look_one(expand[i])
            return
        }
        look_one(what)
    }
    function look_one(what,    base, word, list, count, i) {
        seen[what]
        if (what ~ /::/) {
            crate = what
            sub(/::.*/, "", crate)
            file = ""
            if (!(what in names)) wrong(what)
        } else if (what ~ /: /) {
            base = what
            sub(/: .*/, "", base)
            word = what
            sub(/.*: /, "", word)
            crate = base
            sub(/\/.*/, "", crate)
            file = base
            if (base ~ /\.rt$/) { if (!stands("crates/" base) || !((crate " " word) in within)) wrong(what) }
            else if (!(what in names)) wrong(what)
        } else if (what ~ /\//) {
            base = what
            sub(/\/\*?$/, "", base)
            word = base
            sub(/\//, "/must-fail/", word)
            if (stands("crates/" base ".antt")) { file = base; crate = base; sub(/\/.*/, "", crate) }
            else if (!stands(base) && !stands(base ".edit") && !stands("crates/" base) && !stands("crates/" word ".edit")) wrong(what)
        } else if ((file ": " what) in names) {
            seen[file ": " what]
        } else if ((crate " " what) in within) {
            count = split(within[crate " " what], list, "\n")
            for (i = 1; i <= count; i++) seen[list[i]]
        } else if (!stands("crates/" what "/src") && !stands("harness/tests/" what ".rs")) wrong(what)
    }
    {
        row++
        $0 = substr($0, 6)
        if (/^#/) { heading = $0 }
        cells = split($0, cell, /\|/)
        if (cell[2] ~ /^ [0-9]+ /) {
            number = cell[2] + 0
            if (number in words && index(cell[2], number " " words[number])) told[number]
        }
        for (c = 1; c <= cells; c++) {
            file = crate = ""
            if (heading ~ /A round as a whole|plain words|Sentence by sentence/) { file = "round/specs/Round"; crate = "round" }
            quoted = split(cell[c], text, /`/)
            for (q = 2; q <= quoted; q += 2) look(text[q])
        }
    }
    END {
        for (i = 1; i <= owed_count; i++) if (!(owed[i] in seen)) { printf "%s: `%s` is not on the page\n", page, owed[i]; failed = 1 }
        for (number = 1; number <= last; number++) if (number in words && !(number in told)) { printf "%s: no row of number %d, %s\n", page, number, words[number]; failed = 1 }
        if (!last) { print "crates/refusal/src/lib.rt: no number stands in it"; failed = 1 }
        exit failed
    }'
