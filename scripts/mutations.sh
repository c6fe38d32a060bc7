#!/usr/bin/env bash
# mutations.sh [EDIT]: tries the edits of mutations/, or one alone, each on a copy of the repository. On the edit's run the checker must
# prove that the claim it names is false; an edit of mutations/harmless/ must be found harmless. Checks `trials` and the crates below it
# first, as they stand: an edit's check begins with what that one kept. Logs: target/mutations/NAME.log.
set -euo pipefail
cd "$(dirname "$0")/.."

edit=${1:-}
logs=target/mutations
errors=' error: \|^error'
label=mutations
[ -z "$edit" ] || label="mutation $(basename "$edit" .edit)"
work=
said=

# prints an answer; the script may end after one
say() {
    said=yes
    echo "$label: $*"
}

# message at an end without an answer
ended() {
    local status=$?
    [ -z "$work" ] || rm -rf "$work"
    [ -n "$said" ] || case $status in
    129 | 130 | 143) echo "$label: interrupted, so that nothing is shown" >&2 ;;
    *) echo "$label: FAILED: ended with $status before it had an answer (logs: $logs)" >&2 ;;
    esac
}
trap ended EXIT
trap 'exit 129' HUP
trap 'exit 130' INT
trap 'exit 143' TERM

for tool in rt awk xargs; do
    if ! command -v "$tool" >/dev/null; then
        say "FAILED: $tool is missing on this machine"
        exit 1
    fi
done
case $edit in
'') ;;
mutations/*.edit)
    if [ ! -f "$edit" ]; then
        say "FAILED: there is no file $edit"
        exit 1
    fi
    ;;
*)
    say "FAILED: an argument is a file mutations/NAME.edit or mutations/harmless/NAME.edit"
    exit 1
    ;;
esac

below=$(scripts/below.sh trials)
if [ -z "$below" ]; then
    say "FAILED: crates.txt has no crates below trials"
    exit 1
fi

mkdir -p "$logs"
work=$(mktemp -d)

# `trials` and the crates below it as they stand, once for all edits
if [ -z "${ZOLBINE_TRIALS_CHECKED:-}" ]; then
    status=0
    (cd crates/trials && rt check) >"$logs/trials.log" 2>&1 || status=$?
    if [ "$status" -ne 0 ] || grep -q "$errors" "$logs/trials.log"; then
        say "FAILED: the crates that the trials need aren't proved as they stand ($logs/trials.log)"
        grep "$errors" "$logs/trials.log" | head -n 5
        exit 1
    fi
    export ZOLBINE_TRIALS_CHECKED=yes
fi

field() { sed -n "s/^$1: //p" "$2"; }

# copies `trials` and the crates below it, with what their checks kept
copy() {
    mkdir -p "$1/crates" || return
    local name
    for name in $below trials; do
        cp -R "crates/$name" "$1/crates/" && grep "^$name[ :]" crates.txt >>"$1/crates.txt" || return
    done
}

# puts the edit's texts into the copy; each old text must stand exactly once in its file
apply() {
    LC_ALL=C awk -v root="$2" '
        function put(    path, text, line, at, rest) {
            if (file == "") return
            path = root "/" file
            while ((getline line < path) > 0) text = text line "\n"
            close(path)
            at = index(text, old)
            rest = substr(text, at + length(old))
            if (old == "" || !at || index(rest, old)) { print "its old text does not stand once in " file; failed = 1; exit 1 }
            printf "%s%s%s", substr(text, 1, at - 1), new, rest > path
            close(path)
        }
        /^file: / { put(); file = substr($0, 7); old = ""; new = "" }
        /^old: / { old = old (old == "" ? "" : "\n") substr($0, 6) }
        /^new: / { new = new (new == "" ? "" : "\n") substr($0, 6) }
        END { if (!failed) put() }' "$1"
}

# writes the statement of the run's answer; and, for a conclusion that doesn't hold, of the claim's falsehood
assert() {
    cat >"$2/crates/trials/specs/Verdict.antt" <<ANTT
-- Assumes nothing.
use Rattle.std.specs.Prelude.{◌≡◌, refl, true, false}
use Rattle.trials.specs.Trial.{claim_of, answer, refuted}
use Rattle.trials.specs.Trials.{unfolded_trials, $1}

verdict : answer $1 ≡ (true, $3)
unfolding unfolded_trials $1
verdict = refl
ANTT
    [ "$3" = true ] || cat >>"$2/crates/trials/specs/Verdict.antt" <<ANTT

claim-fails : claim_of $1 → ⊥
claim-fails = refuted $1 verdict
ANTT
}

# whether the answer is proved with the edit. 0: yes. 1: no, because of the answer alone. 2: the trial failed, with a message
proved() {
    local answer=$1 name status=0
    name=$(basename "$edit" .edit)
    local log="$logs/$name.log" at="$work/$name.$answer"
    if ! copy "$at" >"$log" 2>&1; then
        say "FAILED: the crates can't be copied: $(tail -n 1 "$log")"
        return 2
    fi
    if ! apply "$edit" "$at" >"$log" 2>&1; then
        say "FAILED: $(cat "$log")"
        return 2
    fi
    assert "$(field run "$edit")" "$at" "$answer"
    echo "pub mod Verdict" >>"$at/crates/trials/specs/Lib.antt"
    (cd "$at/crates/trials" && rt check --jobs 1) >"$log" 2>&1 || status=$?
    rm -rf "$at"
    if [ "$status" -eq 0 ] && ! grep -q "$errors" "$log" && tail -n 1 "$log" | grep -q '^logic=proved '; then return 0; fi
    if grep "$errors" "$log" | grep -qv '/Verdict.antt:' || ! grep -q '/Verdict.antt:[0-9:]* error: `verdict`' "$log"; then
        say "FAILED: an error that is not the answer's, so that the edit shows nothing ($log)"
        tail -n 20 "$log"
        return 2
    fi
    return 1
}

# an edit that must make its claim false
refutes() {
    local status=0
    proved false || status=$?
    case $status in
    0) say "$(field claim "$edit"): proved false on the run $(field run "$edit")" ;;
    1) say "NOT REFUTED: on the run $(field run "$edit") the premises fail or the conclusion holds ($logs)" ;;
    esac
    return "$status"
}

# an edit that must leave its claim true: the checker refutes nothing, and the run's answer is as without the edit
harmless() {
    local status=0
    proved false || status=$?
    [ "$status" -ne 0 ] || say "harmless, and REFUTES $(field claim "$edit")"
    [ "$status" -eq 1 ] || return 1
    status=0
    proved true || status=$?
    case $status in
    0) say "harmless: refutes nothing, as it must be" ;;
    1) say "harmless, and the run $(field run "$edit") has another answer ($logs)" ;;
    esac
    return "$status"
}

case $edit in
mutations/harmless/*) harmless ;;
mutations/*) refutes ;;
*)
    # as many at a time as there are processors, four at most; each takes up to 2 GB
    at_once=$(nproc)
    [ "$at_once" -le 4 ] || at_once=4
    status=0
    printf '%s\n' mutations/*.edit mutations/harmless/*.edit | xargs -n 1 -P "$at_once" scripts/mutations.sh || status=$?
    if [ "$status" -ne 0 ]; then
        say "FAILED"
        exit 1
    fi
    set -- mutations/*.edit
    tried=$#
    set -- mutations/harmless/*.edit
    say "$tried refuted, each by its run; harmless edits found harmless: $#"
    ;;
esac
