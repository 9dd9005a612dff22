#!/usr/bin/env bash
# Tries the programs that must not build: the edits crates/NAME/must-not-build/*.edit. The toolchain's must-fail edits are
# those that only the prover refuses; these are refused before it is asked, by the rules on types and on moved values.
# An edit has four lines: 'file: src/..', 'old: TEXT', which stands once in that file, 'new: TEXT', and 'error: CODE'.
# The crate as it stands has to build and pass its tests; with the edit the compiler must give that error, and no other.
# Nothing is proved here, and nothing in the checkout is touched: all is tried on a copy.
# Status 0: every edit was refused so. Else 1, and the last line says what was not.
set -euo pipefail
cd "$(dirname "${BASH_SOURCE[0]}")/.."

fail() {
    echo "must-not-build: $*" >&2
    exit 1
}

work=$(mktemp -d)
trap 'rm -rf "$work"' EXIT
tar -c --exclude=out crates crates.txt | tar -x -C "$work"

compile() { # FOLDER of a crate: built without proofs, and its tests run; what is wrong goes to the log
    (cd "$1" && rt try --test) >"$work/tests" 2>"$work/log"
}

# A line of an edit, without its first word.
part() { # EDIT WORD
    sed -n "s/^$2: //p" "$1"
}

tried=0
for folder in crates/*/must-not-build; do
    [[ -d $folder ]] || fail "no crate has a folder must-not-build"
    crate=${folder%/must-not-build}
    name=${crate#crates/}
    grep -qE "^[[:space:]]*$name[[:space:]]*:" crates.txt || fail "$crate is not listed in crates.txt"
    compile "$work/$crate" || fail "$name does not build as it stands: $(head -n 1 "$work/log")"

    for edit in "$folder"/*; do
        [[ -f $edit && $edit == *.edit ]] || fail "$edit is no edit"
        file=$(part "$edit" file) old=$(part "$edit" old) new=$(part "$edit" new) code=$(part "$edit" error)
        [[ -n $old && -n $code ]] || fail "$edit has no line 'old:' or no line 'error:'"
        [[ $file == src/* && $file != *..* && -f $crate/$file ]] || fail "$edit names no file under src/"
        text=$(<"$crate/$file")
        rest=${text#*"$old"}
        [[ $rest != "$text" && $rest != *"$old"* ]] || fail "$edit: its old text does not stand once in $file"
        printf '%s\n' "${text%%"$old"*}$new$rest" >"$work/$crate/$file"

        status=0
        compile "$work/$crate" || status=$?
        cp "$crate/$file" "$work/$crate/$file"
        [[ $status -ne 0 ]] || fail "$edit: it still builds"
        given=$(sed -nE 's/^[^ ]*: error(\[([^]]*)\])?:.*/\2/p' "$work/log" | sort -u)
        [[ $status -eq 1 && $given == "$code" ]] || fail "$edit: refused with '$given' (status $status), and not with '$code': $(head -n 1 "$work/log")"
        echo "must-not-build $name/$(basename "$edit" .edit): refused, as it must be ($code)"
        tried=$((tried + 1))
    done
done
echo "must-not-build: $tried edits refused"
