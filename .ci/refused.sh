#!/usr/bin/env bash
# Programs that the compiler itself must refuse: a rebuild job that vanishes, a finish after give-up, a refused finish
# whose job is dropped, a forged job. Each file of .ci/refused is an edit of a program (file, error, old, new); the
# edited program must be rejected with the error that the edit names. The program as it stands must be accepted.
set -u
cd "$(dirname "$0")/.."
work=$(mktemp -d)
trap 'rm -rf "$work"' EXIT

# Compiles the program parking from the copy in $work, and runs it if it compiles; nothing is proved.
compile() {
    (cd "$work/crates/parking" && rt try) >"$work/errors" 2>&1
}

cp crates.txt "$work/"
for dir in crates/*/; do
    for part in src specs proofs; do
        if [ -d "$dir$part" ]; then
            mkdir -p "$work/$dir"
            cp -r "$dir$part" "$work/$dir$part"
        fi
    done
done
if ! compile; then
    echo "parking itself is not compiled:"
    head -n 5 "$work/errors"
    exit 1
fi
wrong=0
for edit in .ci/refused/*.edit; do
    file=$(sed -n 's/^file: //p' "$edit")
    error=$(sed -n 's/^error: //p' "$edit")
    old=$(sed -n 's/^old: //p' "$edit")
    new=$(sed -n 's/^new: //p' "$edit")
    text=$(cat "$file" && printf x)
    text=${text%x}
    rest=${text#*"$old"}
    if [ "$rest" = "$text" ] || [ "${rest#*"$old"}" != "$rest" ]; then
        echo "$edit: its old text does not stand once in $file"
        wrong=1
        continue
    fi
    printf '%s' "${text%%"$old"*}$new$rest" >"$work/$file"
    if compile; then
        echo "$edit: compiled, and must not be"
        wrong=1
    elif ! grep -q "error\[$error\]" "$work/errors"; then
        echo "$edit: refused for another reason than $error:"
        head -n 5 "$work/errors"
        wrong=1
    else
        echo "$(basename "$edit" .edit): refused by $error, as it must be"
    fi
    cp "$file" "$work/$file"
done
exit $wrong
