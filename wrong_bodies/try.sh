#!/usr/bin/env bash
# Tries wrong bodies: changes of the code that the prover has to refuse. Each file wrong_bodies/CRATE/NAME.edit is one,
# in the form of the files in crates/CRATE/must-fail, which the gate tries itself.
#
#     wrong_bodies/try.sh            all of them
#     wrong_bodies/try.sh CRATE..    those of these crates
#
# They are tried on a clone of the last commit, which is removed in every case, a crate at a time. It prints a line for
# each, and last how many were refused and which were not. The status is 0 where each was refused.
set -euo pipefail

top=$(cd "$(dirname "$0")/.." && pwd)
clone=$(mktemp -d)
trap 'rm -rf "$clone"' EXIT
git clone -q "$top" "$clone/ledger"
cd "$clone/ledger"

if [ $# -eq 0 ]; then
    set -- $(cd wrong_bodies && ls -d */ | tr -d /)
fi
expected=0
: > "$clone/log"
for crate in "$@"; do
    mkdir -p "crates/$crate/must-fail"
    rm -f "crates/$crate/must-fail/"*.edit
    cp "wrong_bodies/$crate/"*.edit "crates/$crate/must-fail/"
    expected=$((expected + $(ls "wrong_bodies/$crate/"*.edit | wc -l)))
    rt must-fail "$crate" 2>&1 | tee -a "$clone/log" | grep 'must-fail .*\.edit' || true
done

refused=$(grep -c ': refused, as it must be' "$clone/log" || true)
echo
echo "wrong bodies: $expected, refused: $refused"
grep 'must-fail .*\.edit' "$clone/log" | grep -v ': refused, as it must be' || true
[ "$refused" -eq "$expected" ]
