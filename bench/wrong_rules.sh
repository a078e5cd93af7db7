#!/bin/bash
# Tries the changed rules of bench/wrong_rules, beside those that the gate tries (must-fail/ of rules_tcc and rules_bus): each edit
# changes one definition, and a worked schedule must refuse it. An edit is tried on the crate of its definition. So the schedules of
# rules_worked stand in rules_tcc here, in a copy, and with them the definitions of other crates that edits change: the changes of
# caches (rules_maps) and who is held back (rules_phases). Edits whose names begin with bus_ are of rules_bus. It takes some minutes, and
# ends with 1 where an edit isn't refused. Words after its name are the edits to try, without '.edit'; else it tries all.
set -eu
cd "$(dirname "$0")/.."
copy=$(mktemp -d)
trap 'rm -rf "$copy"' EXIT

below='tcc_base base_lemmas rules_program rules_maps reg_checkpoint rv_decode rv_exec image_elf image_load rv_code rv_plain'
rules=$copy/crates/rules_tcc bus=$copy/crates/rules_bus
mkdir "$copy/crates"
cp HANDLES "$copy"
grep -E "^(${below// /|}|rules_bus):" crates.txt > "$copy/crates.txt"
grep '^rules_worked:' crates.txt | sed 's/^rules_worked/rules_tcc/; s/ \(rules_tcc\|rules_phases\)\b//g; s/$/ base_lemmas/' >> "$copy/crates.txt"
for crate in $below rules_tcc rules_bus; do
    cp -r "crates/$crate" "$copy/crates"
    rm -rf "$copy/crates/$crate/must-fail"
done

cat crates/rules_worked/specs/Lib.antt >> "$rules/specs/Lib.antt"
printf 'pub mod %s\n' CacheChange Phases Phased >> "$rules/specs/Lib.antt"
grep -v -e '^//!' -e '^#!' crates/rules_worked/src/lib.rt >> "$rules/src/lib.rt"
for file in crates/rules_worked/specs/*.antt; do
    case $file in */Lib.antt) ;; *) cp "$file" "$rules/specs" ;; esac
done
cp crates/rules_maps/specs/CacheChange.antt crates/rules_phases/specs/Phase{s,d}.antt "$rules/specs"
cp -r crates/rules_worked/proofs/* "$rules/proofs"
find "$rules" "$bus" -name '*.antt' -o -name '*.rt' | xargs sed -i 's/Rattle\.rules_maps\.specs\.CacheChange\./Rattle.rules_tcc.specs.CacheChange./g
    s/Rattle\.\(rules_worked\|rules_phases\)\./Rattle.rules_tcc./g'

mkdir "$rules/must-fail" "$bus/must-fail"
[ $# != 0 ] || set -- $(ls bench/wrong_rules | sed 's/\.edit$//')
for edit; do
    case $edit in bus_*) of=$bus ;; *) of=$rules ;; esac
    cp "bench/wrong_rules/$edit.edit" "$of/must-fail"
done

# refused CRATE: whether each edit in its must-fail/ is refused
refused() {
    local told=$copy/told.$1 edits
    edits=$(ls "$copy/crates/$1/must-fail" | wc -l)
    [ "$edits" != 0 ] || return 0
    (cd "$copy" && rt must-fail "$1") > "$told" 2>&1 || true
    grep "$1/" "$told" | cut -c1-200
    [ "$(grep -c ': refused, as it must be' "$told")" = "$edits" ]
}

failed=0
refused rules_tcc || failed=1
refused rules_bus || failed=1
exit "$failed"
