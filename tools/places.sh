#!/bin/sh
# Lists, for each point of docs/DESIGN-PASS.md, the lines of src/ among which its places lie; with a number as argument that point alone. Run at the top of the repository.
rt_lines() { grep -rnE --include='*.rt' "$1" crates/*/src; }

point_1() { rt_lines '(: |-> )(u8|bool)\b|\[u8; [0-9]'; rt_lines '\benum [A-Z]'; }
# Names of functions that stand twice, and runs of lines that do; these by `duplicates`, a command that not every machine has: without it only the names are listed.
point_2() {
    grep -rhoE --include='*.rt' '\bfn [a-z_]+' crates/*/src | sort | uniq -d
    copy=$(mktemp -d)
    for file in $(find crates/*/src -name '*.rt'); do
        mkdir -p "$copy/$(dirname "$file")" && cp "$file" "$copy/${file%.rt}.rs"
    done
    duplicates --repo "$copy" --min-lines 5 --most 60 | grep '^D'
    rm -r "$copy"
}
point_3() { rt_lines '^\s*(while|for|loop)\b'; }
point_4() { rt_lines '^impl .* for |format!|fn [a-z_]*(text|words|number|_of|_named|before|fit|cast|is_int)[a-z_]*\('; }
# Facts by how many contracts have them, and the lists of parameters by how many functions have them.
point_5() {
    grep -rhoE --include='*.rt' '(requires|ensures)[^{]*\{.*\}' crates/*/src | sed -E 's/^(requires|ensures) *[a-z_]* *\{/\1 {/' | sort | uniq -c | sort -rn | awk '$1 >= 3'
    rt_lines '^ *(mut )?[a-z_]+: .*,$' | sed -E 's/^[^:]*:[0-9]*: *//' | sort | uniq -c | sort -rn | awk '$1 >= 3'
}
point_6() { rt_lines '(usize|u16),$|Vec<|; [0-9]+\]'; }
point_7() { rt_lines 'dyn |Fn\(|fn\('; rt_lines '\bmatch\b'; }
point_8() { find crates/*/proofs -name '*.antt' -exec grep -hE '^pub ' {} +; }

for n in ${1:-1 2 3 4 5 6 7 8}; do
    echo "point $n: $(point_$n | wc -l) lines"
    [ -z "$1" ] || point_"$n"
done
