#!/bin/sh
# Proves crates with all below them, and builds each: of a static library it leaves crates/NAME/out/libNAME.a, of a program crates/NAME/out/NAME, which it runs once,
# on the stored input. It begins with what earlier checks kept, and wants `rt` to say that the crate is proved, now or when it was built. What the prover says stays in build/NAME.log.
cd "$(dirname "$0")/.." || exit 1
root=$PWD
mkdir -p build
for name in "$@"; do
    log=$root/build/$name.log
    cd "$root/crates/$name" || exit 1
    if [ -f src/main.rt ]; then
        input=/dev/null
        [ ! -f stdin ] || input=stdin
        rt run <"$input" >"$root/build/$name.stdout" 2>"$log" && diff stdout "$root/build/$name.stdout" >>"$log"
    else
        rt lib >"$log" 2>&1
    fi && grep -Eq '^logic=proved |^rt: nothing has changed since the last proved build' "$log" || { cat "$log"; exit 1; }
done
