#!/usr/bin/env bash
# Prints the path of the archive of the report for C and Rust on x86-64, and makes it first unless it was made of the same sources.
# Only what is proved is compiled: 'rt lib' proves the crate report_c, which exports the report to C, and those below it, and compiles
# them. No proof covers the compiler.
set -euo pipefail
unset CDPATH
cd "$(dirname -- "$(readlink -f -- "$0")")/.."
. scripts/kit.sh
need_kit
need_target
need_temporary
made=$PWD/target/native
archive=$made/libreport.a

# The same where rt ci has proved these very sources (./test) and nothing was kept in this copy before. The libraries that it proved stand
# in the folders out/ then, but 'rt lib' does not take them and would prove them all again: so the prover is called as rt ci calls it for
# a program. It proves report_c over these libraries and compiles all.
compile_over_ci() {
    local kit words library rlib=crates/report/out/rlib
    [ "$(cat target/proved-by-ci 2>/dev/null)" = "$sum" ] && [ -d "$rlib" ] && [ ! -e "$rlib/stamp" ] || return
    kit=$(dirname "$(rt doc </dev/null)")
    words=(--crate-name report_c --crate-type staticlib src/lib.rt --backend llvm --toolchain "$kit/toolchain" -o "$archive"
        --antt-project "$kit/rattle/logic/antt-project.json" --logic-built "$kit/logic_built" -L "dependency=$kit/rlibs")
    for library in core std $(sed -nE 's/^report_c +staticlib *: *//p' crates.txt); do
        rlib=$PWD/crates/$library/out/rlib/$library.rlib
        [ -d "$rlib" ] || rlib=$kit/rlibs/$library.rlib
        words+=(--extern "$library=$rlib")
    done
    for rlib in "$PWD"/crates/*/out/rlib; do words+=(-L "dependency=$rlib"); done
    (cd crates/report_c && "$kit/bin/rattle" build "${words[@]}") </dev/null >"$made/log" 2>&1
}

# The folder out/ of report_c has the archive then.
compile_archive() {
    prove_crate report_c "$made/log" lib && cp crates/report_c/out/libreport_c.a "$archive"
}

sum=$(sources)
if [ ! -f "$archive" ] || [ "$(cat "$made/sources" 2>/dev/null)" != "$sum" ]; then
    echo "Proving the report and compiling its archive, since that was not done of these sources yet. It may take minutes." >&2
    rm -rf "$made"
    mkdir -p "$made"
    compile_over_ci || compile_archive || end 1 "There is no archive: $made/log has all that was said."
    echo "$sum" >"$made/sources"
fi
echo "$archive"
