#!/usr/bin/env bash
# Prints the path of a program of this repository, and proves and links it first unless it was made of the same sources:
# scripts/program.sh NAME, where NAME is a crate with a src/main.rt.
set -euo pipefail
unset CDPATH
cd "$(dirname -- "$(readlink -f -- "$0")")/.."
. scripts/kit.sh
name=${1-}
case $name in *[!a-z0-9_]*) name='' ;; esac
if [ $# -ne 1 ] || [ ! -f "crates/${name:-none}/src/main.rt" ]; then
    end "$BAD_USAGE" "Name one program: scripts/program.sh NAME, where there is a file crates/NAME/src/main.rt."
fi
need_kit
prove_program "$name"
echo "$PWD/target/bin/$name"
