# The C compiler of the host's tests. Sourced by bash after kit.sh, from the repository's root.
# shellcheck shell=bash

# What Debian calls the compiler and the C library's headers.
PACKAGES=(gcc libc6-dev)

# Whether the compiler is there, with the C library's headers.
compiles() { printf '#include <stdio.h>\n' | cc -E - >/dev/null 2>&1; }

# The compiler must be there. Where it is not and the machine has apt-get, it is installed, and that is said first.
need_compiler() {
    if compiles; then return; fi
    if command -v apt-get >/dev/null 2>&1 && [ "$(id -u)" -eq 0 ]; then
        echo "Installing ${PACKAGES[*]} by apt-get: the host's tests are in C, and its compiler cc is missing." >&2
        { apt-get update && apt-get install -y --no-install-recommends "${PACKAGES[@]}"; } >/dev/null 2>&1
    fi
    compiles || end "$MISSING" "The host's tests are in C, and its compiler cc is missing: install ${PACKAGES[*]} (so Debian calls them)."
}

# Compiles a test.
compile() { # OUTPUT WORDS..
    cc -std=c11 -Wall -Wextra -Wpedantic -Werror -O2 -Ihost -o "$@"
}
