#!/usr/bin/env bash
# Lists the tools that are missing or too old, with the versions needed. With g++ as argument: that one too.
set -uo pipefail
cd "$(dirname "$0")/.."

kit="rattle-kit-13f"
rust=$(sed -n 's/^rust-version = "\(.*\)"/\1/p' harness/Cargo.toml)
compiler=${CC:-gcc}
missing=()

if ! command -v rt >/dev/null; then
    missing+=("rt     the Rattle toolchain, $kit: its folder bin on the PATH")
elif found=$(rt version) && [[ $found != "$kit"* ]]; then
    echo "zolbine: rt is of $found; the crates were proved with $kit" >&2
fi

if ! command -v cargo >/dev/null || ! command -v rustc >/dev/null; then
    missing+=("cargo  Rust $rust or newer")
else
    found=$(rustc --version | cut -d ' ' -f 2)
    oldest=$(printf '%s\n' "$rust" "$found" | sort -V | head -n 1)
    [ "$oldest" = "$rust" ] || missing+=("cargo  Rust $rust or newer; rustc is $found")
fi

if ! echo 'int main(void) { return 0; }' | "$compiler" -std=c11 -x c -o /dev/null - 2>/dev/null; then
    missing+=("gcc    any that compiles and links C11 (4.9 or newer); CC names another compiler")
fi
if [ "${1:-}" = g++ ] && ! echo 'int main() { return 0; }' | "${CXX:-g++}" -std=c++11 -x c++ -o /dev/null - 2>/dev/null; then
    missing+=("g++    any that compiles and links C++11, for the gate alone; CXX names another compiler")
fi
command -v ar >/dev/null || missing+=("ar     of binutils, which comes with gcc")

if [ "${#missing[@]}" -gt 0 ]; then
    {
        echo "zolbine: missing on this machine:"
        printf '  %s\n' "${missing[@]}"
    } >&2
    exit 1
fi
