#!/usr/bin/env bash
# Builds the Rust side of the comparison: the programs are then in target/compare/cargo/release of the repository.
#
# The original Rust source is not part of this repository. It is read from the folder that POWERLINK_RS names, or else
# from ../shared/docs/src beside the repository. The originals declare sibling modules that are not given, so the files
# that originals.txt lists and our stand-ins are copied into one tree, which is compiled as one crate: copies and no links, which rt ci refuses below the repository.
set -eu
unset CDPATH # with it, cd would print

here=$(cd "$(dirname "${BASH_SOURCE[0]}")" && pwd)
root=$(dirname "$here")
tree="$root/target/compare/tree"
cargo="$root/target/compare/cargo"

fail() {
    echo "compare/build.sh: $*" >&2
    exit 1
}

# Copies the file $1 to the place $2 of the tree, with its time, by which cargo tells a changed file.
place() {
    mkdir -p "$(dirname "$tree/$2")"
    [ ! -e "$tree/$2" ] || fail "$2 is both in originals.txt and a stand-in."
    cp -p "$1" "$tree/$2" || fail "could not copy $2."
}

command -v cargo >/dev/null || fail "cargo was not found. Install Rust (edition 2024, so 1.85 or newer)."

given=${POWERLINK_RS:-$root/../shared/docs/src}
[ -d "$given" ] || fail "there is no folder $given. Set POWERLINK_RS to the folder that has crates/powerlink-rs."
given=$(cd "$given" && pwd)
crate="$given/crates/powerlink-rs/src"
[ -d "$crate" ] || fail "$given has no crates/powerlink-rs/src. Set POWERLINK_RS to the folder that has it."

echo "Copying the Rust source in $given and the stand-ins into target/compare/tree."
rm -rf "$tree"
mkdir -p "$tree"
while read -r file; do
    [ -f "$crate/$file" ] || fail "$crate has no $file, which originals.txt lists. Is POWERLINK_RS the right folder?"
    place "$crate/$file" "$file"
done <"$here/originals.txt"
while read -r file; do
    place "$here/standins/powerlink-rs/$file" "$file"
done < <(cd "$here/standins/powerlink-rs" && find . -name '*.rs' | cut -c 3-)

# Cargo tells a changed file by its time only, and the files of another folder may be older than the last build.
sums=$(cd "$crate" && xargs cksum <"$here/originals.txt")
if [ "$(cat "$cargo/sums" 2>/dev/null)" != "$sums" ]; then
    rm -rf "$cargo"
    mkdir -p "$cargo"
    echo "$sums" >"$cargo/sums"
fi
cargo build --release --offline --manifest-path "$here/Cargo.toml" --target-dir "$cargo" ||
    fail "the build failed; the messages of cargo above say why."

# Cargo names the files that it compiled.
compiled="$cargo/release/libpowerlink_rs.d"
while read -r file; do
    cmp "$tree/$file" "$crate/$file" || fail "$file was not compiled as it is given."
    grep -qF "target/compare/tree/$file" "$compiled" || fail "$file is in originals.txt and was not compiled."
done <"$here/originals.txt"
echo "Built the programs in target/compare/cargo/release, of $(wc -l <"$here/originals.txt") original files."
