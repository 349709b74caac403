#!/usr/bin/env bash
# After the lines of dist/RUST.md, at the top of the repository, without a network: the packed crate passes its tests,
# a program runs the page's example over it, and no C file is compiled. tests/fresh.sh runs it in a minimal Debian.

set -eu
work=$(mktemp -d)
trap 'rm -rf "$work"' EXIT
root=$PWD page=$PWD/dist/RUST.md

# The linker is cc, too. This one remembers each file of C that it is given.
mkdir -p "$work/bin"
cat >"$work/bin/cc" <<'END'
#!/bin/bash
for word; do case $word in *.c | *.S | *.s) echo "$word" >>"${0%/*}/compiled" ;; esac; done
exec /usr/bin/cc "$@"
END
chmod +x "$work/bin/cc"
export PATH=$work/bin:$PATH CARGO_TARGET_DIR=$work/out CARGO_HOME=$work/home

# The configuration is the page's.
mkdir -p "$work/.cargo"
sed -n 's/^    \(source\..*\)/\1/p' "$page" >"$work/.cargo/config.toml"
cp -a "$root/dist" "$work/dist"
rm -rf "$work/dist/target" "$work/dist/Cargo.lock"
cd "$work/dist"
cargo package --offline --no-verify
tar -xzf "$work"/out/package/keywrap-*.crate -C "$work"
mv "$work"/keywrap-* "$work/packed"
rm -rf "$work/dist"
cd "$work/packed"
cargo test --offline

mkdir -p "$work/program/src"
cd "$work/program"
cat >Cargo.toml <<END
[package]
name = "program"
version = "0.0.0"
edition = "2021"
[dependencies]
keywrap = { path = "$work/packed" }
END
{
    echo 'fn main() -> Result<(), Box<dyn std::error::Error>> {'
    echo 'let (bytes, key) = ([7; 32], [5; 16]);'
    sed -n '/^    use keywrap::{Error/,/^[^ ]/s/^    //p' "$page"
    echo 'println!("the example ran"); Ok(()) }'
} >src/main.rs
[ "$(cargo run --offline --quiet)" = 'the example ran' ]

if [ -s "$work/bin/compiled" ]; then
    echo "compiled: $(cat "$work/bin/compiled")" >&2
    exit 1
fi
echo 'no C file was compiled'
