#!/bin/sh
# Builds the static library and the examples, in C and in Rust, and runs them on all samples: both must write the same, and pages of twenty
# keys, each a walk of its own above the last key of the page before, must have the list's keys. So must the image that is built from these
# keys as a sheet. The list of tree A is held to a.txt, and the image of its sheet to the sample's bytes; an image is no sheet. Needs
# rt, cc and cargo; no network. What is built goes into target/.
set -eu
cd "$(dirname "$0")/.."
tools/staticlib punchbronze
out=target/examples
mkdir -p $out
for example in list page build; do
    cc -std=c11 -Wall -Wextra -O2 -Iinclude -o $out/$example examples/c/$example.c target/staticlib/libpunchbronze.a
    CARGO_TARGET_DIR=target/rust cargo build --offline --quiet --manifest-path rust/Cargo.toml --example $example
done

# build SHEET: its image and the image's keys, the same in both languages.
build() {
    rm -f $out/c.img $out/rust.img
    $out/build "$1" $out/c.img >$out/build.txt || true
    target/rust/debug/examples/build "$1" $out/rust.img >$out/rust.txt || true
    cmp $out/build.txt $out/rust.txt
    if [ -e $out/c.img ]; then
        cmp $out/c.img $out/rust.img
    fi
}

for image in samples/*.img; do
    for example in list page; do
        $out/$example "$image" >$out/$example.txt || true
        target/rust/debug/examples/$example "$image" >$out/rust.txt || true
        cmp $out/$example.txt $out/rust.txt
    done
    if ! grep -q '^refused' $out/list.txt; then
        grep '^=' $out/list.txt >$out/list.keys || true
        grep '^=' $out/page.txt >$out/page.keys || true
        cmp $out/list.keys $out/page.keys
        {
            echo "sheet 1 keys $(wc -l <$out/list.keys)"
            sed 's/^= /=- /; s/^=//' $out/list.keys
            echo "end 0"
        } >$out/sheet
        build $out/sheet
        cmp $out/list.keys $out/build.txt
    fi
done
build samples/a.img
echo "refused 31" | cmp - $out/build.txt
build samples/a.sheet
cmp $out/c.img samples/a.img
$out/list $out/c.img >$out/list.txt
cmp $out/list.txt examples/a.txt
cat $out/list.txt
echo "examples: ok"
