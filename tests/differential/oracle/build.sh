#!/bin/sh
# Builds the oracle, offline:   build.sh SOURCE-FOLDER [--debug-assertions]
# SOURCE-FOLDER is the repository's src/ itself. Its files are copied to target/oracle/ of this project, which git ignores, one line is
# put into one of them, and every other copy is compared byte for byte. Where nothing has changed since the last build, nothing is
# done.
set -eu
here=$(cd "$(dirname "$0")" && pwd)
out=$(cd "$here/../../.." && pwd)/target/oracle
src=
asserts=no
for arg in "$@"; do
    case $arg in
        --debug-assertions) asserts=yes ;;
        *) src=$arg ;;
    esac
done
if [ ! -f "$src/tree/range/forward_ctx.rs" ]; then
    echo "usage: build.sh SOURCE-FOLDER [--debug-assertions]; the folder has tree/range/forward_ctx.rs" >&2
    exit 2
fi
src=$(cd "$src" && pwd)
mkdir -p "$out/bin"
cd "$out"

sums=$(find "$src" "$here/build.sh" "$here/standins" -type f -exec cksum {} + | sort)
stamp="asserts $asserts arrayvec ${ARRAYVEC:-}
$sums"
if [ -x bin/oracle ] && [ "$stamp" = "$(cat stamp 2>/dev/null)" ]; then exit 0; fi
rm -f stamp

verbatim="hints.rs ordering.rs prefetch.rs link.rs key.rs nodeversion.rs permuter.rs
suffix.rs suffix/inline.rs leaf_trait.rs leaf15/layout.rs internode/accessors.rs
ksearch.rs ksearch/scalar.rs
tree/range/batch_common.rs tree/range/cursor_key.rs tree/range/helper.rs
tree/range/scan_state.rs tree/range/traversal.rs
tree/range/iterator/iter_flags.rs tree/range/iterator/range_bound.rs"
edited="tree/range/forward_ctx.rs"

rm -rf src
cp -R "$here/standins/src" src
for f in $verbatim $edited; do
    if [ -e "$here/standins/src/$f" ]; then echo "build.sh: $f is both supplied and a stand-in" >&2; exit 1; fi
    mkdir -p "src/$(dirname "$f")"
    cp "$src/$f" "src/$f"
    chmod u+w "src/$f"
done

# The one edit: count the passes of the loop in advance_no_alloc.
sed -i '/pub fn advance_no_alloc(/,/^        loop {$/ s/^        loop {$/&\n            crate::pass::tick(self.cursor_key.offset());/' \
    src/tree/range/forward_ctx.rs

for f in $verbatim; do cmp "$src/$f" "src/$f"; done
diff "$src/$edited" "src/$edited" > edit.diff || true
if [ "$(grep -c '^[<>]' edit.diff)" != 1 ] ||
   [ "$(grep -c '^> *crate::pass::tick(self.cursor_key.offset());$' edit.diff)" != 1 ]; then
    echo "build.sh: the inserted line is not the only change:" >&2
    cat edit.diff >&2
    exit 1
fi

arrayvec=standin
for d in /usr/share/cargo/registry/arrayvec-0.7*; do
    if [ -f "$d/Cargo.toml" ]; then arrayvec=$d; fi
done
if [ "${ARRAYVEC:-}" = standin ] || [ "$arrayvec" = standin ]; then arrayvec=$here/standins/arrayvec; fi

cat > Cargo.toml <<END
[package]
name = "oracle"
version = "0.0.0"
edition = "2024"
publish = false

[features]
trace = []
no-prefetch = []
small-suffix-capacity = []
sidecar-suffix = []

[dependencies]
seize = { path = "$here/standins/seize" }
arrayvec = { path = "$arrayvec" }

[profile.release]
opt-level = 3
lto = "fat"
codegen-units = 1

[profile.checked]
inherits = "release"
debug-assertions = true
overflow-checks = true

[workspace]
END

# Silences a lint about arrayvec's own source and one about cfg(loom); changes no code.
RUSTFLAGS="-A mismatched_lifetime_syntaxes --check-cfg=cfg(loom)"
export RUSTFLAGS
run() { CARGO_TARGET_DIR="$out/cargo" cargo build --offline --quiet --manifest-path Cargo.toml "$@"; }
run --release --features trace
cp cargo/release/oracle bin/oracle
run --release
cp cargo/release/oracle bin/oracle-bench
if [ $asserts = yes ]; then
    run --profile checked --features trace
    cp cargo/checked/oracle bin/oracle-checked
fi
printf '%s\n' "$stamp" > stamp
echo "built bin/oracle and bin/oracle-bench in $out; sources $src; arrayvec $arrayvec; edit:"
cat edit.diff
