#!/usr/bin/env bash
# scripts/measure/rust/build.sh FOLDER UPSTREAM: builds FOLDER/target/release/rust-tower, the program of this folder
# over tower 0.5.3, whose src/ UPSTREAM has. Without it docs/SPEED.md has nothing to compare with. What tower needs are
# Debian 12's packages, but for `hdrhistogram` (so `hedge` is left out) and `sync_wrapper` (here a crate of ten lines).
set -euo pipefail
here=$(dirname "$(realpath "$0")") folder=$(realpath -m "$1") upstream=$(realpath "$2")
mkdir -p "$folder/debs"
cp -rT "$here" "$folder"
cp -r "$upstream/src" "$folder/tower/"
cd "$folder/debs"
apt-get install --simulate --no-install-recommends \
    librust-{tokio,tokio-util,futures,indexmap,pin-project-lite,tower-service,tower-layer,tracing,slab}-dev |
    awk '$1 == "Inst" { print $2 }' | xargs apt-get download -q
find . -name '*.deb' -exec dpkg -x {} "$folder/debian" \;
cd "$folder/tower/src"
# Three lines are those of later packages: indexmap 2, futures 0.3.22 and tower-layer 0.3.3.
sed -i 's/get_index_mut(idx).map(|(k, v)| (k, /get_index_mut(idx).map(|(k, v)| (\&*k, /' ready_cache/cache.rs
sed -i 's/FuturesOrdered::push_back(/FuturesOrdered::push(/' util/call_all/ordered.rs
sed -i 's/pub const fn new() -> Self/pub fn new() -> Self/' builder/mod.rs
sed -i '/^#!\[warn(/,/^)\]/d' lib.rs
cd "$folder"
RUSTFLAGS="-C target-cpu=x86-64-v2" cargo build --release --offline
