#!/bin/sh
# Builds the shells, without a download.
#   ./setup.sh           where cargo finds the crates by itself, or Debian's packages of them are installed
#   ./setup.sh FOLDER    with cargo set up as FOLDER/.cargo/config.toml says
# The crates are im-rc 15.1 with `serde`, serde 1 with `derive` and `rc`, and serde_json 1. Debian has them in its packages
# librust-im-rc-dev, librust-serde+serde-derive-dev and librust-serde-json-dev.
set -eu
setup=${1:-}
if [ -n "$setup" ]; then
    setup=$(cd "$setup" && pwd -P)/.cargo/config.toml
fi
cd "$(dirname "$0")"

# With Debian's packages, cargo looks where these say that their crates are.
crate=$(dpkg -L librust-im-rc-dev 2>/dev/null | grep '/im-rc-[0-9.]*/Cargo.toml$' || true)
if [ -z "$setup" ] && [ -n "$crate" ]; then
    mkdir -p .cargo
    cat > .cargo/config.toml <<CONFIG
[source.crates-io]
replace-with = "debian"

[source.debian]
directory = "$(dirname "$(dirname "$crate")")"
CONFIG
fi

if ! cargo build --release --offline ${setup:+--config "$setup"}; then
    echo "setup.sh: cargo finds no im-rc 15.1, serde 1 or serde_json 1 here. Give the folder of a set-up that has them, or install" >&2
    echo "Debian's packages librust-im-rc-dev, librust-serde+serde-derive-dev and librust-serde-json-dev." >&2
    exit 1
fi
ls -l target/release/im_shell target/release/std_shell target/release/ok_shell
