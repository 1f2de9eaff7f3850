#!/bin/sh
# prepare.sh SHARED_DIR OUT_DIR: writes the reference package to OUT_DIR. It is the upstream
# sources of SHARED_DIR/docs/src/src, unchanged, each followed by its hook if it has one, with a
# root and a stub of our own. A file that would not change is left alone, so that cargo builds
# again only what did.
set -eu

upstream=$1/docs/src/src
out=$2
hooks=$(dirname "$0")/hooks
mkdir -p "$out/src/candidates" "$out/src/dp"
new=$out/new
trap 'rm -f "$new"' EXIT

# put NAME FILE...: the files one after the other become OUT_DIR/NAME.
put() {
    name=$1
    shift
    cat "$@" >"$new"
    cmp -s "$new" "$out/$name" || cp "$new" "$out/$name"
}

put Cargo.toml "$hooks/Cargo.toml"
put src/lib.rs "$hooks/lib.rs"
put src/filter.rs "$hooks/filter.rs"
for file in errors.rs math.rs sample.rs candidates/feasible.rs dp/count.rs; do
    put "src/$file" "$upstream/$file"
done
for file in analyze.rs segment.rs candidates.rs dp.rs plan.rs; do
    put "src/$file" "$upstream/$file" "$hooks/$file"
done
