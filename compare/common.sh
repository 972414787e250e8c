# Shared by run, bench and vectors, which source it.
set -euo pipefail

root=$(cd "$(dirname "${BASH_SOURCE[0]}")/.." && pwd)
built=$root/target/compare

# Where the sources of plotters are: a folder that holds the crate's own paths.
plotters_src=$(realpath -m "${PLOTTERS_SRC:-$root/../shared/docs/src}")
plotters_files=(
    src/coord/ranged1d/mod.rs
    src/coord/ranged1d/discrete.rs
    src/coord/ranged1d/types/numeric.rs
    src/coord/ranged1d/combinators/linspace.rs
    src/coord/ranged1d/combinators/logarithmic.rs
    src/data/float.rs
)

# Where the archive is; without CULVRAOD_LIB_DIR it is built there first.
archive_dir=$(realpath -m "${CULVRAOD_LIB_DIR:-$root/target/staticlib}")

cd "$root"

# Copies a file if the copy is missing or differs, so that nothing is built again in vain.
copy() {
    cmp -s "$1" "$2" || install -D -m 644 "$1" "$2"
}

# The reference crates: plotters' files as they are, and the cut-down modules above them.
make_reference() {
    local file
    for file in "${plotters_files[@]}"; do
        if [ ! -r "$plotters_src/$file" ]; then
            echo "plotters' sources are missing: no $file in $plotters_src (set PLOTTERS_SRC)" >&2
            exit 2
        fi
    done
    (cd compare/reference && find . -type f) | while read -r file; do
        copy "compare/reference/$file" "$built/plotters/$file"
    done
    for file in "${plotters_files[@]}"; do
        copy "$plotters_src/$file" "$built/plotters/$file"
        cmp "$plotters_src/$file" "$built/plotters/$file"
    done
    make_tabled
}

# The same with the decade of a length, and of a label's number, from the library's table, as 02 has it. One line of
# numeric.rs and two of float.rs are changed, and the table is the text of crates/decades.
make_tabled() {
    local file numeric=src/coord/ranged1d/types/numeric.rs float=src/data/float.rs changed
    (cd "$built/plotters" && find src -type f) | while read -r file; do
        case $file in
        src/lib.rs | "$numeric" | "$float") ;;
        *) copy "$built/plotters/$file" "$built/tabled/$file" ;;
        esac
    done
    (cd compare/tabled && find . -type f) | while read -r file; do
        copy "compare/tabled/$file" "$built/tabled/$file"
    done
    sed 's/(10f64)\.powf((range\.1 - range\.0)\.log(10\.0)\.floor())/crate::powers::decade(range.1 - range.0)/' \
        "$built/plotters/$numeric" >"$built/numeric.rs"
    changed=$(diff "$built/plotters/$numeric" "$built/numeric.rs" | grep -c '^>') || true
    if [ "$changed" != 1 ]; then
        echo "the line of numeric.rs that takes the decade was found $changed times" >&2
        exit 2
    fi
    copy "$built/numeric.rs" "$built/tabled/$numeric"
    sed -e 's/let mut idx = n\.abs()\.log10()\.floor();/let mut idx = crate::powers::exponent(n.abs());/' \
        -e 's/let mut exp = (10\.0f64)\.powf(idx);/let mut exp = crate::powers::decade(n.abs());/' \
        "$built/plotters/$float" >"$built/float.rs"
    changed=$(diff "$built/plotters/$float" "$built/float.rs" | grep -c '^>') || true
    if [ "$changed" != 2 ]; then
        echo "of the two lines of float.rs that take the decade $changed were found" >&2
        exit 2
    fi
    copy "$built/float.rs" "$built/tabled/$float"
    sed -n '/^const POWERS/,/^];/p' crates/decades/src/lib.rt | sed '1s/.*/[/; $s/.*/]/' >"$built/powers.in"
    copy "$built/powers.in" "$built/tabled/src/powers.in"
}

make_archive() {
    if [ -z "${CULVRAOD_LIB_DIR:-}" ]; then
        tools/staticlib
    fi
    if [ ! -r "$archive_dir/libculvraod.a" ]; then
        echo "no libculvraod.a in $archive_dir" >&2
        exit 2
    fi
    export CULVRAOD_LIB_DIR=$archive_dir
}

# The ruler program: a run proves and builds it first.
build_rule() {
    (cd crates/rule && rt run </dev/null >/dev/null)
    install -D -m 755 crates/rule/out/rule target/bin/rule
}

# The ruler program, ours and that over plotters, and a million lines for both.
make_program() {
    build_rule
    "$built/cargo/$1/compare" lines >"$built/lines.txt"
}

# Cargo on one of the crates here, with everything that it makes under target/.
build() {
    local command=$1 crate=$2
    shift 2
    cargo "$command" --quiet --offline --locked \
        --manifest-path "$crate/Cargo.toml" --target-dir "$built/cargo" "$@"
}
