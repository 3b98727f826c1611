#!/bin/sh
# usage: build.sh SOURCES ARCHIVE OUT [WHICH..]
# SOURCES  the folder with waterbear's published files (lib.rs, asm.rs ..)
# ARCHIVE  the folder of libborder.a (bindings/archive.sh border)
# OUT      gets bin/wb-orig (waterbear's own optimizer), bin/wb-doc (its own with document 01's patterns), bin/wb-drop (the drop-in) and
#          bin/wb-tested (the drop-in with the variables for tests). No text of waterbear is kept elsewhere.
# WHICH    orig, doc, drop, tested; all four if none is named. The variable OPT is how far waterbear is optimized, 0 to 3 (3)
# Status 3: rustc, cargo or a crate of Debian is missing; it says which.
set -eu
[ $# -ge 3 ] || { sed -n 2,8p "$0" >&2; exit 2; }
here=$(cd "$(dirname "$0")" && pwd); top=$(cd "$here/../.." && pwd)
"$here/needs.sh" || exit $?
sources=$(cd "$1" && pwd); archive=$(cd "$2" && pwd)
for name in asm ast cheader debug env expression files img input instruction lexer lib location optimize parser; do
    [ -f "$sources/$name.rs" ] || { echo "build.sh: no $name.rs in $1" >&2; exit 2; }
done
[ -f "$archive/libborder.a" ] || { echo "build.sh: no libborder.a in $2: run 'bindings/archive.sh border' first" >&2; exit 2; }
mkdir -p "$3/derive/src" "$3/bin" "$3/gen" "$3/.cargo"; out=$(cd "$3" && pwd); shift 3
# What is the same keeps its time, so that cargo builds no more than it has to.
put() { cmp -s "$1" "$2" || { rm -f "$2"; cp "$1" "$2"; }; }
put "$top/tools/oracle/derive/lib.rs" "$out/derive/src/lib.rs"
cat > "$out/derive/Cargo.toml" <<END
[package]
name = "waterbear_instruction_derive"
version = "0.0.0"
edition = "2024"
[lib]
proc-macro = true
END
cat > "$out/.cargo/config.toml" <<END
[source.crates-io]
replace-with = "debian"
[source.debian]
directory = "$("$here/needs.sh" --registry)"
[net]
offline = true
END
python3 "$top/tools/oracle/extract.py" "$sources" "$out/gen"

for which in ${*:-orig doc drop tested}; do
    crate=$out/$which; made=$out/made; rm -rf "$made"; mkdir -p "$crate/src" "$made/src"
    cp "$sources"/*.rs "$here"/stand-ins/*.rs "$made/src/"; chmod u+w "$made"/src/*.rs
    : > "$made/src/builtin_macros.s"
    line=
    case $which in
    orig) ;;
    doc) sed 's/crate::count_rewrite();//' "$out/gen/optimize_doc.rs" > "$made/src/optimize.rs" ;;
    drop | tested)
        # The two lines of README.md.
        line="mortarbee-waterbear = { path = \"$here\" }"
        [ "$which" = drop ] || line="mortarbee-waterbear = { path = \"$here\", features = [\"tests\"] }"
        sed -i "s|^mod optimize;|#[path = \"$here/optimize/mod.rs\"] mod optimize;|" "$made/src/lib.rs"
        rm -f "$made/src/optimize.rs" "$crate/src/optimize.rs" ;;
    *) echo "build.sh: no build $which" >&2; exit 2 ;;
    esac
    sed -e "s|@WHICH@|$which|" -e "s|@HERE@|$here|" -e "s|@OUT@|$out|" -e "s|@MORTARBEE@|$line|" "$here/stand-ins/Cargo.toml.in" \
        > "$made/Cargo.toml"
    for file in Cargo.toml src/builtin_macros.s "$made"/src/*.rs; do
        put "$made/${file#"$made/"}" "$crate/${file#"$made/"}"
    done
    (cd "$crate" && RUSTC_VERSION=$(rustc --version) CARGO_VERSION=$(cargo --version) GITSHA=published MORTARBEE_ARCHIVE="$archive" \
        CARGO_TARGET_DIR="$out/target" RUSTFLAGS="-A warnings" \
        cargo build --quiet --release --offline -j "${JOBS:-1}" --config "profile.release.package.wb.opt-level=${OPT:-3}")
    cp -f "$out/target/release/wb-$which" "$out/bin/"
done
