//! Links libcompare_parts.a, which must export the parts that are compared.

#[path = "../port/archive.rs"]
mod archive;

#[allow(dead_code)]
#[path = "src/exports.rs"]
mod exports;

fn main() {
    archive::link("compare_parts", exports::SYMBOLS);
}
