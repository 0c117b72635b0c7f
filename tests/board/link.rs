//! The build's own program: tells the linker where the board library is, in the folder that BOARD_LIBRARY names, the
//! blocks library, in the one that BLOCKS_LIBRARY names, and the second engine's, in the one that SCAN_LIBRARY names. A
//! trial is linked anew where its archive is newer, or the archive's sum, in BOARD_SUM, BLOCKS_SUM or SCAN_SUM, is
//! another.

fn main() {
    for (name, archive) in [("BOARD", "libboard.a"), ("BLOCKS", "libblocks.a"), ("SCAN", "libscan_board.a")] {
        println!("cargo:rerun-if-env-changed={name}_LIBRARY");
        println!("cargo:rerun-if-env-changed={name}_SUM");
        if let Ok(folder) = std::env::var(format!("{name}_LIBRARY")) {
            println!("cargo:rerun-if-changed={folder}/{archive}");
            println!("cargo:rustc-link-search=native={folder}");
        }
    }
}
