//! Links the proved archive.
include!("../archive.rs");

fn main() {
    link(&root(), "replica_c", "NUNGAKES_REPLICA_ARCHIVE");
}
