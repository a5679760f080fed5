// Copies the published source, byte for byte, from the folder that AERODB_SRC names (by default ../shared/docs/src beside the project) and writes the modules that hold it.
// pager.rs ends in a doc comment with no item after it: one reading item goes after its last byte, the text before it stays as it is.
use std::path::{Path, PathBuf};
use std::{env, fs};

const FILES: [&str; 7] =
    ["storage/page", "storage/pager", "transaction/clog", "transaction/session", "transaction/state", "transaction/tx_table", "transaction/wal"];

// What the pager holds in private: next commit time, the resident pages with their bytes, the pages that its transaction has touched.
const READING: &str = "
impl Pager {
    pub fn seen(&self) -> (u64, Vec<(u32, PageData)>, Vec<u32>) {
        let time = self.counters().next_commit_ts;
        let resident = (0..self.frames.read().unwrap().len() as u32).filter_map(|p| self.resident_image(p).map(|b| (p, b))).collect();
        (time, resident, self.transaction().as_ref().map(|t| t.touched_pages().collect()).unwrap_or_default())
    }
}
";

fn main() {
    println!("cargo:rerun-if-env-changed=AERODB_SRC");
    let root = PathBuf::from(env::var("CARGO_MANIFEST_DIR").expect("the folder of this package")).join("..");
    let from = env::var("AERODB_SRC").map(|dir| root.join(dir)).unwrap_or_else(|_| root.join("../shared/docs/src")).join("src");
    let out = PathBuf::from(env::var("OUT_DIR").expect("a folder to write to"));
    for file in FILES {
        copy(&from, &out, file);
    }
    let of = |name: &str| format!("#[path = {:?}] pub mod {};", out.join(format!("{name}.rs")), &name[name.find('/').expect("a folder") + 1..]);
    let storage: Vec<String> = FILES[..2].iter().map(|f| of(f)).collect();
    let transaction: Vec<String> = FILES[2..].iter().map(|f| of(f)).collect();
    let text = format!(
        "pub mod storage {{ {} }}\npub mod transaction {{ {} pub use session::*; pub use state::*; pub use tx_table::*; }}\n",
        storage.join(" "),
        transaction.join(" ")
    );
    fs::write(out.join("published.rs"), text).expect("the modules");
}

fn copy(from: &Path, to: &Path, file: &str) {
    let source = from.join(format!("{file}.rs"));
    println!("cargo:rerun-if-changed={}", source.display());
    let mut bytes = fs::read(&source).unwrap_or_else(|e| panic!("{}: {e}", source.display()));
    if file == "storage/pager" {
        bytes.extend(READING.as_bytes());
    }
    let target = to.join(format!("{file}.rs"));
    fs::create_dir_all(target.parent().expect("a folder")).expect("a folder");
    fs::write(target, bytes).expect("a copy of the source");
}
