//! What .ci/pack makes: a folder in which everything is ready, and an archive that ./first can start from.

use std::fs;
use std::path::{Path, PathBuf};

use crate::started::{apart, is_picture_here, shell, Ended};

/// A repository of its own: this tree, committed, with what is built here. The archive for C may be any file, and where
/// the picture cannot be built another program stands for it.
fn cloned(folder: &Path) -> Ended {
    let picture = "rust/target/x86_64-unknown-linux-gnu/release/picture";
    let of_picture = match is_picture_here() {
        true => picture,
        false => "crates/verdict/out/verdict",
    };
    let line = format!(
        "set -e; ./desfanuk map --html boards/lamp.devil > /dev/null || [ {of_picture} != {picture} ]
         to={}/tree; mkdir -p $to
         tar -c --exclude=./target --exclude=./rust/target --exclude='./crates/*/out' --exclude=./.git . | tar -x -C $to
         mkdir -p $to/target $to/rust/target/release $to/crates/abi/out $to/$(dirname {picture})
         for name in $(ls crates/*/src/main.rt | cut -d/ -f2); do cp --parents crates/$name/out/$name $to/; done
         echo archive > $to/crates/abi/out/libabi.a
         cp {} $to/rust/target/release/command
         cp {of_picture} $to/{picture}
         cd $to; git init -q .; git add -A
         git -c user.name=test -c user.email=test@localhost -c commit.gpgsign=false commit -qm packed",
        folder.display(),
        env!("CARGO_BIN_EXE_command")
    );
    shell(&line)
}

fn good(ended: Ended) -> String {
    assert_eq!(ended.code, 0, "{ended:?}");
    ended.out
}

fn trouble(ended: Ended, words: &str) {
    assert_eq!(ended.code, 2, "{ended:?}");
    assert!(ended.err.contains(words), "{ended:?}");
}

/// A tree, and the archive that was packed in it.
struct Packed {
    tree: PathBuf,
    name: String,
}

impl Packed {
    fn inside(&self, line: &str) -> Ended {
        shell(&format!("cd {} && {line}", self.tree.display()))
    }
}

/// Only what the gate has passed on is packed, and one commit gives one archive.
fn packed(folder: &Path) -> Packed {
    good(cloned(folder));
    let mut packed = Packed {
        tree: folder.join("tree"),
        name: String::new(),
    };
    trouble(packed.inside(".ci/pack"), "the gate has not passed here");
    good(packed.inside("(git rev-parse HEAD; echo '87 passed, 0 failed') > target/gate"));
    let sum = good(packed.inside(".ci/pack"));
    assert_eq!(sum, good(packed.inside(".ci/pack")));
    trouble(packed.inside("echo >> README.md; .ci/pack"), "-dirty");
    good(packed.inside("git checkout -q README.md"));
    let name = sum.split_whitespace().nth(1);
    packed.name = name.expect("the archive's name").to_string();
    packed
}

/// Unpacked, it needs no cargo, and no kit where programs run without an emulator.
fn is_ready_alone(packed: &Packed, alone: &Path) {
    let path = if cfg!(target_arch = "x86_64") {
        "/usr/bin:/bin"
    } else {
        "$PATH"
    };
    let plain = |line: &str| shell(&format!("cd {} && PATH={path} {line}", alone.display()));
    fs::create_dir(alone).expect("made");
    let (tree, name) = (packed.tree.display(), &packed.name);
    let unpack = format!("tar -xzf {tree}/target/{name} --strip-components=1");
    good(plain(&unpack));
    let told = good(plain("./desfanuk check boards/lamp.devil"));
    assert!(told.contains(": accepted: "), "{told}");
    let page = good(plain("./desfanuk map --html boards/lamp.devil"));
    assert!(
        page.contains("<h1>lamp</h1>") || !is_picture_here(),
        "{page}"
    );
    let told = good(plain("./first"));
    assert!(told.contains("gate 87 passed, 0 failed"), "{told}");
    assert!(told.contains("refused 28"), "{told}");
    good(plain("echo >> boards/lamp.devil"));
    trouble(plain("./first"), "not as it was packed");
}

/// A tree without programs takes them from the archive, if its crates are the same.
fn starts_from_it(packed: &Packed) {
    let name = &packed.name;
    good(packed.inside(&format!("cp target/{name} .. && rm -r crates/*/out")));
    let told = good(packed.inside(&format!("./first --from ../{name} boards/lamp.devil")));
    assert!(told.contains("gate 87 passed, 0 failed"), "{told}");
    assert!(told.contains("device lamp"), "{told}");
    good(packed.inside("echo '// more' >> crates/verdict/src/main.rt"));
    let other = packed.inside(&format!("./first --from ../{name}"));
    trouble(other, "from other crates");
    trouble(packed.inside("./first --from README.md"), "not an archive");
}

#[test]
fn what_is_packed_is_ready_to_run() {
    let folder = apart("packed");
    fs::create_dir(&folder).expect("made");
    let packed = packed(&folder);
    is_ready_alone(&packed, &folder.join("alone"));
    starts_from_it(&packed);
    fs::remove_dir_all(folder).expect("removed");
}
