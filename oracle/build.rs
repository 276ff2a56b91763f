//! Takes vm.rs, executor.rs and mod.rs from the folder named by GELRUPTAI_RUST, applies the edits of patches/ to the
//! copies in OUT_DIR, and with the feature `planted` those of plants/. An edit whose text is not found exactly once
//! stops the build.
use std::{env, fs, path::Path};

const FILES: [&str; 3] = ["vm.rs", "executor.rs", "mod.rs"];

/// Modules that mod.rs names and that this project has no part in.
const EMPTY: [&str; 5] = ["objects.rs", "pass.rs", "signatures.rs", "slices.rs", "tracker.rs"];

fn main() {
    println!("cargo::rerun-if-env-changed=GELRUPTAI_RUST");
    let here = env::var("CARGO_MANIFEST_DIR").unwrap();
    let here = Path::new(&here);
    let given = env::var("GELRUPTAI_RUST").unwrap_or_else(|_| "../../shared/docs/src/analysis".into());
    // The folder itself, or one that holds it as the public repository does.
    let given = here.join(given);
    let tried = [given.clone(), given.join("analysis"), given.join("src/analysis")];
    let given = tried.into_iter().find(|f| f.join("vm.rs").exists()).unwrap_or(given);
    let out = Path::new(&env::var("OUT_DIR").unwrap()).join("analysis");
    fs::create_dir_all(&out).unwrap();

    let mut texts: Vec<String> = Vec::new();
    for name in FILES {
        let path = given.join(name);
        println!("cargo::rerun-if-changed={}", path.display());
        let text = fs::read_to_string(&path).unwrap_or_else(|e| {
            panic!("{}: {e}. Set GELRUPTAI_RUST to the folder that holds vm.rs, executor.rs and mod.rs", path.display())
        });
        texts.push(text);
    }
    let vm = texts[0].clone();
    apply(&here.join("patches"), &mut texts);
    assert!(texts[0] == vm, "vm.rs is taken as it is");
    if env::var("CARGO_FEATURE_PLANTED").is_ok() {
        apply(&here.join("plants"), &mut texts);
    }
    for (name, text) in FILES.iter().zip(&texts) {
        fs::write(out.join(name), text).unwrap();
    }
    for name in EMPTY {
        fs::write(out.join(name), "").unwrap();
    }
    fs::copy(here.join("src/cfa.rs"), out.join("cfa.rs")).unwrap();
    println!("cargo::rerun-if-changed=src/cfa.rs");
}

fn apply(folder: &Path, texts: &mut [String]) {
    println!("cargo::rerun-if-changed={}", folder.display());
    let mut paths: Vec<_> = fs::read_dir(folder).unwrap().map(|e| e.unwrap().path()).collect();
    paths.sort();
    for path in paths {
        let text = fs::read_to_string(&path).unwrap();
        let mut lines = text.lines();
        let file = lines.next().and_then(|l| l.strip_prefix("file: ")).expect("first line: 'file: NAME'");
        let at = FILES.iter().position(|f| *f == file).expect("a file that is taken");
        assert!(lines.next().is_some_and(|l| l.starts_with("reason: ")), "second line: 'reason: ...'");
        let (mut old, mut new, mut part, mut edits) = (String::new(), String::new(), 0, 0);
        for line in lines {
            match (part, line) {
                (0, "--- old") => part = 1,
                (1, "--- new") => part = 2,
                (2, "--- end") => {
                    let count = texts[at].matches(&old).count();
                    assert!(count == 1, "{}: found {count} times in {file}: {old}", path.display());
                    texts[at] = texts[at].replace(&old, &new);
                    (old, new, part, edits) = (String::new(), String::new(), 0, edits + 1);
                }
                (1, _) => {
                    old.push_str(line);
                    old.push('\n')
                }
                (2, _) => {
                    new.push_str(line);
                    new.push('\n')
                }
                _ => {}
            }
        }
        assert!(part == 0 && edits > 0, "{}: no whole edit", path.display());
    }
}
