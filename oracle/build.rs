//! Takes gc.rs (oracle/build says from where), applies the patches below and writes the result into OUT_DIR.
//! Each patch names how often its text must be found; any other count stops the build. README.md gives the reasons.

use std::{env, fs, path::Path, process};

/// Text in gc.rs, what stands there instead, how often. No patch changes the number of lines, so places that a panic
/// names are those of gc.rs.
const PATCHES: &[(&str, &str, usize)] = &[
    // 1. ListsHeader is private in gimli 0.27.
    ("gimli::ListsHeader", "crate::shims::ListsHeader", 3),
    // 2. gimli 0.27 does not know the operation.
    (
        "            gimli::Operation::VariableValue { offset } => {\n",
        "            #[cfg(any())] gimli::Operation::VariableValue { offset } => {\n",
        1,
    ),
    // 3. gimli 0.27 has no root_offset.
    ("header.root_offset().0", "header.size_of_header()", 1),
    // 4. gimli 0.27 indexes its slices by open ranges only.
    ("&expr[copied..r.pos]", "&expr.slice()[copied..r.pos]", 1),
];

/// 5. The hook: entries met, references, marks.
const HOOKS: &[(&str, &str, usize)] = &[
    (
        "        offset_to_index.insert(offset, index);\n",
        "        offset_to_index.insert(offset, index); probe::entry(index);\n",
        1,
    ),
    (
        "        let parent = parent_stack.last().copied();\n",
        "        let parent = parent_stack.last().copied(); probe::edges(&edges);\n",
        1,
    ),
    (
        "    let total_dies = dies.len();\n",
        "    let total_dies = dies.len(); probe::marks(&dies, &offset_to_index);\n",
        1,
    ),
];

/// 6. Not of gc.rs: fixed addresses, where the choice is on. Off, it changes nothing.
const FIXED_ADDRESSES: &[(&str, &str, usize)] = &[(
    "        if let gimli::Operation::AddressIndex { index } = op {\n",
    "        if let gimli::Operation::Address { address } = op { \
         if probe::fixed_addresses() && !is_tombstone(address, encoding.address_size) { (saw_addrx, any_live) = (true, true); } } \
         if let gimli::Operation::AddressIndex { index } = op {\n",
    1,
)];

/// 7. Not of gc.rs: a keep list, where one is given. The root test is asked first. Without a list it changes nothing.
const KEEP_LIST: &[(&str, &str, usize)] = &[
    ("        if is_root(\n            tag,\n", "        if probe::treated(tag, is_root(\n            tag,\n", 1),
    (
        "        )? {\n            liveness = Liveness::Live;\n",
        "        )?) {\n            liveness = Liveness::Live;\n",
        1,
    ),
];

fn patch(text: String, patches: &[(&str, &str, usize)]) -> String {
    patches.iter().fold(text, |text, (old, new, times)| {
        let found = text.matches(old).count();
        assert_eq!(found, *times, "gc.rs: found {found} times, not {times}: {old}");
        text.replace(old, new)
    })
}

/// Ends the build with a line.
fn stop(message: &str) -> ! {
    eprintln!("{message}");
    process::exit(1)
}

/// Writes a module and returns its declaration.
fn module(out: &str, name: &str, text: &str) -> String {
    let file = format!("{out}/{name}.rs");
    fs::write(&file, text).unwrap();
    format!("#[allow(dead_code, clippy::all)]\n#[path = {file:?}]\nmod {name};\n")
}

fn main() {
    let here = env::var("CARGO_MANIFEST_DIR").unwrap();
    let source = env::var("GC_RS").unwrap_or_default();
    println!("cargo:rerun-if-env-changed=GC_RS");
    println!("cargo:rerun-if-changed={source}");
    println!("cargo:rerun-if-changed=build.rs");
    println!("cargo:rerun-if-changed=src/probe.rs");

    let Ok(text) = fs::read_to_string(&source) else {
        stop("no source of the original: the variable GC_RS names it, and oracle/build sets it");
    };
    // Without the hook, fixed addresses and keep lists: what is measured.
    let plain = patch(text, PATCHES);
    let mut text = patch(patch(patch(plain.clone(), HOOKS), FIXED_ADDRESSES), KEEP_LIST);
    // 8. The module that sees gc.rs's private names.
    text.push_str(&format!("\n#[path = {:?}]\npub(crate) mod probe;\n", format!("{here}/src/probe.rs")));

    if env::var_os("CARGO_FEATURE_PORT").is_some() {
        println!("cargo:rerun-if-env-changed=COLLECTOR");
        let archive = env::var("COLLECTOR").unwrap_or_else(|_| format!("{here}/../target/staticlib/libcollector.a"));
        if !Path::new(&archive).exists() {
            stop(&format!("no archive {archive}: tests/archive writes it; COLLECTOR names another"));
        }
        println!("cargo:rerun-if-changed={archive}");
        for program in ["differ", "bench"] {
            println!("cargo:rustc-link-arg-bin={program}={archive}");
        }
    }

    let out = env::var("OUT_DIR").unwrap();
    let declarations = module(&out, "gc", &text) + &module(&out, "plain", &plain);
    fs::write(format!("{out}/declare.rs"), declarations).unwrap();
}
