//! directed FOLDER: writes the scripts that are made for one place each. A script that misses its place is a panic.

fn main() {
    let Some(folder) = std::env::args().nth(1) else { tools::give_up("usage: directed FOLDER") };
    for (name, lines) in tools::directed::scripts() {
        let file = std::path::Path::new(&folder).join(format!("{name}.session"));
        // Scripts are laid end to end in one run, so each begins afresh.
        let text = format!("new\n{}\n", lines.join("\n"));
        std::fs::write(&file, text).unwrap_or_else(|e| tools::give_up(&format!("{}: {e}", file.display())));
    }
}
