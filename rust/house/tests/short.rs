//! Functions are short.

use house::functions::functions;
use house::tree::below;

/// The most lines of a function, its contract counted.
const MOST: usize = 40;

#[test]
fn no_function_is_over_forty_lines() {
    let mut long = Vec::new();
    let mut read = 0;
    for file in below("crates", ".rt") {
        for function in functions(&file.text) {
            read += 1;
            if function.lines > MOST {
                long.push(format!(
                    "{} {}: {} lines",
                    file.path, function.name, function.lines
                ));
            }
        }
    }
    assert!(read > 500, "{read} functions read");
    assert!(long.is_empty(), "over {MOST} lines:\n{}", long.join("\n"));
}
