//! The page in a browser, where Debian's chromium is at hand: it opens without a message on the
//! console, is no wider than the window, and shows what is chosen, by a click and by a key.

mod parts;

use std::fs;
use std::io::{self, Write};
use std::process::{Command, Output};

use parts::{boards, page, root};

/// What a test does on the page, and notes in its title.
const USE: &str = r##"<script>
const cells = [...document.querySelectorAll(".map .held")];
const shown = () => [...document.querySelectorAll(".variable")].filter((one) => one.offsetParent !== null);
const faults = [];
for (const cell of cells) {
  cell.click();
  const names = shown().map((one) => one.dataset.v).join();
  if (names !== cell.dataset.v) faults.push(`${cell.dataset.v} chosen, ${names} shown`);
  cells[0].dispatchEvent(new PointerEvent("pointerenter"));
  if (shown()[0]?.dataset.v !== cells[0].dataset.v) faults.push("the pointer shows nothing");
  cells[0].dispatchEvent(new PointerEvent("pointerleave"));
}
cells[0].focus();
document.activeElement.dispatchEvent(new KeyboardEvent("keydown", { key: "ArrowRight", bubbles: true }));
if (document.activeElement !== cells[Math.min(1, cells.length - 1)]) faults.push("the key does not move");
const wide = document.documentElement.scrollWidth - innerWidth;
if (wide > 0) faults.push(`${wide} pixels too wide`);
document.title = `${cells.length} cells, ${faults.length} faults: ${faults.join("; ")}`;
</script>"##;

/// Opens a page in a window of this width, and gives what it has become and what the browser said.
fn opened(browser: &str, name: &str, page: &str, width: usize) -> Output {
    let folder = root().join("target/pages");
    fs::create_dir_all(&folder).expect("a folder");
    let path = folder.join(format!("{name}-used.html"));
    fs::write(&path, page).expect("it is written");
    let path = path.canonicalize().expect("a path");
    let profile = folder.join("profile");
    Command::new(browser)
        .args(["--headless", "--no-sandbox", "--disable-gpu", "--dump-dom"])
        .args([
            "--disable-dev-shm-usage",
            &format!("--user-data-dir={}", profile.display()),
        ])
        .args([
            "--enable-logging=stderr",
            &format!("--window-size={width},900"),
        ])
        .arg(format!("file://{}", path.display()))
        .output()
        .expect("the browser runs")
}

#[test]
fn it_opens_and_is_used() {
    let browser = "chromium";
    let version = Command::new(browser).arg("--version").output();
    if !version.is_ok_and(|version| version.status.success()) {
        // Past the capture of a test that passes: who runs it sees the line.
        writeln!(io::stderr(), "no {browser} here: no page was opened in it").expect("a line");
        return;
    }
    let few = ["busmouse", "ide", "pci", "scoring"];
    for (name, text) in boards()
        .into_iter()
        .filter(|board| few.contains(&board.0.as_str()))
    {
        let used = page(&text).replace("</body>", &format!("{USE}</body>"));
        for width in [500, 1440] {
            let output = opened(browser, &name, &used, width);
            let said = String::from_utf8_lossy(&output.stderr);
            assert!(!said.contains("CONSOLE"), "{name} {width}: {said}");
            let became = String::from_utf8_lossy(&output.stdout);
            let title = parts::one(&became, "<title>", "</title>");
            assert!(title.contains(" 0 faults"), "{name} {width}: {title}");
        }
    }
}
