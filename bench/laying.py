"""Lays a repository with a program for measuring or comparing, and copies of the crates that it stands on."""
import pathlib
import shutil

ROOT = pathlib.Path(__file__).resolve().parent.parent

# What programs read that get texts in hexadecimal digits.
HEXADECIMAL = """
fn digit(b: u8) -> u8 {
    if b >= 48 && b < 58 { b - 48 } else if b >= 97 && b < 103 { b - 87 } else { 0 }
}

fn bytes(alloc: Global, hex: &[u8]) -> io::Result<Vec<u8>> {
    let mut found = Vec::new(alloc);
    let mut high = 0;
    for (i, b) in hex.iter().enumerate() {
        if i % 2 == 0 {
            high = digit(*b);
        } else {
            found.push(high.wrapping_mul(16).wrapping_add(digit(*b)))?;
        }
    }
    Ok(found)
}
"""


def libraries():
    """The libraries of each crate."""
    lines = (line.partition(":") for line in (ROOT / "crates.txt").read_text().splitlines())
    return {name.split()[0]: below.split() for name, _, below in lines}


def lay(folder, name, below, program):
    """A program over the crates named in `below`: of these, and of all below them, the sources are copied with what was
    proved of them."""
    source = folder / "crates" / name / "src"
    source.mkdir(parents=True, exist_ok=True)
    (source / "main.rt").write_text(program)
    known, left, needed = libraries(), below.split(), []
    while left:
        crate = left.pop()
        if crate in known and crate not in needed:
            needed.append(crate)
            left += known[crate]
    lines = [f"{crate}: {' '.join(known[crate])}" for crate in known if crate in needed]
    (folder / "crates.txt").write_text("\n".join([*lines, f"{name}: {below}", ""]))
    for crate in needed:
        shutil.rmtree(folder / "crates" / crate, ignore_errors=True)
        shutil.copytree(ROOT / "crates" / crate, folder / "crates" / crate)
