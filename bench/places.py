"""Where the programs and their inputs stand, and how each program is built."""

from pathlib import Path

TOP = Path(__file__).resolve().parent.parent
PROGRAM = TOP / "crates/cdfedit/out/cdfedit"
LIBRARIES = TOP / "crates/cdf_bench/out/cdf_bench"
NEW_FILE = TOP / "crates/cdfedit/data/new.cdf"
MADE = TOP / "bench/made"
PLAIN = MADE / "plain"
TIME = Path("/usr/bin/time")
MB = 1_000_000
MIB = 1 << 20
BUILT_BY = {
    PROGRAM: "cd crates/cdfedit && rt run -- data/new.cdf < stdin",
    LIBRARIES: "cd crates/cdf_bench && rt run -- rle 1000",
    PLAIN: "rustc -O -o bench/made/plain bench/plain.rs",
}
