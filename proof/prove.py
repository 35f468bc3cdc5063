#!/usr/bin/env python3
"""A tool of proof: proves one crate from what the crates below it state, in the quick loop while you write.

    proof/prove.py CRATE [WORD..]

The crates below are proved first, unless they are already (`tools/build.py` says how). The words go to `rattle check`: with `--only F`
it proves one function, and with `--allow-holes` it prints the goal and the usable names at each `?`. What it finds out is kept in
out/prove of the crate, so the next run proves only what an edit touches.
"""

import subprocess
import sys

from prover import Failure, Prover, count_jobs, prove_in_order


def main() -> int:
    """Proves the crates below, and then the crate itself."""
    prover, crate, words = Prover(), sys.argv[1], sys.argv[2:]
    try:
        for name in prove_in_order(prover, prover.below(crate)):
            print(f"{name} is proved", file=sys.stderr)
    except Failure as failure:
        print(failure, file=sys.stderr)
        return 1
    root = "src/main.rt" if (prover.folders[crate] / "src/main.rt").is_file() else "src/lib.rt"
    (prover.folders[crate] / "out").mkdir(exist_ok=True)
    command = [*prover.words("check", crate, root), "--jobs", str(count_jobs()), "--incremental", "out/prove", *words]
    return subprocess.run(command, cwd=prover.folders[crate], check=False).returncode


if __name__ == "__main__":
    sys.exit(main())
