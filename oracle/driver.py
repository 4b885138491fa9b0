"""What the commands here share: the Rust's side, built, and an end with a sentence where something is missing."""

import pathlib
import shutil
import subprocess
import sys

ROOT = pathlib.Path(__file__).resolve().parent.parent
WORK = ROOT / "target/oracle"


def stop(why):
    """Ends with a sentence that says why there is no answer."""
    print(f"{pathlib.Path(sys.argv[0]).name}: {why}", file=sys.stderr)
    sys.exit(2)


def built(crate):
    """Builds the Rust's side of a crate and gives its path."""
    if shutil.which("rustc") is None:
        stop("there is no rustc, which builds the Rust's side")
    WORK.mkdir(parents=True, exist_ok=True)
    driver = WORK / crate
    source = ROOT / f"oracle/{crate}.rs"
    if subprocess.run(["rustc", "-O", "--edition", "2021", "-o", driver, source]).returncode:
        stop(f"rustc does not build {source}")
    return driver


def started(main):
    """Runs a command. A file that cannot be read, written or run ends it with a sentence."""
    try:
        main()
    except OSError as error:
        stop(": ".join(str(part) for part in (error.filename, error.strerror) if part))
