"""The libraries that `rt ci` proved and left in this tree, crates/NAME/out/rlib/NAME.rlib, and the
words by which rattle takes them."""
import functools
import hashlib
import pathlib
import subprocess

ROOT = pathlib.Path(__file__).resolve().parent.parent
CRATES = ROOT / "crates"
# the folders of a crate that a proof reads
PARTS = ("src", "specs", "proofs")


@functools.cache
def kit():
    page = subprocess.run(["rt", "doc"], stdout=subprocess.PIPE, text=True, check=True).stdout
    return pathlib.Path(page.strip()).parent


def rlib(name):
    return CRATES / name / "out/rlib" / f"{name}.rlib"


def listed():
    """What crates.txt says: the libraries that each crate uses."""
    found = {}
    for line in (ROOT / "crates.txt").read_text().splitlines():
        head, _, uses = line.partition("#")[0].partition(":")
        if head.strip():
            found[head.split()[0]] = uses.split()
    return found


def below(name, crates):
    """The repository's libraries below the crate, each after those that it uses."""
    found = []
    for dep in crates[name]:
        if dep in crates:
            found += [it for it in [*below(dep, crates), dep] if it not in found]
    return found


def sources(name):
    """The files of the crate that a proof reads."""
    found = []
    for part in PARTS:
        found += sorted(it for it in (CRATES / name / part).rglob("*") if it.is_file())
    return found


def sum_of(files):
    found = hashlib.sha256()
    for file in files:
        text = file.read_bytes() if file.exists() else None
        found.update(repr((str(file.relative_to(ROOT)), text)).encode())
    return found.hexdigest()


def words_over(name, crates):
    """The words of a check of the crate over these libraries and those of the kit."""
    tools = kit()
    is_program = (CRATES / name / "src/main.rt").is_file()
    words = ["--crate-name", name, "src/main.rt" if is_program else "src/lib.rt"]
    for it in ["std", *crates[name]]:
        words += ["--extern", f"{it}={rlib(it) if it in crates else tools / f'rlibs/{it}.rlib'}"]
    for folder in [tools / "rlibs", *[rlib(it).parent for it in below(name, crates)]]:
        words += ["-L", f"dependency={folder}"]
    words += ["--antt-project", tools / "rattle/logic/antt-project.json"]
    return [*words, "--logic-built", tools / "logic_built"]
