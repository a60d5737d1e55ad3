"""What the sources say of themselves, for the checks of this folder: the crates with their kinds, and their public functions."""
import re
from pathlib import Path

ROOT = Path(__file__).resolve().parent.parent
PUBLIC = re.compile(r'^\s*pub\s+(?:(?!fn\b)[\w"]+\s+)*fn\s+(\w+)', re.M)
KINDS = ["theory", "inner", "entry", "program", "probe"]


def flat(text):
    return " ".join(text.split())


def braced(text, start):
    """What stands between the brace at `start` and the one that closes it."""
    depth = 0
    for at in range(start, len(text)):
        depth += {"{": 1, "}": -1}.get(text[at], 0)
        if depth == 0:
            return text[start + 1 : at]
    raise AssertionError("a brace is not closed")


def crates():
    """The crates of crates.txt, lowest first: name -> (kind, what it uses). The comment line above a crate opens with its kind."""
    found, above = {}, ""
    for line in (ROOT / "crates.txt").read_text().splitlines():
        if line.startswith("#"):
            above = line.lstrip("# ")
        elif line.strip():
            name, uses = line.split(":")
            name = name.split()[0]  # a static library is marked behind its name
            kind = above.split(":")[0]
            assert kind in KINDS, f"crates.txt: the line above {name} does not open with its kind ({', '.join(KINDS)})"
            found[name], above = (kind, uses.split()), ""
    return found


def texts(crate):
    """The sources of a crate without their comments."""
    for path in sorted((ROOT / "crates" / crate / "src").glob("**/*.rt")):
        yield path, re.sub(r"//[^\n]*", "", path.read_text())


def functions(crate):
    """The public functions of a crate: name -> (signature, its ensures, whether it has a requires)."""
    found = {}
    for _, text in texts(crate):
        for match in PUBLIC.finditer(text):
            name = match.group(1)
            assert name not in found, f"{crate}: two public functions {name}"
            body = re.compile(r"\{").search(text, match.end())
            head = text[match.end() : body.start()]
            asks, says, at = False, [], match.end()
            while clause := re.compile(r"[^{]*?\b(requires|ensures)\*?(?:\s+\w+)?\s*(?=\{)").match(text, at):
                inside = braced(text, clause.end())
                asks = asks or clause.group(1) == "requires"
                says += [flat(inside)] if clause.group(1) == "ensures" else []
                at = clause.end() + len(inside) + 2
            signature = flat(re.split(r"\b(?:requires|ensures)\b", head)[0])
            found[name] = (signature.replace("( ", "(").replace(", )", ")"), says, asks)
    return found
