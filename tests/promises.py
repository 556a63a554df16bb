"""Fails if a name in docs/PROMISES.md is not declared in the file given for it."""
import pathlib
import re
import sys

ROOT = pathlib.Path(__file__).resolve().parent.parent
ENTRY = re.compile(r"`([\w/]+\.(?:antt|rt)): ([^`]+)`")

# antt: a signature, also of a constructor or a field; a record or a data type. Rattle: a function, a struct or an enum.
MARKS = r"^\s*(?:(?:abbrev|unfoldable)\s+)?(?:pub\s+)?"
DECLARED = {
    ".antt": [MARKS + r"{}(?:\s+\{{[^}}]*\}})*\s*:(?:\s|$)", MARKS + r"(?:record|data)\s+{}(?:\s|$)"],
    ".rt": [r"^\s*(?:pub(?:\(crate\))?\s+)?(?:extern\s+\"C\"\s+)?(?:fn|struct|enum)\s+{}(?![\w-])"],
}
COMMENT = {".antt": r"(?:^|\s)--(?:\s.*)?$", ".rt": r"//.*$"}


def declares(file, name):
    text = re.sub(COMMENT[file.suffix], "", file.read_text(), flags=re.MULTILINE)
    return any(re.search(form.format(re.escape(name)), text, re.MULTILINE) for form in DECLARED[file.suffix])


def missing(page):
    for path, names in ENTRY.findall(page):
        file = ROOT / "crates" / path
        for name in (n.strip() for n in names.split(",")):
            if not (file.exists() and declares(file, name)):
                yield f"{path}: {name}"


page = (ROOT / "docs" / "PROMISES.md").read_text()
entries = sum(len(names.split(",")) for _, names in ENTRY.findall(page))
lost = list(missing(page))
for name in lost:
    print("not declared there:", name)
print(f"{entries - len(lost)} passed, {len(lost)} failed")
sys.exit(1 if lost else 0)
