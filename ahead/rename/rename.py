"""Renames definitions, types, functions, modules and crates of this repository by a table.

`python3 ahead/rename/rename.py [TABLE]` at the top of a checkout changes its files in place. It finds out by imports
which files mean the definition of a line, so that one name in two senses becomes two names. It stops, with nothing
changed, where a new name stands already in a file that a line would change: so each line can be turned back, and
nothing but names changes.
"""
import re
import subprocess
import sys
from pathlib import Path

WORD = r"[\w⊎≡]"
TEXTS = {".rt", ".antt", ".edit", ".md", ".txt", ".py", ".toml", ".cfg", ".json", ".plan", ".pattern", ""}


def whole(name: str) -> "re.Pattern[str]":
    """The pattern of a whole word."""
    return re.compile(rf"(?<!{WORD}){re.escape(name)}(?!{WORD})")


def renamed(text: str, old: str, new: str) -> str:
    """The text with a word replaced, but where it stands behind a type's name and '::', where it is a variant, and in the
    prose of a comment."""
    def change(found: "re.Match[str]") -> str:
        before = text[max(0, found.start() - 60):found.start()]
        line = text[text.rfind("\n", 0, found.start()) + 1:found.start()]
        is_prose = re.match(r"\s*(?://|--)", line) and line.count("`") % 2 == 0
        return old if is_prose or re.search(r"(?<![\w:])[A-Z]\w*::$", before) else new
    return whole(old).sub(change, text)


def tracked() -> "list[Path]":
    """All files of the checkout that git tracks or would."""
    listed = subprocess.run(["git", "ls-files", "-co", "--exclude-standard"], capture_output=True, text=True, check=True)
    return [Path(name) for name in listed.stdout.splitlines() if Path(name).is_file()]


def split_list(text: str) -> "list[str]":
    """Splits at commas that stand in no braces."""
    parts, depth, now = [], 0, ""
    for sign in text:
        if sign == "," and depth == 0:
            parts.append(now)
            now = ""
            continue
        depth += {"{": 1, "}": -1}.get(sign, 0)
        now += sign
    return [part.strip() for part in [*parts, now] if part.strip()]


def flatten(path: str) -> "list[str]":
    """The full paths of a Rust `use`, with '::' between parts."""
    head, brace, rest = path.partition("{")
    if not brace:
        return [re.sub(r"\s+as\s+\w+$", "", path.strip())]
    return [full for part in split_list(rest.rsplit("}", 1)[0]) for full in flatten(head.strip() + part)]


RUST_USE = re.compile(r"^\s*(?:pub(?:\([a-z]+\))? )?use ([\w:]+(?:::)?(?:\{[^;]*\})?(?: as \w+)?);", re.M)
ALIAS = re.compile(r"^\s*(?:pub )?(?:ghost )?use (Rattle\.[\w.]+) as (\w+);?$", re.M)
GHOST_USE = re.compile(r"^\s*(?:pub )?(?:ghost )?use (Rattle\.[\w.]+?)(?:\.\{([^}]*)\})?;?(?: as \w+;?)?$", re.M)


class Text:
    """A file's text with what it imports."""

    def __init__(self, path: Path) -> None:
        self.path = path
        self.text = path.read_text(encoding="utf-8")
        self.is_code = path.suffix in (".rt", ".antt")
        self.rust = set()
        self.ghost = set()
        self.aliases: "dict[str, str]" = {}
        if path.suffix == ".rt":
            for found in RUST_USE.finditer(self.text):
                self.rust.update(flatten(found.group(1)))
            self.rust.update(re.findall(r"(?<![\w.])(?:crate|wire_\w+)(?:::\w+)+", self.text))
        if self.is_code:
            self.aliases = {found.group(2): found.group(1) for found in ALIAS.finditer(self.text)}
            for found in GHOST_USE.finditer(self.text):
                for name in split_list(found.group(2) or ""):
                    self.ghost.add(f"{found.group(1)}.{name}")
                if not found.group(2):
                    self.ghost.add(found.group(1))

    @property
    def crate(self) -> str:
        """The crate that the file belongs to, or ''."""
        parts = self.path.parts
        return parts[1] if parts[0] == "crates" and len(parts) > 2 else ""


class Renaming:
    """All changes of a table, held back until all are sound."""

    def __init__(self) -> None:
        self.files: "dict[Path, Text]" = {}
        self.moves: "dict[Path, Path]" = {}
        self.faults: "list[str]" = []
        for path in tracked():
            if path.suffix in TEXTS and not str(path).startswith("ahead/"):
                try:
                    self.files[path] = Text(path)
                except UnicodeDecodeError:
                    pass

    def fail(self, text: str) -> None:
        """Takes down a line that can't be done."""
        self.faults.append(text)

    def replace(self, scope: "list[Text]", old: str, new: str, line: str) -> None:
        """Replaces a whole word in these files."""
        variant = re.compile(rf"TheVariants\.\{{[^}}]*(?<!{WORD}){re.escape(old)}(?!{WORD})")
        for file in {id(file): file for file in scope}.values():
            if re.search(rf"(?<!{WORD})(?<!\.){re.escape(new)}(?!{WORD})", file.text):
                self.fail(f"{line}: {new} stands already in {file.path}")
            if variant.search(file.text):
                self.fail(f"{line}: {old} is a variant in {file.path}")
            file.text = renamed(file.text, old, new)

    def edits_of(self, scope: "list[Text]") -> "list[Text]":
        """The must-fail edits that change one of these files."""
        there = {(file.crate, "/".join(file.path.parts[2:])) for file in scope}
        return [file for file in self.files.values() if file.path.suffix == ".edit"
                and any((file.crate, target) in there for target in re.findall(r"^file: (\S+)$", file.text, re.M))]

    def spec(self, line: str, crate: str, module: str, old: str, new: str) -> None:
        """A definition of specs/MODULE.antt or proofs/MODULE.antt (written proofs/MODULE)."""
        folder, _, name = module.rpartition("/")
        folder = folder or "specs"
        home = self.files.get(Path("crates", crate, folder, name + ".antt"))
        full = f"Rattle.{crate}.{folder}.{name}.{old}"
        if home is None or not whole(old).search(home.text):
            self.fail(f"{line}: not there")
            return
        scope = [file for file in self.files.values() if file is home or full in file.ghost]
        self.replace(scope + self.edits_of(scope), old, new, line)
        for file in self.files.values():
            for alias, path in file.aliases.items():
                if path == f"Rattle.{crate}.{folder}.{name}":
                    pattern = rf"(?<!{WORD})(?<!\.){alias}\.{re.escape(old)}(?!{WORD})"
                    for changed in [file, *self.edits_of([file])]:
                        changed.text = re.sub(pattern, f"{alias}.{new}", changed.text)

    def code(self, line: str, crate: str, module: str, old: str, new: str) -> None:
        """A type or function of src/MODULE.rt, with the folder of its proofs."""
        home = self.files.get(Path("crates", crate, "src", module + ".rt"))
        if home is None or not whole(old).search(home.text):
            self.fail(f"{line}: not there")
            return
        path = module.replace("/", "::")
        inner = {f"crate::{path}::{old}", f"crate::{old}", f"{path}::{old}"}
        outer = {f"{crate}::{path}::{old}", f"{crate}::{old}"}
        declared = (f"Rattle.{crate}.specs.declared.{module.replace('/', '.')}.{old}", f"Rattle.{crate}.specs.declared.{old}")
        scope = []
        for file in self.files.values():
            own = file.crate == crate and (file is home or inner & file.rust)
            ghost = any(name == stem or name.startswith(stem + ".") for name in file.ghost for stem in declared)
            proof = file.crate == crate and f"/proofs/{module}/{old}/" in "/" + str(file.path)
            goals = file.crate == crate and any(f"Rattle.{crate}.proofs.{module.replace('/', '.')}.{old}." in name + "."
                                                for name in file.ghost)
            if own or outer & file.rust or ghost or proof or goals:
                scope.append(file)
        self.replace(scope + self.edits_of(scope), old, new, line)
        self.move(f"crates/{crate}/proofs/{module}/{old}/", f"crates/{crate}/proofs/{module}/{new}/")

    def module(self, line: str, crate: str, old: str, new: str) -> None:
        """A module src/OLD.rt, with the folder of its proofs."""
        if Path("crates", crate, "src", old + ".rt") not in self.files:
            self.fail(f"{line}: not there")
            return
        pattern = re.compile(rf"(?<!{WORD})(?:(?<=mod ){old}(?=;)|(?<=crate::){old}(?=::)|(?<=use ){old}(?=::)|(?<=crate::\{{){old}(?=::))")
        for file in self.files.values():
            if file.crate == crate:
                file.text = pattern.sub(new, file.text)
                file.text = re.sub(rf"^file: src/{old}\.rt$", f"file: src/{new}.rt", file.text, flags=re.M)
                file.text = file.text.replace(f"src/{old}.rt", f"src/{new}.rt")
            file.text = re.sub(rf"(Rattle\.{crate}\.(?:specs\.declared|proofs)\.){old}(?=\.)", rf"\g<1>{new}", file.text)
            file.text = re.sub(rf"(?<!{WORD}){crate}::{old}(?=::)", f"{crate}::{new}", file.text)
            file.text = file.text.replace(f"{crate}/src/{old}.rt", f"{crate}/src/{new}.rt")
        self.move(f"crates/{crate}/src/{old}.rt", f"crates/{crate}/src/{new}.rt")
        self.move(f"crates/{crate}/proofs/{old}/", f"crates/{crate}/proofs/{new}/")

    def file(self, line: str, crate: str, folder: str, old: str, new: str) -> None:
        """A file specs/OLD.antt or proofs/OLD.antt."""
        if Path("crates", crate, folder, old + ".antt") not in self.files:
            self.fail(f"{line}: not there")
            return
        if Path("crates", crate, folder, new + ".antt") in self.files:
            self.fail(f"{line}: {new} is there")
        listed = self.files[Path("crates", crate, folder, "Lib.antt")]
        listed.text = re.sub(rf"^((?:pub )?mod ){old}$", rf"\g<1>{new}", listed.text, flags=re.M)
        for file in self.files.values():
            file.text = re.sub(rf"Rattle\.{crate}\.{folder}\.{old}(?!{WORD})", f"Rattle.{crate}.{folder}.{new}", file.text)
            names = f"{folder}/{old}.antt"
            if file.crate == crate or f"{crate}/{names}" in file.text:
                file.text = file.text.replace(names, f"{folder}/{new}.antt")
        self.move(f"crates/{crate}/{folder}/{old}.antt", f"crates/{crate}/{folder}/{new}.antt")

    def word(self, line: str, crate: str, old: str, new: str) -> None:
        """A word in all code of a crate: for names of variables, fields and methods that mean one thing there."""
        scope = [file for file in self.files.values() if file.crate == crate and file.path.suffix in (".rt", ".antt", ".edit", ".md")]
        if not any(whole(old).search(file.text) for file in scope):
            self.fail(f"{line}: not there")
        self.replace(scope, old, new, line)
        for path in list(self.files):
            now = self.moves.get(path, path)
            if path.parts[:2] == ("crates", crate) and old in now.parts:
                self.moves[path] = Path(*(new if part == old else part for part in now.parts))

    def function(self, line: str, crate: str, module: str, old: str, new: str) -> None:
        """A function of src/MODULE.rt, with the folder of its proofs, and with the goals of those who call it."""
        home = self.files.get(Path("crates", crate, "src", module + ".rt"))
        if home is None or not whole(old).search(home.text):
            self.fail(f"{line}: not there")
            return
        path = module.replace("/", "::")
        inner = {f"crate::{path}::{old}", f"crate::{old}", f"{path}::{old}"}
        outer = {f"{crate}::{path}::{old}", f"{crate}::{old}"}
        callers = [file for file in self.files.values() if file is home or (file.crate == crate and inner & file.rust) or outer & file.rust]
        folders = tuple(str(file.path.with_suffix("")).replace("/src/", "/proofs/", 1) + "/" for file in callers)
        proofs = [file for file in self.files.values() if str(file.path).startswith(folders) and whole(old).search(file.text)]
        scope = callers + proofs
        self.replace(scope + self.edits_of(scope), old, new, line)
        self.move(f"crates/{crate}/proofs/{module}/{old}/", f"crates/{crate}/proofs/{module}/{new}/")

    def document(self, line: str, path: str, old: str, new: str) -> None:
        """A word in a document."""
        file = self.files.get(Path(path))
        if file is None or not whole(old).search(file.text):
            self.fail(f"{line}: not there")
            return
        file.text = whole(old).sub(new, file.text)

    def move(self, old: str, new: str) -> None:
        """Takes down that files lie elsewhere."""
        for path in list(self.files):
            now = str(self.moves.get(path, path))
            if now.startswith(old):
                self.moves[path] = Path(new + now[len(old):])

    def crates(self, pairs: "dict[str, str]") -> None:
        """Crates, all at once: a new name may be near an old one."""
        if not pairs:
            return
        pattern = re.compile(rf"(?<!{WORD})(?:{'|'.join(map(re.escape, sorted(pairs, key=len, reverse=True)))})(?!{WORD})")
        for path, file in self.files.items():
            file.text = pattern.sub(lambda found: pairs[found.group()], file.text)
            now = self.moves.get(path, path)
            parts = tuple(pairs.get(part, part) for part in now.parts)
            if parts != now.parts:
                self.moves[path] = Path(*parts)

    def apply(self) -> None:
        """Writes all, or tells each line that can't be done."""
        if self.faults:
            sys.exit("\n".join(self.faults))
        for path, file in self.files.items():
            if file.text != path.read_text(encoding="utf-8"):
                mode = path.stat().st_mode
                path.write_text(file.text, encoding="utf-8")
                path.chmod(mode)
        for old, new in self.moves.items():
            new.parent.mkdir(parents=True, exist_ok=True)
            subprocess.run(["git", "mv", str(old), str(new)], check=True)


def main() -> None:
    """Reads the table and changes the files."""
    table = Path(sys.argv[1]) if len(sys.argv) > 1 else Path(__file__).with_name("table.txt")
    renaming, crates = Renaming(), {}
    for line in table.read_text(encoding="utf-8").splitlines():
        words = line.split("#")[0].split()
        if not words:
            continue
        kind, rest = words[0], words[1:]
        if kind == "crate":
            crates[rest[0]] = rest[1]
        else:
            getattr(renaming, kind)(line, *rest)
    renaming.crates(crates)
    renaming.apply()


if __name__ == "__main__":
    main()
