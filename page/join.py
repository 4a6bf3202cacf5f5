"""Joins ES modules into one script, which stands in the page and loads nothing.

The modules that a script needs, and those that they need, come before it, each once. All have one scope, so no two may
declare the same name, and a name is imported as it is. `tsc` and the unit tests read the modules themselves."""

import re
from pathlib import Path

IMPORT = re.compile(r"^import \{([^}]*)\} from '\./(\w+)\.js';\n", re.MULTILINE)
EXPORT = re.compile(r"^export (?=(?:async )?(?:function|class|const|let)\b)", re.MULTILINE)
EXPORTED = re.compile(r"^export (?:async )?(?:function\*?|class|const|let) ([\w$]+)", re.MULTILINE)
DECLARED = re.compile(r"^(?:async )?(?:function\*?|class|const|let) ([\w$]+)", re.MULTILINE)
OTHER = re.compile(r"^(?:import|export)\b.*", re.MULTILINE)


class NotJoined(Exception):
    """Why modules cannot be joined."""


def names_in(listed: str) -> list[str]:
    """The names of an import."""
    names = [it.strip() for it in listed.split(",") if it.strip()]
    for it in names:
        if not re.fullmatch(r"[\w$]+", it):
            raise NotJoined(f"a name is imported under its own name, and not as in `{it}`")
    return names


def joined(folder: Path, entry: str) -> str:
    """The module `entry` of the folder with all that it needs, as one strict script."""
    found: dict[str, str] = {}
    exported: dict[str, set[str]] = {}
    owner: dict[str, str] = {}

    def add(name: str, above: tuple[str, ...]) -> None:
        if name in above:
            raise NotJoined(f"modules need each other: {' -> '.join((*above, name))}")
        if name in found:
            return
        text = (folder / f"{name}.js").read_text(encoding="utf-8")
        for names, other in IMPORT.findall(text):
            add(other, (*above, name))
            for it in names_in(names):
                if it not in exported[other]:
                    raise NotJoined(f"{name}.js imports {it}, which {other}.js does not export")
        exported[name] = set(EXPORTED.findall(text))
        bare = re.sub(r"\n{3,}", "\n\n", EXPORT.sub("", IMPORT.sub("", text)).strip("\n"))
        if left := OTHER.search(bare):
            raise NotJoined(f"{name}.js: {left[0]}")
        for it in DECLARED.findall(bare):
            if owner.setdefault(it, name) != name:
                raise NotJoined(f"{owner[it]}.js and {name}.js both declare {it}")
        found[name] = bare

    add(entry, ())
    return "'use strict';\n\n" + "\n\n".join(found.values()) + "\n"
