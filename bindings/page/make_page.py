#!/usr/bin/env python3
"""Puts the module, the scripts, the style and the examples into one page: make_page.py MODULE OUT [--hook]. Prints the
name of the page. With `--hook` it is a page for tests, which lets them see what it holds."""

import base64
import hashlib
import html
import json
import re
import subprocess
import sys
import zlib
from pathlib import Path

HERE = Path(__file__).resolve().parent
TOP = HERE.parents[1]
NOTICES = TOP / "THIRD-PARTY-NOTICES.txt"
EXAMPLES = ("mars_week", "mission", "two_passes", "in_order", "tight", "channel_limit", "first_run")
IMPORT = re.compile(r'^import \{[^}]*\} from "\./(\w+)\.js";\n', re.M)


def refuse(words: str) -> None:
    """Ends the program."""
    sys.exit(f"make_page: {words}")


def scripts(name: str, seen: list[str]) -> str:
    """A module of the page after those that it imports, as one script: no name is given twice, so that nothing has to
    be renamed."""
    if name in seen:
        return ""
    seen.append(name)
    text = (HERE / "src" / f"{name}.js").read_text(encoding="utf-8")
    below = "".join(scripts(other, seen) for other in IMPORT.findall(text))
    own = re.sub(r"^export (?=(?:async )?(?:function|class|const|let)\b)", "", IMPORT.sub("", text), flags=re.M)
    if re.search(r"^(?:import|export)\b", own, re.M):
        refuse(f"{name}.js imports or exports in another form")
    return below + own


def script(name: str) -> str:
    """A module with all that it imports as one script."""
    text = "\n" + scripts(name, [])
    names = re.findall(r"^(?:async )?(?:function\*?|class|const|let) ([A-Za-z]\w*)", text, re.M)
    twice = sorted({name for name in names if names.count(name) > 1})
    if twice:
        refuse(f"two modules have {', '.join(twice)}")
    return text


def source(text: str) -> str:
    """The source of a script or a style in a Content Security Policy."""
    return f"'sha256-{base64.b64encode(hashlib.sha256(text.encode()).digest()).decode()}'"


def examples() -> dict[str, dict[str, str]]:
    """The files of the examples: of a mission those that it names, of others the setup and the forecast."""
    found = {}
    for name in EXAMPLES:
        folder = TOP / "examples" / name
        is_mission = (folder / "mission.toml").exists()
        files = ("mission.toml", "passes.csv", "observations.csv") if is_mission else ("setup.toml", "forecast.csv")
        found[name] = {file: (folder / file).read_text(encoding="utf-8") for file in files}
    return found


def main(module: str, out: str, hook: str = "") -> None:
    """The program."""
    octets, code, style = Path(module).read_bytes(), script("hook" if hook == "--hook" else "main"), (
        HERE / "page.css").read_text(encoding="utf-8")
    kit = subprocess.run(["rt", "version"], capture_output=True, text=True, check=True).stdout.strip()
    parts = {
        "SCRIPT_HASH": source(code),
        "STYLE_HASH": source(style),
        "OPTIONS": "".join(f'<option value="{name}">{name}</option>' for name in EXAMPLES),
        "BUILD": f"Made with <code>{html.escape(kit)}</code>; SHA-256 of the module "
        f"<code>{hashlib.sha256(octets).hexdigest()}</code>.",
        "NOTICES": html.escape(NOTICES.read_text(encoding="utf-8")),
        "STYLE": style,
        # No text ends the element that it stands in.
        "EXAMPLES": json.dumps(examples()).replace("<", "\\u003c"),
        "MODULE": base64.b64encode(zlib.compress(octets, 9)).decode(),
        "WORKER": script("worker"),
        "SCRIPT": code,
    }
    page = (HERE / "page.html").read_text(encoding="utf-8")
    if sorted(re.findall(r"@([A-Z_]+)@", page)) != sorted(parts):
        refuse("page.html has not each part once")
    page = re.sub(r"@([A-Z_]+)@", lambda found: parts[found[1]], page)
    Path(out).write_text(page, encoding="utf-8")
    print(out)


if __name__ == "__main__":
    main(*sys.argv[1:])
