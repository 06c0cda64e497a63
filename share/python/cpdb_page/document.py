"""One HTML file of the files of share/page and the columns of a store."""
import base64
import hashlib
import html
import json
import os
import re
import zlib
from typing import Any, Dict

FOLDER = os.path.join(os.path.dirname(os.path.dirname(os.path.dirname(os.path.realpath(__file__)))), "page")
SCRIPTS = ("text.js", "store.js", "search.js", "list.js", "walk.js", "tree.js", "commits.js", "past.js", "versions.js", "views.js",
           "curators.js", "slider.js", "measure.js", "main.js")
#: By this a page is known as one that `cpdb page` has made.
MARK = '<meta name="generator" content="cpdb page">'


def document_of(columns: Dict[str, Any]) -> str:
    """The text of the page. The columns stand in it compressed, in letters and digits, so that no text of a store is markup."""
    script = "\n".join(part(it) for it in SCRIPTS)
    style = part("page.css")
    packed = zlib.compress(json.dumps(columns, ensure_ascii=False, separators=(",", ":")).encode("utf-8"), 6)
    parts = {"title": html.escape(columns["name"]), "mark": MARK, "policy": policy(script, style), "style": style,
             "script": script, "data": base64.b64encode(packed).decode("ascii")}
    return re.sub(r"<!--(\w+)-->", lambda it: parts[it.group(1)], part("page.html"))


def part(name: str) -> str:
    with open(os.path.join(FOLDER, name), encoding="utf-8") as file:
        return file.read()


def policy(script: str, style: str) -> str:
    """What a browser may run for the page: this script and this style, and nothing from elsewhere."""
    return f"default-src 'none'; script-src '{digest(script)}'; style-src '{digest(style)}'; base-uri 'none'; form-action 'none'"


def digest(text: str) -> str:
    return "sha256-" + base64.b64encode(hashlib.sha256(text.encode("utf-8")).digest()).decode("ascii")
