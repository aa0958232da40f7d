"""A page of a run as one text: it fetches nothing, and nothing in it runs but the scripts of this folder. The data stands in an element that no
browser runs, in ASCII without a `<`, so that no text of a run can end it; the scripts show texts as texts alone; and the page's policy
names its one script and its one style by their sums, so that nothing else would be run."""
import base64
import hashlib
import json
import pathlib

FOLDER = pathlib.Path(__file__).resolve().parent
SCRIPTS = ("data.js", "told.js", "scene.js", "page.js")


def _sum(text):
    return f"'sha256-{base64.b64encode(hashlib.sha256(text.encode()).digest()).decode()}'"


def page(data):
    """The page of a picture's data."""
    style = (FOLDER / "page.css").read_text(encoding="utf-8")
    script = "".join((FOLDER / name).read_text(encoding="utf-8") for name in SCRIPTS)
    written = json.dumps(data, ensure_ascii=True, allow_nan=False, separators=(",", ":"))
    for sign in "<>&":
        written = written.replace(sign, f"\\u{ord(sign):04x}")
    parts = {"policy": f"default-src 'none'; style-src {_sum(style)}; script-src {_sum(script)}; base-uri 'none'; form-action 'none'",
             "style": style, "data": written, "script": script}
    first, *rest = (FOLDER / "page.html").read_text(encoding="utf-8").split("@")
    for name, between in zip(rest[::2], rest[1::2]):
        first += parts[name] + between
    return first
