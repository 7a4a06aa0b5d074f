"""The sections of the guide's pages as JSON, for the search: where each is, its title and its words.

    sections.py PAGE..
"""

import json
import re
import sys
from pathlib import Path


def anchor(title):
    """The anchor that pandoc gives a heading."""
    return re.sub(r"[^\w\- .]", "", title.lower()).strip().replace(" ", "-")


def sections(page):
    name = page.stem
    for part in re.split(r"^(?=#{1,2} )", page.read_text(), flags=re.M):
        title, _, text = part.partition("\n")
        level = len(title) - len(title.lstrip("#"))
        title = title.lstrip("# ")
        if level:
            url = f"{name}.html" + (f"#{anchor(title)}" if level > 1 else "")
            yield {"url": url, "title": title.replace("`", ""), "text": re.sub(r"[`*|#\[\]()]", " ", text)}


json.dump([it for page in sys.argv[1:] for it in sections(Path(page))], sys.stdout)
