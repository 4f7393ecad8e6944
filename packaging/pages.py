"""The links of pages: what they are, which targets a page has, and how they are written anew where pages are installed."""
import os
import posixpath
import re

# A link of a page: its target, behind the text in brackets. Code is no link, and a quotation has those of another page.
LINK = re.compile(r"\[(?:[^\[\]]|\[[^\]]*\])*\]\(([^()\s]+)\)")
OTHER = re.compile(r"^```.*?^```|>[^\n]*|`[^`\n]*`", re.MULTILINE | re.DOTALL)
HEADING = re.compile(r"^#+ +(.+?) *$", re.MULTILINE)
ANCHOR = re.compile(r'<a id="([^"]*)"></a>')
WHOLE = re.compile(rf"(?P<other>^```.*?^```|^>[^\n]*)|!?\[(?P<text>(?:[^\[\]]|\[[^\]]*\])*)\]\((?P<target>[^()\s]+)\)|`[^`\n]*`",
                   re.MULTILINE | re.DOTALL)


def anchors_of(text):
    """The names that a page has as targets: its own anchors, and those of its headings, as GitHub makes them."""
    text = re.sub(r"^```.*?^```", "", text, flags=re.MULTILINE | re.DOTALL)
    names = {}
    for heading in HEADING.findall(text):
        shown = re.sub(r"\[([^\]]*)\]\([^)]*\)", r"\1", heading).replace("`", "")
        name = re.sub(r"[^\w\- ]", "", shown.lower()).replace(" ", "-")
        names[name] = names.get(name, -1) + 1
    return {name if not at else f"{name}-{at}" for name, last in names.items() for at in range(last + 1)} | \
        set(ANCHOR.findall(text))


def links_of(text):
    """The targets of a page's links."""
    return LINK.findall(OTHER.sub("", text))


def is_elsewhere(target):
    """Whether a target is an address outside the pages."""
    return bool(re.match(r"[a-z][a-z+.-]*:", target))


def installed(text, page, places):
    """A page's text as it is installed. `places` says of each file by its path from the top where it is installed.

    A link to what is installed leads there. Of another link only the text stays.
    """
    def place(target):
        path = posixpath.normpath(posixpath.join(posixpath.dirname(page), target))
        if path in places:
            return places[path]
        below = next((name for name in sorted(places) if name.startswith(path + "/")), None)
        return places[below].removesuffix(below[len(path):]) if below and places[below].endswith(below[len(path):]) else None

    def anew(found):
        target = found["target"]
        if not target or is_elsewhere(target) or target.startswith("#"):
            return found[0]
        path, mark, anchor = target.partition("#")
        there = place(path)
        if there is None:
            return found["text"]
        start = found.start("target") - found.start()
        return found[0][:start] + posixpath.relpath(there, posixpath.dirname(places[page]) or ".") + mark + anchor + ")"

    return WHOLE.sub(anew, text)


def broken(files, page, target):
    """What is wrong with a link of an installed page, or None; `files` has the text of each page, and None for another file."""
    if is_elsewhere(target):
        return None
    path, _, anchor = target.partition("#")
    there = posixpath.normpath(posixpath.join(posixpath.dirname(page), path)) if path else page
    if there not in files:
        return None if any(name.startswith(there + "/") for name in files) else "no such file"
    if anchor and files[there] is not None and anchor not in anchors_of(files[there]):
        return "no such heading or anchor"
    return None
