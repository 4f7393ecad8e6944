"""How long pages are, and their paragraphs: a reader in a hurry is to find what a page says."""
import re

from .common import TOP, pages

# The most words of a page, such as a crate's README, that isn't listed here.
OF_A_PAGE = 500
OF_LARGER_PAGES = {
    "CHANGELOG.md": 1400,
    "README.md": 900,
    "bench/README.md": 2500,
    "bindings/rust/README.md": 650,
    "crates/conformance/README.md": 1700,
    "crates/conformance/STANDARD.md": 1500,
    "crates/conformance/data/rows/README.md": 680,
    "crates/conformance/peers/QEMU.md": 2600,
    "crates/conformance/peers/VHOST.md": 600,
    "crates/snapshot/README.md": 750,
    "docs/CHANGING.md": 3450,
    "docs/DECISIONS.md": 1550,
    "docs/EMBEDDING.md": 4700,
    "docs/VHOST.md": 625,
    "docs/LIMITS.md": 700,
    "docs/architecture.md": 1200,
    "docs/formats.md": 3150,
    "docs/model.md": 8300,
    "docs/promises.md": 4900,
    "examples/README.md": 950,
    "examples/linux/README.md": 1600,
    "fuzz/README.md": 1150,
    "tests/power/README.md": 600,
    "vhost/README.md": 950,
}

# The most words of a paragraph: a list's item is one; a heading, a table's row and code are none.
OF_A_PARAGRAPH = 60
OF_LONGER_PARAGRAPHS = {
    "bench/README.md": 81,
    "crates/conformance/README.md": 133,
    "crates/conformance/matrix/README.md": 107,
    "crates/conformance/peers/QEMU.md": 86,
    "docs/EMBEDDING.md": 66,
}

# What a script makes from the suite's rows.
MADE = [f"crates/conformance/data/{page}.md" for page in ("MATRIX", "matrix/README", "scenarios/README")]

NO_TEXT = re.compile(r"^ *```.*?^ *```|^ *\|[^\n]*$|^#+ [^\n]*$|^<!--.*?-->", re.MULTILINE | re.DOTALL)
BORDER = re.compile(r"\n\s*\n|\n(?= *(?:[-*]|\d+\.) )")
MARK = re.compile(r'<a id="[^"]*"></a>|\]\([^)]*\)|^ *(?:[-*]|\d+\.) ', re.MULTILINE)


def words(text):
    """How many words a text has: what stands between spaces and has a letter or a digit."""
    return sum(bool(re.search(r"\w", word)) for word in text.split())


def paragraphs(text):
    """The paragraphs of a page, without anchors, links' targets and the marks of lists."""
    return [MARK.sub("", part) for part in BORDER.split("\n" + NO_TEXT.sub("\n\n", text)) if part.strip()]


def size():
    """No page is over its words, and no paragraph."""
    wrong, texts = [], {str(page.relative_to(TOP)): page.read_text(encoding="utf-8") for page in pages()}
    for name in MADE:
        texts.pop(name, None)
    for name, text in texts.items():
        count, most = words(text), OF_LARGER_PAGES.get(name, OF_A_PAGE)
        if count > most:
            wrong.append(f"{name} has {count} words, and may have {most}")
        most = OF_LONGER_PARAGRAPHS.get(name, OF_A_PARAGRAPH)
        wrong += [f"{name}: a paragraph of {words(part)} words, and may have {most}: {' '.join(part.split())[:80]}.."
                  for part in paragraphs(text) if words(part) > most]
    return not wrong, wrong or [f"{sum(map(words, texts.values()))} words on {len(texts)} pages"]


CHECKS = {"size": size}
