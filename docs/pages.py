"""Whether a reader finds his way through the pages.

No page of docs/ is longer than he reads at one sitting. Each link leads to a file, and behind a `#` to a heading of it. Each
page that a text names by its path is there. From docs/README.md links lead to each page of docs/.
"""
import re

from closure import ROOT

LONGEST, LONGEST_FIRST = 1500, 2000
FIRST, INDEX = ROOT / "README.md", ROOT / "docs/README.md"
DOCS = ROOT / "docs"
FENCED = re.compile(r"^```.*?^```$", re.MULTILINE | re.DOTALL)
CODE = re.compile(r"`[^`\n]*`")
LINK = re.compile(r"\]\(([^()\s]+)\)")
HEADING = re.compile(r"^#{1,6} (.*)$", re.MULTILINE)
NAMED = re.compile(r"(?<![\w./-])docs/[\w/.-]+\.(?:md|png)\b")
PAGES = ["*.md", *(f"{folder}/**/*.md" for folder in ("docs", "reference", "tests", "bench", "examples"))]
TEXTS = [*PAGES, "docs/*", "packaging/man/*", "packaging/completion/*", "install", "desk", "node", ".ci/*", "reference/**/*.py", "tests/**/*"]
TEXTS += ["crates/*/src/**/*.rt", "crates/*/specs/**/*.antt"]


def files(*patterns):
    """The files of the repository that a pattern names."""
    return sorted({path for pattern in patterns for path in ROOT.glob(pattern) if path.is_file()})


def prose(page):
    """A page without what stands in it as code."""
    return CODE.sub("", FENCED.sub("", page.read_text()))


def anchor(heading):
    """The name by which a link finds a heading: its words in small letters, joined by hyphens."""
    return re.sub(r"[^\w\- ]", "", heading.lower()).replace(" ", "-")


def anchors(page):
    return {anchor(heading) for heading in HEADING.findall(FENCED.sub("", page.read_text()))}


def links_of(page):
    """What a page links to in the repository: the words of the link, the file, and the anchor."""
    for link in LINK.findall(prose(page)):
        if not re.match(r"[a-z]+:", link):
            name, _, place = link.partition("#")
            yield link, (page.parent / name).resolve() if name else page, place


def wrong_links(page):
    for link, target, place in links_of(page):
        if not target.exists():
            yield f"{page.relative_to(ROOT)}: {link} leads nowhere"
        elif place and place not in anchors(target):
            yield f"{page.relative_to(ROOT)}: {link} leads to no heading"


def reached():
    """The pages to which links lead from the index."""
    found, left = set(), [INDEX]
    while left:
        page = left.pop()
        if page not in found and page.suffix == ".md" and page.is_file():
            found.add(page)
            left += [target for _, target, _ in links_of(page)]
    return found


def faults():
    """How many pages and links there are, and a sentence for each fault."""
    pages, docs = files(*PAGES), files("docs/**/*.md")
    wrong = [fault for page in pages for fault in wrong_links(page)]
    for page in [FIRST, *docs]:
        words, most = len(page.read_text().split()), LONGEST_FIRST if page == FIRST else LONGEST
        if words > most:
            wrong.append(f"{page.relative_to(ROOT)}: {words} words, at most {most}")
    wrong += [f"{page.relative_to(ROOT)}: no link leads there from docs/README.md" for page in sorted(set(docs) - reached())]
    for text in files(*TEXTS):
        named = NAMED.findall(text.read_bytes().decode(errors="replace"))
        wrong += [f"{text.relative_to(ROOT)}: {name} isn't there" for name in sorted(set(named)) if not (ROOT / name).exists()]
    return len(pages), sum(len(list(links_of(page))) for page in pages), wrong
