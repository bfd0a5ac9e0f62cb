#!/usr/bin/env python3
"""Looks at the pages that `nursery page` writes about jobs, by Python's parsers and in headless Chromium.

    python3 tests/browser/pages.py PROGRAM

PROGRAM is the built executable. It wants Python 3.10 or later. Each page has to be one XML element after its first line, which an HTML
parser reads as the same elements; every id is there once, every link leads to an id of the page, and nothing in it is a script or comes
from elsewhere. What it shows has to be what the other commands write about the same formatted job, line by line: `fmt`, `lint`,
`chart --svg`, `explain`, `run`, `faults`, `faults --brief` and `races`. If `chromium` is on the path, it takes pictures of six pages in
light and in dark, in which something has to be seen, and looks up where the texts of the charts lie; without it the script says so.
"""

import glob
import html
import html.parser
import json
import os
import re
import shutil
import struct
import subprocess
import sys
import tempfile
import xml.etree.ElementTree
import zlib
from concurrent.futures import ThreadPoolExecutor
from typing import NamedTuple

ROOT = os.path.join(os.path.dirname(os.path.abspath(__file__)), "..", "..")
DESIGNS = ["supervisor", "shutdown", "hedge", "retry", "cleanup", "drain"]
FIRST_LINE = "<!DOCTYPE html>\n"
NAMESPACE = "http://www.w3.org/2000/svg"
SECTIONS = ["job", "chart", "story", "report", "changing", "faults", "races"]
# The elements that a page may have: none of them runs or loads anything.
HTML_TAGS = """html head title style body main h1 p nav a section h2 pre span div details summary table thead tbody tr th td
footer""".split()
SVG_TAGS = "svg title style defs marker pattern path text rect line circle use".split()
ATTRIBUTES = """id class href lang scope style xmlns viewbox width height x y x1 y1 x2 y2 cx cy r rx d refx refy markerwidth markerheight
orient patternunits""".split()

# Markup in comments, strings, lines and the name of the file, which has to be shown as text.
ODD_NAME = "odd <b>&amp;\"'.feed"
ODD = b"""trio-job 3
# <script>alert("1 & 2")</script> ]]> </pre></section><!-- --> &lt;
job odd { # &amp; '<style>*{display:none}</style>'
  nursery calls after 9 {
    start reader over 2 {
      sleep 1;
      find "<script src=\\"http://example.org/\\">"; # "</td></tr></table>
      try { need "]]>&\\\\\\x00\\xff" Missing; } except Missing { find "</title>"; }
    }
    start waiter { scope slow shield { sleep 2; } }
  }
}
%input
<script src="http://example.org/">alert("&amp;")</script></title>
]]>&\\ <!-- 'quoted' --> \xe2\x82\xac \xff\x00\x01\t
</pre></details></main></body></html>
"""
# 2,000 tasks; more than 2,000 faults; a formatted text that would be too long; a number that has no finer ticks; a refusal.
MANY = b"trio-job 3\njob many { nursery all { repeat 40 { start one over 50 { sleep 1; } } } }\n"
STEPS = b"trio-job 3\njob steps {\n" + b"  sleep 1;\n" * 520 + b"}\n"
NESTED = b"trio-job 3\njob nested{" + b"".join(b"scope s%d after 9{" % n for n in range(30)) + b"longest;" * 1200 + b"}" * 31
COARSE = b"trio-job 3\njob coarse { sleep 100000000; }\n"
REFUSED = b"trio-job 3\njob refused { slep 1; }\n"


class Wrong(Exception):
    """What was found, in one sentence."""


def constant(name):
    """A number that the source of the crate `page` has."""
    for path in glob.glob(os.path.join(ROOT, "crates", "page", "src", "*.rt")):
        with open(path, encoding="utf-8") as file:
            if found := re.search(rf"\bconst {name}: usize = (\d+);", file.read()):
                return int(found[1])
    raise Wrong(f"crates/page/src does not have the number {name}")


WIDTH, MAX_LINES = constant("WIDTH"), constant("MAX_LINES")


def content_of(*path):
    with open(os.path.join(ROOT, *path), "rb") as file:
        return file.read()


class Answer(NamedTuple):
    """What a command did."""

    status: int
    bytes: bytes
    said: str

    def text(self):
        return self.bytes.decode("ascii")


class Program:
    """The program, in a folder for its files."""

    def __init__(self, program, folder):
        self.program, self.folder = os.path.abspath(program), folder

    def call(self, *words):
        run = subprocess.run([self.program, *words], cwd=self.folder, capture_output=True, timeout=1200, check=False)
        return Answer(run.returncode, run.stdout, run.stderr.decode(errors="replace"))

    def put(self, name, content):
        with open(os.path.join(self.folder, name), "wb") as file:
            file.write(content)
        return name

    def formatted(self, job):
        """The name of a file with the formatted job, and its input if the job file has one: or the same file, if that would be too long."""
        answer = self.call("fmt", job)
        if answer.status == 2 and "the formatted text would have" in answer.said:
            return job
        if answer.status != 0:
            raise Wrong(f"{job}: `fmt` has the status {answer.status}: {answer.said}")
        return self.put("formatted", answer.bytes)

    def read(self, name):
        with open(os.path.join(self.folder, name), "rb") as file:
            return file.read()


# ---- the page as a document


class Reader(html.parser.HTMLParser):
    """The elements that an HTML parser finds, with their attributes, and all text. Only what is in a drawing may end where it starts."""

    def __init__(self, text):
        super().__init__()
        self.elements, self.texts, self.open = [], [], []
        self.feed(text)
        self.close()
        if self.open:
            raise Wrong(f"an HTML parser leaves <{self.open[-1]}> open")

    def handle_starttag(self, tag, attrs):
        self.elements.append((tag, dict(attrs)))
        self.open.append(tag)

    def handle_startendtag(self, tag, attrs):
        if "svg" not in self.open:
            raise Wrong(f"in HTML <{tag}/> is not closed")
        self.elements.append((tag, dict(attrs)))

    def handle_endtag(self, tag):
        if not self.open or self.open.pop() != tag:
            raise Wrong(f"an HTML parser finds a </{tag}> that closes something else")

    def handle_data(self, data):
        self.texts.append(data)

    def handle_comment(self, data):
        raise Wrong(f"it has a comment: {data[:50]!r}")

    def unknown_decl(self, data):
        raise Wrong(f"it has a declaration: {data[:50]!r}")

    handle_pi = unknown_decl


def bare(tag):
    return tag.removeprefix(f"{{{NAMESPACE}}}").lower()


def text_of(element):
    return "".join(element.itertext())


def read_page(text):
    """The element of a page, which has to be the same for an XML parser and an HTML parser."""
    if not text.startswith(FIRST_LINE) or not text.endswith("</html>\n"):
        raise Wrong(f"it begins with {text[:40]!r} and ends with {text[-40:]!r}")
    root = xml.etree.ElementTree.fromstring(text[len(FIRST_LINE) :])
    seen = Reader(text)
    elements = [(bare(it.tag), {name.lower(): value for name, value in it.attrib.items()}) for it in root.iter()]
    without = [(tag, {name: value for name, value in given.items() if name != "xmlns"}) for tag, given in seen.elements]
    if elements != without:
        raise Wrong("an HTML parser finds other elements in it than an XML parser")
    if "".join(seen.texts).strip() != text_of(root).strip():
        raise Wrong("an HTML parser finds another text in it than an XML parser")
    return root


def check_elements(root):
    """It has only elements that show something, and one heading and one title of its own."""
    for it in root.iter():
        is_drawn = it.tag.startswith("{")
        if bare(it.tag) not in (SVG_TAGS if is_drawn else HTML_TAGS):
            raise Wrong(f"it has the element <{it.tag}>")
        for name, value in it.attrib.items():
            if name.lower() not in ATTRIBUTES or name == "href" and not value.startswith("#"):
                raise Wrong(f"it has the attribute {name}={value!r}")
            if name == "style" and not re.fullmatch(r"top:\d+px", value):
                raise Wrong(f"it has the style {value!r}")
        if bare(it.tag) == "style" and re.search(r"@import|url\((?!#)|https?:|[<&]", it.text):
            raise Wrong("a style sheet of it names something elsewhere, or has a byte that is escaped")
    for tag in ("h1", "title", "main", "footer", f"{{{NAMESPACE}}}svg"):
        if len(root.findall(f".//{tag}")) != 1:
            raise Wrong(f"it has {len(root.findall(f'.//{tag}'))} elements <{bare(tag)}>")


def check_ids(root):
    """Every id is there once, and every link and each mark of the chart leads to one."""
    ids = [it.get("id") for it in root.iter() if it.get("id") is not None]
    for it in ids:
        if ids.count(it) > 1 and it in ids[ids.index(it) + 1 :]:
            raise Wrong(f"the id {it} is there {ids.count(it)} times")
    known = set(ids)
    links = [it.get("href") for it in root.iter() if it.get("href") is not None]
    for link in links + re.findall(r"url\((#[^)]*)\)", "".join(text_of(it) for it in root.iter() if bare(it.tag) == "style")):
        if link[1:] not in known:
            raise Wrong(f"nothing has the id of the link {link}")
    named = [it for it in ids if it in SECTIONS]
    if named != SECTIONS:
        raise Wrong(f"its sections are {named}")


def check_classes(root):
    """The style sheet of the page says nothing about a class that the chart has too."""
    inside = {word for it in root.iter() if it.tag.startswith("{") for word in it.get("class", "").split()}
    alone = set(re.findall(r"(?:^|[},])\s*\.(\w+)", root.find("head/style").text, re.M))
    if inside & alone:
        raise Wrong(f"its style sheet also changes what has the class {', '.join(inside & alone)} in the chart")


# ---- what it shows


def section_of(root, name):
    return next(it for it in root.iter() if it.get("id") == name)


def check_shown(root, name, wanted):
    """The first lines of an output, and how many others there are."""
    section = section_of(root, name)
    if section.find("table") is None:
        lines = text_of(section.find("pre")).split("\n")
    else:
        lines = [text_of(row) for row in section.find("table/tbody")] + [""]
    wanted = wanted.split("\n")
    first, hidden = wanted[:MAX_LINES], len(wanted) - 1 - MAX_LINES
    if lines != (first + [""] if hidden > 0 else wanted):
        other = next((n for n, (a, b) in enumerate(zip(lines, first)) if a != b), min(len(lines), len(first)))
        raise Wrong(f"{name}: {len(lines) - 1} lines, of which line {other + 1} is {lines[other:][:1]}, and not {first[other:][:1]}")
    said = [text_of(it) for it in section.findall("p[@class='hidden']")]
    if said != ([f"Lines that are not shown: {hidden}"] if hidden > 0 else []):
        raise Wrong(f"{name}: of {len(wanted) - 1} lines it says {said}")


def check_job(root, text, warnings):
    """Each line of the job with its number, and below it the warnings about it."""
    spans = list(section_of(root, "job").find("pre"))
    wanted = []
    for number, line in enumerate(text.removesuffix("\n").split("\n"), 1):
        wanted.append(("line", f"line-{number}", str(number), line))
        wanted += [("warning", None, None, f"warning: {it['sentence']}") for it in warnings if it["line"] == number]
    shown = []
    for span in spans:
        number = span.find("span[@class='number']")
        counted = None if number is None else number.text
        shown.append((span.get("class"), span.get("id"), counted and counted.strip(), text_of(span).removeprefix(counted or "")))
    if shown != wanted or any(span.tail != "\n" for span in spans):
        other = next((a, b) for a, b in zip([*shown, None], [*wanted, None]) if a != b)
        raise Wrong(f"the job is shown with {other[0]}, and not with {other[1]}")


def check_chart(root, text, svg):
    """The chart is the picture, over which there is an element at the row of each task."""
    begin = text.index("<svg ")
    if text[begin : text.index("</svg>") + len("</svg>")] != svg.strip():
        raise Wrong("its chart is another than `chart --svg` draws")
    chart = section_of(root, "chart").find("div[@class='chart']")
    anchors = [(it.get("id"), int(it.get("style").removeprefix("top:").removesuffix("px"))) for it in chart.findall("span")]
    names = [it for it in chart.iter(f"{{{NAMESPACE}}}text") if it.get("class") == "name"]
    rows = [(f"row-{it.text}", int(it.get("y"))) for it in names if not it.text.startswith("  ")]
    if [it[0] for it in anchors] != [it[0] for it in rows]:
        raise Wrong(f"its rows are {[it[0] for it in anchors][:5]}, and those of the chart {[it[0] for it in rows][:5]}")
    for (name, top), (_, y) in zip(anchors, rows):
        if not top < y < top + 24:
            raise Wrong(f"{name} is at {top}, and its row at {y}")
    return {it[0].removeprefix("row-") for it in rows}


def line_wanted(label, sentence):
    """What has to be in the line to which a sentence of a story is a link: the task, or what the sentence names first."""
    task = rf"\b(?:job|start) {re.escape(label.split('.')[0])}\b"
    named = re.search(r" (scope|nursery|event) (\w+)", sentence)
    return task if sentence.startswith("starts") or not named else rf"\b{named[1]} {named[2]}\b"


def check_story_links(root, job_lines, rows):
    """In each sentence of the story the task is a link to its row, and the sentence one to a line of the job."""
    story = section_of(root, "story").find("pre")
    links = iter(story.findall("a"))
    for line in text_of(story).split("\n"):
        found = re.fullmatch(r"  ?(\S+) +(\S.*)", line)
        if not line.startswith(" ") or not found:
            continue
        label, sentence = found.groups()
        if label in rows:
            link = next(links)
            if (link.text, link.get("href")) != (label, f"#row-{label}"):
                raise Wrong(f"in {line!r} the task is a link {link.text!r} to {link.get('href')}")
        link = next(links)
        number = int(link.get("href").removeprefix("#line-"))
        if link.text != sentence or not re.search(line_wanted(label, sentence), job_lines[number - 1]):
            raise Wrong(f"in {line!r} there is a link {link.text!r} to the line {job_lines[number - 1]!r}")
    if next(links, None) is not None:
        raise Wrong("its story has a link that is no task and no sentence")


def check_table_links(root):
    """Each place of a table is a link to its line, and nothing else is a link."""
    for name in ("changing", "faults", "races"):
        for row in section_of(root, name).find("table/tbody"):
            place = re.match(r" *((\d+):\d+) ", text_of(row))
            wanted = [(place[1], f"#line-{place[2]}")] if place else []
            if [(it.text, it.get("href")) for it in row.iter("a")] != wanted:
                raise Wrong(f"the links of {text_of(row)!r} are others than {wanted}")


def check_front(root, name, faults, made):
    """The name of the job, how it ends, the links to the sections, and how the page was made."""
    outcome = faults.split("\n")[0].partition("as it is")[2].strip()
    wanted = [name, name, f"{name}: {outcome}", made]
    shown = [text_of(root.find(f".//{tag}")) for tag in ("head/title", "h1", "p[@class='outcome']", "footer")]
    if shown != wanted:
        raise Wrong(f"its title, heading, outcome and foot are {shown}, and not {wanted}")
    links = [it.get("href")[1:] for it in root.find(".//nav").findall("a")]
    if links != [it for it in SECTIONS if it != "faults"]:
        raise Wrong(f"it has links to {links}")


def check_page(program, job, given=None, limit=1000000):
    """Compares the page of a job, over an input in another file if there is one, with what the other commands write. Returns the page."""
    named = [job, *([given] if given else [])]
    page = program.call("page", *named, "--limit", str(limit))
    text = page.text()
    root = read_page(text)
    check_elements(root)
    check_ids(root)
    file = program.formatted(job)
    asked = [file, *named[1:], "--limit", str(limit)]
    report = program.call("run", *asked)
    if page.status != report.status:
        raise Wrong(f"its status is {page.status}, and that of `run` {report.status}")
    faults = program.call("faults", *asked).text()
    outputs = {
        "story": program.call("explain", *asked).text(),
        "report": report.text(),
        "changing": program.call("faults", *asked, "--brief").text(),
        "faults": faults,
        "races": program.call("races", *asked).text(),
    }
    for name, output in outputs.items():
        check_shown(root, name, output)
    job_text = re.split(r"(?m)^%input$\n", program.read(file).decode("latin-1"))[0]
    check_job(root, job_text, json.loads(program.call("lint", file, "--json").bytes)["lines"])
    rows = check_chart(root, text, program.call("chart", *asked, "--svg", "--width", str(WIDTH)).text())
    check_story_links(root, job_text.split("\n"), rows)
    check_table_links(root)
    version = program.call("--version").text().strip()
    name = re.search(r"\bjob\s+(\w+)", re.sub(r"(?m)#.*$", "", job_text.partition("\n")[2]))[1]
    check_front(root, name, faults, f"Made by {version}: nursery page {' '.join(named)} --limit {limit}")
    check_classes(root)
    return text


# ---- all pages


def check_design(program, name):
    """The page of an example. That of its input in a file of its own, and that by three workers, are the same but for their foot."""
    feed = content_of("examples", f"{name}.feed")
    page = check_page(program, program.put(f"{name}.feed", feed))
    job, _, given = feed.partition(b"%input\n")
    words = (program.put(f"{name}.job", job), program.put("input", given))
    apart = program.call("page", *words).text()
    if apart.partition("<footer>")[0] != page.partition("<footer>")[0]:
        raise Wrong("it is another where the input is in a file of its own")
    if program.call("page", *words, "--workers", "3").text() != apart:
        raise Wrong("it is another with three workers")
    return page


def check_odd(program):
    """Markup in the job, the input and the name of the file is text."""
    page = check_page(program, program.put(ODD_NAME, ODD))
    for part in ("<script", "<b>", "<!--", "]]>", "<style>*"):
        if part in page:
            raise Wrong(f"it has {part!r}")
    if "&lt;script src=" not in page:
        raise Wrong("it does not show the markup")


def check_many(program):
    """Of 2,000 tasks only the first lines of the story and the report are shown."""
    page = check_page(program, program.put("many", MANY))
    if page.count('class="hidden"') != 2:
        raise Wrong("it does not hide lines of its story and its report")


def check_refused(program):
    """Of a text that is refused there is no page."""
    program.put("refused", REFUSED)
    page, report = program.call("page", "refused"), program.call("run", "refused")
    if page != report or page.status != 2:
        raise Wrong(f"`page` writes {page}, and `run` {report}")


def check_job_of(content, limit):
    return lambda program: check_page(program, program.put("job", content), limit=limit)


def works():
    """What is checked, each by its name."""
    designs = {name: lambda program, name=name: check_design(program, name) for name in DESIGNS}
    return designs | {
        "a job with markup in it": check_odd,
        "2,000 tasks": check_many,
        "520 steps": check_job_of(STEPS, 3),
        "a text that is too long when it is formatted": check_job_of(NESTED, 1000000),
        "a job without finer ticks": check_job_of(COARSE, 1000000000),
        "a job that does not end": check_job_of(content_of("tests", "limits", "endless", "endless.feed"), 100),
        "a text that is refused": check_refused,
    }


def tried(name, check, *given):
    """Does a check, and says of which page something is wrong."""
    try:
        made = check(*given)
    except (Wrong, xml.etree.ElementTree.ParseError, subprocess.TimeoutExpired) as wrong:
        raise Wrong(f"the page of {name}: {wrong}") from None
    print(f"pages.py: the page of {name} is as it should be", flush=True)
    return made


def tried_in_a_folder(path, name, check):
    with tempfile.TemporaryDirectory() as folder:
        return tried(name, check, Program(path, folder))


# ---- Chromium

SEEN = """<pre id="seen" hidden></pre><script>
const view = document.querySelector('svg').getBoundingClientRect();
const texts = [...document.querySelectorAll('svg text')].map(it => [it.textContent, it.getBoundingClientRect()]);
document.getElementById('seen').textContent = JSON.stringify({
  outside: texts.filter(([_, it]) => it.left < view.left || it.right > view.right || it.top < view.top || it.bottom > view.bottom)
    .map(it => it[0]),
  wide: document.documentElement.scrollWidth - document.documentElement.clientWidth,
  color: getComputedStyle(document.body).color,
});
</script></body>"""


def chromium(page, scheme):
    """What Chromium makes of a page: a picture of it, and what a script of this test's own finds there."""
    with tempfile.TemporaryDirectory() as folder:
        path, picture = os.path.join(folder, "page.html"), os.path.join(folder, "page.png")
        with open(path, "w", encoding="ascii") as file:
            file.write(page.replace("</body>", SEEN))
        command = ["chromium", "--headless", "--no-sandbox", "--disable-gpu", "--hide-scrollbars", f"--user-data-dir={folder}"]
        command += ["--window-size=1200,900", f"--blink-settings=preferredColorScheme={scheme}", f"--screenshot={picture}", "--dump-dom"]
        run = subprocess.run([*command, f"file://{path}"], capture_output=True, timeout=300, check=False)
        found = re.search(r'<pre id="seen" hidden="">(.*?)</pre>', run.stdout.decode(), re.DOTALL)
        if not found or not os.path.exists(picture):
            raise Wrong(f"Chromium wrote {run.stdout[:300]!r} and said {run.stderr[-300:]!r}")
        with open(picture, "rb") as file:
            return file.read(), json.loads(html.unescape(found[1]))


def rows_of(png):
    """The first pixel of a picture, and how many different rows it has as they are stored."""
    if not png.startswith(b"\x89PNG\r\n\x1a\n"):
        raise Wrong("Chromium wrote no picture")
    at, data, head = 8, b"", None
    while at < len(png):
        size, kind = struct.unpack(">I4s", png[at : at + 8])
        content = png[at + 8 : at + 8 + size]
        head = struct.unpack(">IIBB", content[:10]) if kind == b"IHDR" else head
        data += content if kind == b"IDAT" else b""
        at += size + 12
    width, height, depth, kind = head
    if depth != 8 or kind not in (2, 6):
        raise Wrong(f"Chromium wrote a picture of depth {depth} and kind {kind}")
    raw, stride = zlib.decompress(data), 1 + width * (3 if kind == 2 else 4)
    # in the first row each filter leaves the first pixel as it is
    return tuple(raw[1:4]), len({raw[row * stride : (row + 1) * stride] for row in range(height)})


def check_pictures(page):
    """In light and in dark something is seen, on another ground, and the chart has all its texts."""
    for scheme, word, is_ground in ((1, "light", lambda it: min(it) > 200), (0, "dark", lambda it: max(it) < 60)):
        picture, seen = chromium(page, scheme)
        ground, rows = rows_of(picture)
        if rows < 100 or not is_ground(ground):
            raise Wrong(f"in {word} it has {rows} different rows on a ground of {ground}")
        if seen["outside"] or seen["wide"] > 0:
            raise Wrong(f"in {word} it is {seen['wide']} pixels too wide, and these texts lie outside its chart: {seen['outside'][:3]}")
        if is_ground(tuple(map(int, re.findall(r"\d+", seen["color"])[:3]))):
            raise Wrong(f"in {word} its text has the colour {seen['color']}")


def main():
    path = sys.argv[1]
    with ThreadPoolExecutor(os.cpu_count()) as pool:
        all_works = works()
        pages = dict(zip(all_works, pool.map(lambda name: tried_in_a_folder(path, name, all_works[name]), all_works)))
    if shutil.which("chromium") is None:
        print("pages.py: there is no Chromium, so no page was opened")
        return
    with ThreadPoolExecutor(2) as pool:
        list(pool.map(lambda name: tried(f"{name} in Chromium", check_pictures, pages[name]), DESIGNS))


if __name__ == "__main__":
    try:
        main()
    except (Wrong, OSError) as wrong:
        sys.exit(f"pages.py: {wrong}")
