"""Reads the pages of tools/contradictions in headless Chromium. It needs the packages chromium-driver and python3-selenium.

- The page of examples/ has each contradiction, fits widths of 400, 1,100 and 1,900 pixels, and has the colours of both themes. On
  paper, all contradictions are open. What the script draws is what a browser without scripts shows.
- The trial of tests/pages/trial.py: headline, counts, order, filters, and a row that is opened by keyboard.
- $CONTRADICTIONS contradictions, by default 11,000, in twice as many rows: seconds, memory and size. Each may take 4 kB of the page.

A picture of examples/ is written to $PICTURE, if it is set; docs/contradictions.png is made this way.
"""
import base64
import os
import resource
import shutil
import subprocess
import sys

import pytest

from running import PROGRAM, TOP
from support import content
import workload  # it makes the many contradictions
sys.path.append(os.path.join(TOP, "tests", "pages"))
import trial

webdriver = pytest.importorskip("selenium.webdriver")
pytestmark = pytest.mark.skipif(not (shutil.which("chromium") and shutil.which("chromedriver")), reason="needs Chromium and its driver")
TOOL = os.path.join(TOP, "tools", "contradictions")
SHEET, *REPORTS = (os.path.join("examples", f"{name}.json") for name in ("sheet", "issuer", "ledgerline", "statfeed"))
HOSTILE = [f"tests/gate/unit/norlake/{name}" for name in ("merged.json", "sheet.json", "verdicts.txt")]  # its texts have tags
WIDTHS = 400, 1_100, 1_900
BYTES, MEGABYTES, PAINT = 4_000, 300, 500  # a contradiction; the tool; milliseconds until the browser shows something
LOOKS = {"light": ("rgb(255, 255, 255)", "rgb(179, 32, 31)", "rgb(243, 201, 197)"), "dark": ("rgb(22, 24, 28)", "rgb(255, 138, 128)", "rgb(92, 43, 43)")}
SEEN = """const of = (name, key) => getComputedStyle(document.querySelector(name))[key];
return [of("body", "backgroundColor").replace("rgba(0, 0, 0, 0)", "rgb(255, 255, 255)"), of(".more tr.odd td", "color"), of("td.line", "backgroundImage")]"""
# For each row of the page's HTML, its text and that of the drawn row, which is opened first. The lines of the HTML have no meaning.
COMPARED = """const page = new DOMParser().parseFromString(arguments[0], "text/html"), plain = element => element.textContent.replace(/\\s+/g, "");
return [...page.querySelectorAll("tr.row")].map(row => {
  const drawn = document.getElementById(row.id);
  if (drawn.querySelector("button").ariaExpanded === "false") drawn.querySelector("button").click();
  return [[row, row.nextSibling.querySelector("section")], [drawn, drawn.nextSibling.querySelector("section")]].map(pair => pair.map(plain).join("|"));
})"""
ROWS = "return [...document.querySelectorAll('tr.row')].map(row => row.querySelector('button').textContent)"
MEASURED = """const seconds = made => { const start = performance.now(); made(); return (performance.now() - start) / 1000; };
return [performance.getEntriesByType("navigation")[0].domInteractive / 1000, seconds(() => sortBy(heads[1])), seconds(() => { field.value = "Concept007 issuer"; update(); }),
  view.length, body.rows.length, performance.memory.usedJSHeapSize / 1e6, rows.length]"""
COUNT = int(os.environ.get("CONTRADICTIONS", 11_000))


class Browser:
    """A headless Chromium that shows pages."""

    def __init__(self, scratch):
        options = webdriver.ChromeOptions()
        options.binary_location = shutil.which("chromium")
        for word in ("--headless=new", "--hide-scrollbars", "--enable-precise-memory-info", f"--user-data-dir={scratch}/profile", *["--no-sandbox"] * (os.geteuid() == 0)):
            options.add_argument(word)
        self.driver = webdriver.Chrome(service=webdriver.chrome.service.Service(shutil.which("chromedriver")), options=options)
        self.run = self.driver.execute_script

    def show(self, page, width=1_100, height=1_350, look="light"):
        self.driver.execute_cdp_cmd("Emulation.setEmulatedMedia", {"features": [{"name": "prefers-color-scheme", "value": look}]})
        self.driver.execute_cdp_cmd("Emulation.setDeviceMetricsOverride", {"width": width, "height": height, "deviceScaleFactor": 1, "mobile": False})
        self.driver.get(f"file://{page}")

    def all(self, name):
        return self.driver.find_elements("css selector", name)

    def names(self):
        """Returns the concepts of the shown rows, without the words that the labels of the trial add."""
        return [name.split()[0] for name in self.run(ROWS)]

    def choose(self, text):
        """Chooses a filter by its text. Returns the concepts of the rows that it keeps."""
        next(option for option in self.all("option") if option.get_attribute("textContent") == text).click()
        return self.names()

    def expect_same(self, page):
        """The rows of a page without its script must be those that the script draws."""
        self.show(page)
        pairs = self.run(COMPARED, content(page))
        assert pairs and not [(text, drawn) for text, drawn in pairs if text != drawn]


@pytest.fixture(scope="module")
def browser(tmp_path_factory):
    shown = Browser(tmp_path_factory.mktemp("browser"))
    yield shown
    shown.driver.quit()


def page_of(folder, *words):
    """Runs the tool. Returns its page."""
    subprocess.run([TOOL, *words, "-o", folder], capture_output=True, timeout=1_800, cwd=TOP)
    return os.path.join(folder, "page.html")


@pytest.fixture
def example(tmp_path):
    return page_of(tmp_path, "--program", PROGRAM, "--sheet", SHEET, *REPORTS)


def test_example(browser, example):
    for name in ("issuer f56", "statfeed TS08780", "examples/statfeed.json"):
        assert name in content(example)
    for look, (background, red, gap) in LOOKS.items():
        browser.show(f"{example}#row12", look=look)
        found = browser.run(SEEN)
        assert found[:2] == [background, red] and gap in found[2], look
    for width in WIDTHS:
        browser.show(example, width)
        browser.run("document.querySelectorAll('tr.row button').forEach(button => button.ariaExpanded === 'false' && button.click())")
        wide = "return [document.documentElement, ...document.querySelectorAll('section, .all')].filter(each => each.scrollWidth > each.clientWidth).length"
        assert browser.run(wide) == 0, width
    browser.expect_same(example)


def test_example_on_paper(browser, example):
    browser.show(example)
    opened = browser.run("const open = () => body.querySelectorAll('.more').length, before = open(); dispatchEvent(new Event('beforeprint')); const during = open();"
                         " dispatchEvent(new Event('afterprint')); return [before, during, open()]")
    assert opened == [1, 3, 1]
    assert base64.b64decode(browser.driver.execute_cdp_cmd("Page.printToPDF", {})["data"]).startswith(b"%PDF")
    if picture := os.environ.get("PICTURE"):
        browser.show(example)
        browser.run("toggle(body.rows[0], false); toggle(body.rows[1], true)")
        browser.driver.save_screenshot(picture)


def test_texts_that_look_like_elements(browser, tmp_path):
    browser.expect_same(page_of(tmp_path, "--from", *HOSTILE))
    assert not browser.all("body b:not(.counts b), table script, td img")


def test_trial(browser, tmp_path):
    """The page is as the reports of the trial say."""
    trial.run(PROGRAM, tmp_path, trial.FILES, "-o", "first")
    page, enter = tmp_path / "first" / "page.html", "\ue007"
    browser.show(page)
    assert browser.all("h1")[0].text == "group, 2023, three providers: 23 contradictions in 24 rows; Beta stands alone in 22"
    assert [each.text for each in browser.all(".counts b")] == ["23", "0", "1", "0"]
    assert browser.run("return document.querySelector('output').value") == "24 rows"
    difference = next(each for each in browser.all("th button") if each.text == "Difference")
    difference.send_keys(enter)
    names = browser.names()
    assert (names[0], sorted(names[1:21]), names[21:]) == ("Inventories", sorted(trial.SCALED), ["Staff", "Profit", "Equity"])
    difference.send_keys(" ")
    assert (browser.names()[:2], browser.run("return sorted.head.ariaSort")) == (["Profit", "Staff"], "ascending")
    for text, name in (("Not reported by Gamma (1)", "Equity"), ("In red Alpha (1)", "Profit"), ("Alpha: restated: restated.json after annual.json (1)", "Profit")):
        assert browser.choose(text) == [name]
        browser.run("for (const each of [providers, verdicts, hints]) each.select.selectedIndex = 0; update()")
    for text, name in (("520,000", "Profit"), ("staff beta", "Staff"), ("#24", "Staff")):
        assert browser.run(f"field.value = {text!r}; update(); {ROWS}")[0].split()[0] == name, text
    browser.run("field.value = 'profit'; update(); document.querySelector('output').scrollIntoView(); heads.at(-1).querySelector('button').focus()")
    browser.driver.switch_to.active_element.send_keys("\ue004")  # the tabulator
    active = browser.driver.switch_to.active_element
    assert (active.text.strip(), browser.run("return getComputedStyle(document.activeElement).outlineStyle")) == ("Profit of the group", "solid")
    active.send_keys(enter)
    section = browser.all("tr.more section")[0].text
    assert active.get_attribute("aria-expanded") == "true"
    assert all(text in section for text in ("annual.json, i", "restated.json", "there is a gap of 20"))
    browser.expect_same(page)


def test_many_contradictions(browser, tmp_path):
    """Prints the measurements."""
    workload.make(tmp_path, COUNT)
    inputs = [tmp_path / name for name in ("merged.json", "sheet.json", "verdicts.txt")]
    before = resource.getrusage(resource.RUSAGE_CHILDREN)
    page = page_of(tmp_path / "large", "--from", *inputs, *(f"{name}={tmp_path}/{name}.json" for name in workload.PROVIDERS))
    used, size, paints = resource.getrusage(resource.RUSAGE_CHILDREN), os.path.getsize(page), []
    for _ in range(3):
        browser.show(page)
        paints.append(browser.run("return performance.getEntriesByType('paint')[0].startTime"))
    ready, sort, search, kept, drawn, heap, rows = browser.run(MEASURED)
    seconds, megabytes, left = used.ru_utime - before.ru_utime, used.ru_maxrss / 1024, 2 * COUNT - rows
    print(f"{COUNT} contradictions: made in {seconds:.1f} s of a processor and {megabytes:.0f} MB; page of {size / 1e6:.1f} MB with {rows} rows; first paint after"
          f" {min(paints):.0f} ms, ready in {ready:.1f} s, sorted in {sort:.2f} s, searched in {search:.2f} s; {heap:.0f} MB in the browser")
    assert size <= BYTES * COUNT and min(paints) <= PAINT
    assert not left or f"Not on this page: {left} more rows" in content(page)
    assert 0 < kept < rows and drawn <= 101 * 2
    assert COUNT > 11_000 or megabytes <= MEGABYTES
    browser.expect_same(page)
