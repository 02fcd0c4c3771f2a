"""The explorer in a browser: headless Chromium by selenium. Expected counts are read from the files of the town."""

import re
import shutil
import tempfile
import time
from collections.abc import Callable, Iterator
from contextlib import contextmanager
from pathlib import Path
from typing import Any
from urllib.parse import parse_qs, quote, urlsplit

import pytest
from counties import CODE, EXAMPLES, JOINED, records
from test_features_command import Running
from test_pages import MARKUP, TOWN, town_rows, write_data

pytest.importorskip("jinja2", reason="no jinja2")
webdriver = pytest.importorskip("selenium.webdriver", reason="no selenium")
geometry = pytest.importorskip("shapely.geometry", reason="no shapely")
from selenium.common.exceptions import WebDriverException  # noqa: E402
from selenium.webdriver.chrome.service import Service  # noqa: E402
from selenium.webdriver.common.by import By  # noqa: E402
from selenium.webdriver.common.keys import Keys  # noqa: E402
from selenium.webdriver.support.wait import WebDriverWait  # noqa: E402

DRIVER = Path("/usr/bin/chromedriver")
SECONDS = 180
ITEMS = f"/collections/{TOWN}/items"
MAIN = town_rows(lambda row: row["FENAME"] == "Main")
LOCAL = town_rows(lambda row: row["CFCC"].startswith("A4") and "35042" in (row["ZIPL"], row["ZIPR"]))

Row = dict[str, str]


class Browser:
    """A browser at the explorer."""

    def __init__(self, url: str, has_scripts: bool = True, width: int = 1280) -> None:
        options = webdriver.ChromeOptions()
        for argument in ("--headless=new", "--no-sandbox", "--disable-dev-shm-usage", f"--window-size={width},900"):
            options.add_argument(argument)
        if not has_scripts:
            options.add_experimental_option("prefs", {"profile.managed_default_content_settings.javascript": 2})
        if width < 500:
            device = {"deviceMetrics": {"width": width, "height": 800, "pixelRatio": 2.0}}
            options.add_experimental_option("mobileEmulation", device)
        options.set_capability("goog:loggingPrefs", {"browser": "ALL"})
        self.driver = webdriver.Chrome(service=Service(str(DRIVER)), options=options)
        self.driver.set_page_load_timeout(SECONDS)
        self.driver.set_script_timeout(SECONDS)
        self.url = url

    def open(self, target: str) -> None:
        self.driver.get(self.url + target)

    def one(self, selector: str) -> Any:
        return self.driver.find_element(By.CSS_SELECTOR, selector)

    def text(self, selector: str) -> str:
        text: str = self.one(selector).text
        return " ".join(text.split())

    def wait(self, condition: Callable[[], object]) -> None:
        WebDriverWait(self.driver, SECONDS, 0.1, (WebDriverException,)).until(lambda driver: condition())

    def wait_for_count(self, count: int) -> None:
        """Waits until the page and the map have so many segments."""
        self.wait(lambda: self.text("#count").startswith(f"{count:,} segment"))
        self.wait(lambda: self.run("return document.querySelector('#map').dataset.selected") == str(count))

    def actions(self) -> Any:
        return webdriver.ActionChains(self.driver)

    def run(self, script: str) -> Any:
        return self.driver.execute_script(script)

    def parameter(self, name: str) -> str:
        return parse_qs(urlsplit(self.driver.current_url).query).get(name, [""])[0]

    def filter(self, text: str) -> None:
        self.one("#filter").clear()
        self.one("#filter").send_keys(text, Keys.ENTER)

    def faults(self) -> list[str]:
        """Returns what the console says, but for replies with the status 400, which refusals have."""
        messages = [entry["message"] for entry in self.driver.get_log("browser")]
        return [message for message in messages if "status of 400" not in message]


@contextmanager
def serving(folder: Path) -> Iterator[Running]:
    """Serves the counties of a folder, and requires that the service ends without a message and leaves no file."""
    with pytest.MonkeyPatch.context() as patch, tempfile.TemporaryDirectory() as scratch:
        patch.setenv("TMPDIR", scratch)
        running = Running(["--data", folder, "--seconds", SECONDS])
        patch.undo()
        try:
            yield running
        finally:
            assert running.stop() == (0, "")
            assert not list(Path(scratch).iterdir())


@pytest.fixture(scope="module")
def service(extractd: str, tmp_path_factory: pytest.TempPathFactory) -> Iterator[Running]:
    with serving(write_data(tmp_path_factory.mktemp("explorer") / "data")) as running:
        yield running


@pytest.fixture(scope="module")
def shared(service: Running) -> Iterator[Browser]:
    if not DRIVER.exists():
        pytest.skip("no chromedriver")
    found = Browser(service.url)
    yield found
    found.driver.quit()


@pytest.fixture
def browser(shared: Browser) -> Iterator[Browser]:
    """A browser in which no script fails and nothing violates the policy of the page."""
    shared.driver.get("about:blank")
    shared.faults()
    yield shared
    assert shared.faults() == []


@pytest.fixture
def other(service: Running) -> Iterator[Callable[..., Browser]]:
    """Starts a browser of another kind."""
    if not DRIVER.exists():
        pytest.skip("no chromedriver")
    started: list[Browser] = []

    def start(**options: Any) -> Browser:
        started.append(Browser(service.url, **options))
        return started[-1]

    yield start
    for one in started:
        assert one.faults() == []
        one.driver.quit()


@pytest.mark.parametrize(
    ("text", "expected"),
    [
        ("FENAME = 'Main'", MAIN),
        ("CFCC LIKE 'A4%' AND (ZIPL = 35042 OR ZIPR = 35042)", LOCAL),
        ("FENAME = 'Nothing'", []),
        ("", town_rows(lambda row: True)),
    ],
)
def test_filters(browser: Browser, text: str, expected: list[Row]) -> None:
    """A filter that is typed selects the segments on the map, in the table, in the links and in the command line."""
    browser.open(f"{ITEMS}?f=html&filter=ZIPL%20IS%20NULL")
    browser.filter(text)
    browser.wait_for_count(len(expected))
    assert browser.parameter("filter") == text
    rows = browser.driver.find_elements(By.CSS_SELECTOR, "#rows [data-id]")
    assert [row.get_attribute("data-id") for row in rows] == [row["TLID"] for row in expected[:50]]
    links = [link.get_attribute("href") for link in browser.driver.find_elements(By.CSS_SELECTOR, ".formats a")]
    assert [parse_qs(urlsplit(link).query)["f"] for link in links] == [["csv"], ["gpkg"], ["json"]]
    assert {parse_qs(urlsplit(link).query).get("filter", [""])[0] for link in links} == {text}
    command = browser.one("#command").get_attribute("textContent").strip()
    quoted = text.replace("'", "'\"'\"'")
    where = f"'--where={quoted}'" if " " in text else "--where=TRUE"
    assert command == f"extractd select {where} --data DIR --format csv {TOWN}"


@pytest.mark.parametrize(
    ("text", "marked", "nearest"),
    [("CFCC = 'A41' AND ZIP = 35042", "ZIP", "ZIPL"), ("CFCC = 'A41' AND\nFENAME = 5", "5", None)],
)
def test_refusals(browser: Browser, text: str, marked: str, nearest: str | None) -> None:
    """The place of a refusal is marked and selected, and the nearest name is one click away."""
    browser.open(f"{ITEMS}?f=html&filter={quote(text)}")
    browser.wait(lambda: browser.text("#count") == "The filter is refused")
    browser.filter(text.replace("\n", Keys.SHIFT + Keys.ENTER + Keys.NULL))
    browser.wait(lambda: browser.run("return getSelection().toString()") == marked)
    assert browser.text("#refusal mark") == marked and browser.one("#filter").get_attribute("aria-invalid") == "true"
    if nearest:
        browser.one("#correction").click()
        expected = town_rows(lambda row: row["CFCC"] == "A41" and row["ZIPL"] == "35042")
        browser.wait_for_count(len(expected))
        assert browser.parameter("filter") == text.replace(marked, nearest)
        assert browser.text("#refusal") == "" and browser.one("#filter").get_attribute("aria-invalid") == "false"


def test_filter_that_is_made(browser: Browser) -> None:
    """The form of names and numbers makes a filter, also of a name with a quotation mark."""
    browser.open(f"{ITEMS}?f=html")
    browser.one("#builder summary").click()
    for name, text in (("name", "main"), ("zip", "35034")):
        browser.one(f"#builder [name={name}]").send_keys(text)
    browser.one("#builder button").click()
    browser.wait_for_count(len([row for row in MAIN if "35034" in (row["ZIPL"], row["ZIPR"])]))
    assert browser.parameter("filter") == "CASEI(FENAME) = CASEI('main') AND (ZIPL = 35034 OR ZIPR = 35034)"
    browser.one("#builder [name=name]").send_keys("'s")
    browser.one("#builder button").click()
    browser.wait_for_count(0)


def test_click(browser: Browser) -> None:
    """A click at a segment shows what it is, and marks its row."""
    row = MAIN[0]
    ends = [int(row[name]) / 1e6 for name in ("FRLAT", "FRLONG", "TOLAT", "TOLONG")]
    middle = (ends[0] + ends[2]) / 2, (ends[1] + ends[3]) / 2
    browser.open(f"{ITEMS}?f=html&filter=FENAME%20%3D%20%27Main%27#map=18/{middle[0]:.6f}/{middle[1]:.6f}")
    browser.wait_for_count(len(MAIN))
    browser.actions().move_to_element(browser.one("#map")).pause(0.5).click().perform()
    browser.wait(lambda: f"{row['FEDIRP']} Main {row['FETYPE']}" in browser.text(".leaflet-popup"))
    assert f"{row['FRADDL']}–{row['TOADDL']}, ZIP {row['ZIPL']}" in browser.text(".leaflet-popup")
    assert browser.one("#rows tr.found").get_attribute("data-id") == row["TLID"]
    browser.one(".leaflet-popup a[href]").click()
    browser.wait(lambda: row["TLID"] in browser.text("article") and row["TRACTL"] in browser.text("article"))


def test_addresses(browser: Browser) -> None:
    """Addresses have a status, a reason and a marker, and are in the address of the page."""
    addresses = ("701 N Oak Ave, 35042", "9 Nowhere St, 35042", "99999 N Oak Ave")
    browser.open(f"{ITEMS}?f=html")
    browser.one("#address").send_keys((Keys.SHIFT + Keys.ENTER + Keys.NULL).join(addresses), Keys.ENTER)
    for _ in range(2):
        browser.wait(lambda: "no such street" in browser.text("#places"))
        expected = ("Match, exact", "No match", "No match")
        assert tuple(item.text for item in browser.driver.find_elements(By.CSS_SELECTOR, ".status")) == expected
        assert "701 N OAK AVE, MILFORD, AL, 35042" in browser.text("#places li")
        browser.wait(lambda: browser.text("#map .leaflet-marker-pane .place") == "1")
        assert browser.parameter("address").splitlines() == list(addresses)
        browser.driver.refresh()
    browser.one("#map .leaflet-marker-pane .place").click()
    browser.wait(lambda: "701 N OAK AVE" in browser.text(".leaflet-popup"))


def test_boundary(browser: Browser) -> None:
    """The segments in a boundary that is drawn are those whose straight lines meet it."""
    browser.open(f"{ITEMS}?f=html#map=14.5/32.957/-87.13")
    browser.wait_for_count(len(town_rows(lambda row: True)))
    browser.one("#draw").click()
    for x, y in ((-150, -80), (100, -100), (60, 90), (-150, -80)):
        browser.actions().move_to_element_with_offset(browser.one("#map"), x, y).click().perform()
        time.sleep(0.5)  # Two clicks at once are a double click.
    browser.wait(lambda: browser.parameter("filter"))
    text = browser.parameter("filter")
    points = re.findall(r"(-[0-9.]+) ([0-9.]+)", text)
    area = geometry.Polygon([(float(x), float(y)) for x, y in points])
    inside = town_rows(lambda row: bool(line_of(row).intersects(area)))
    assert text.startswith("S_INTERSECTS(geometry, POLYGON((") and len(points) == 4 and 50 < len(inside) < 800
    browser.wait_for_count(len(inside))
    browser.one("#in-view").click()
    browser.wait(lambda: "BBOX" in browser.parameter("filter") and "POLYGON" not in browser.parameter("filter"))


def line_of(row: Row) -> Any:
    ends = [int(row[name]) / 1e6 for name in ("FRLONG", "FRLAT", "TOLONG", "TOLAT")]
    return geometry.LineString([ends[:2], ends[2:]])


def test_history(browser: Browser) -> None:
    """The back button returns to the filter, its page and its view, and the pages follow one another."""
    browser.open(f"{ITEMS}?f=html&limit=10&filter=FENAME%20%3D%20%27Main%27")
    browser.wait_for_count(len(MAIN))
    view = browser.driver.current_url.partition("#")[2]
    browser.one("#pages [rel=next]").click()
    browser.wait(lambda: browser.one("#rows [data-id]").get_attribute("data-id") == MAIN[10]["TLID"])
    assert browser.parameter("offset") == "10"
    browser.filter("CFCC = 'A11'")
    count = len(town_rows(lambda row: row["CFCC"] == "A11"))
    browser.wait_for_count(count)
    browser.wait(lambda: browser.driver.current_url.partition("#")[2] != view)
    browser.driver.back()
    browser.wait_for_count(len(MAIN))
    assert browser.one("#filter").get_property("value") == "FENAME = 'Main'"
    assert browser.one("#rows [data-id]").get_attribute("data-id") == MAIN[10]["TLID"]
    assert browser.driver.current_url.partition("#")[2] == view
    browser.driver.back()
    browser.wait(lambda: browser.one("#rows [data-id]").get_attribute("data-id") == MAIN[0]["TLID"])
    browser.driver.forward()
    browser.driver.forward()
    browser.wait_for_count(count)


def test_program(browser: Browser) -> None:
    browser.open(f"{ITEMS}?f=html&filter=ZIPL%20%3D%2035042")
    browser.one("#program summary").click()
    browser.wait(lambda: browser.text("#listing").endswith("accepted") and "35042" in browser.text("#listing"))


def test_keyboard(browser: Browser) -> None:
    """All that can be used has a name, and Tab leads from the filter to the map and on to the table."""
    browser.open(f"{ITEMS}?f=html&limit=2")
    browser.wait_for_count(len(town_rows(lambda row: True)))
    names, seen = [], []
    browser.one("#filter").send_keys("")
    for _ in range(40):
        active = browser.driver.switch_to.active_element
        names.append(active.accessible_name)
        seen.append(active.get_attribute("id") or active.tag_name)
        browser.actions().send_keys(Keys.TAB).perform()
    assert {one for one, name in zip(seen, names) if not name} <= {"body"}
    assert (
        seen.index("filter")
        < seen.index("draw")
        < seen.index("address")
        < seen.index("map")
        < seen.index("all-columns")
    )
    for region in ("count", "places", "view-status"):
        assert browser.one(f"#{region}").get_attribute("aria-live") == "polite"


def test_phone(other: Callable[..., Browser]) -> None:
    """Nothing is wider than a phone, and the map is on the first screen."""
    browser = other(width=390)
    browser.open(f"{ITEMS}?f=html&filter=FENAME%20%3D%20%27Main%27")
    browser.wait_for_count(len(MAIN))
    assert browser.run("return [document.documentElement.scrollWidth, innerWidth]") == [390, 390]
    assert browser.run("return document.querySelector('#map').getBoundingClientRect().top") < 600
    sizes = browser.run("return [...document.querySelectorAll('.buttons button')].map(one => one.offsetHeight)")
    assert min(sizes) >= 36


def test_without_scripts(other: Callable[..., Browser]) -> None:
    """The forms and the links work, and what needs scripts isn't shown."""
    browser = other(has_scripts=False)
    browser.open(f"{ITEMS}?f=html&limit=10")
    browser.one("#filter").send_keys("FENAME = 'Main'")
    browser.one("#filter-form button").click()
    browser.wait(lambda: browser.text("#count") == f"{len(MAIN)} segments selected")
    browser.one("#address").send_keys("701 N Oak Ave, 35042")
    browser.one("#address-form button").click()
    browser.wait(lambda: "Match, exact" in browser.text("#places"))
    assert browser.text("#count") == f"{len(MAIN)} segments selected"
    assert not browser.one("#draw").is_displayed() and not browser.one("#map").is_displayed()
    browser.one("#filter").send_keys(" AND ZIP = 1")
    browser.one("#filter-form button").click()
    browser.wait(lambda: browser.text("#refusal mark") == "ZIP")
    browser.one("#correction").click()
    browser.wait(lambda: browser.text("#count") == "0 segments selected")


def test_markup(browser: Browser) -> None:
    """Names of streets and cities, filters and addresses never become markup, also on the map."""
    for target in (
        f"/collections/{CODE}/items?f=html&filter={quote(f'FENAME = {chr(39)}{MARKUP}{chr(39)}')}",
        f"/collections/{CODE}/items?f=html&filter={quote(MARKUP)}&address={quote(MARKUP)}%0a5901%20Yarrow%20Blvd,%2036067",
    ):
        browser.open(target)
        browser.wait(lambda: browser.run("return document.querySelector('#map').dataset.selected") is not None)
        for place in browser.driver.find_elements(By.CSS_SELECTOR, "#map .place"):
            place.click()
        for row in browser.driver.find_elements(By.CSS_SELECTOR, ".show")[:1]:
            row.click()
            browser.actions().move_to_element(browser.one("#map")).pause(1).click().pause(1).perform()
            assert MARKUP in browser.text(".leaflet-popup")
        assert browser.run("return document.querySelectorAll('img, b, [onerror]').length") == 0
        assert MARKUP.lower() in browser.text("#explorer").lower()


def write_towns(folder: Path, count: int) -> None:
    """Writes a county in which the town is there several times, further east each time, on straight lines."""
    folder.mkdir()
    for record_type in JOINED:
        shutil.copy(EXAMPLES / f"town/TGR{TOWN}.RT{record_type}", folder)
    lines = []
    for number in range(count):
        for record in records(EXAMPLES / f"town/TGR{TOWN}.RT1"):
            tlid, start, end = int(record[5:15]), int(record[190:200]), int(record[209:219])
            moved = [b"%+010d" % (longitude + number * 100_000) for longitude in (start, end)]
            new = record[:5] + b"%10d" % (tlid + number * 100_000) + record[15:190]
            lines.append(new + moved[0] + record[200:209] + moved[1] + record[219:] + b"\r\n")
    (folder / f"TGR{TOWN}.RT1").write_bytes(b"".join(lines))


def test_many_segments(extractd: str, tmp_path: Path, other: Callable[..., Browser]) -> None:
    """The map of a large county has the main roads at first, and all that is in view from near."""
    browser = other()
    drawn = "return Number(document.querySelector('#map').dataset.selected || 0)"
    write_towns(tmp_path / "data", 8)
    roads = 8 * len(town_rows(lambda row: row["CFCC"] < "A4"))
    with serving(tmp_path / "data") as running:
        browser.url = running.url
        browser.open(f"{ITEMS}?f=html")
        browser.wait(lambda: browser.run(drawn) == roads)
        said = f"Main roads only, {roads:,} of {8 * len(town_rows(lambda row: True)):,} segments. Zoom in for all."
        browser.wait(lambda: browser.text("#view-status") == said)
        browser.open(f"{ITEMS}?f=html#map=15/32.957/-87.13")
        browser.wait(lambda: 0 < browser.run(drawn) < 900 and browser.text("#view-status") == "")
