"""The atlas page by keys and for screen readers alone, at two sizes: atlas-client.py calls `keys`, and says what `trial` is.

- Tab leads to each control once, from the top to the end, and back out of the picture; what has the focus is seen and marked.
- Each control has a role and a name in the browser's tree for screen readers; what changes by itself is in live regions.
- Keys alone move the picture, read what stands at its middle, pick a source, measure, go to a position, set a switch, a list and a slider.
- The text has the contrast of WCAG's AA (4.5), computed from the styles, in light and in dark.
"""

import re

import numpy
from selenium.webdriver.common.action_chains import ActionChains
from selenium.webdriver.common.by import By
from selenium.webdriver.common.keys import Keys

from atlas_page import SIZES, VIEW, is_said, resize, script, turn, view_of, wait_for

LEAST_CONTRAST = 4.5
FOCUSED = """
const one = document.activeElement, box = one.getBoundingClientRect(), style = getComputedStyle(one);
const isSeen = box.width > 0 && box.top >= -1 && box.left >= -1 && box.bottom <= innerHeight + 1 && box.right <= innerWidth + 1;
const isMarked = one.matches(":focus-visible") && (style.outlineStyle !== "none" || style.boxShadow !== "none");
return [one.id || one.textContent.trim(), isSeen, isMarked];
"""
FOCUSABLE = """
return [...document.querySelectorAll("button, input, select, summary, [tabindex]")].filter((one) => one.checkVisibility()).map((one) => one.id || one.textContent.trim());
"""
CONTRASTS = """
const numbers = (text) => text.match(/[\\d.]+/g).map(Number);
const lightness = (text) => {
    const [red, green, blue] = numbers(text).map((part) => part / 255).map((part) => part <= 0.04045 ? part / 12.92 : ((part + 0.055) / 1.055) ** 2.4);
    return 0.2126 * red + 0.7152 * green + 0.0722 * blue;
};
const groundOf = (one) => { const colour = getComputedStyle(one).backgroundColor; return numbers(colour)[3] === 0 ? groundOf(one.parentElement) : colour; };
const contrast = (colour, ground) => { const [dark, light] = [colour, ground].map(lightness).sort((one, other) => one - other); return (light + 0.05) / (dark + 0.05); };
const hidden = [...document.querySelectorAll("[hidden]:not(canvas, i)")], empty = [...document.querySelectorAll("p:empty, span:empty")];
hidden.forEach((one) => { one.hidden = false; });
empty.forEach((one) => { one.textContent = "A text"; });
document.querySelectorAll("details").forEach((one) => { one.open = true; });
const hasText = (one) => one.matches("input:not([type=range], [type=checkbox]), select") || [...one.childNodes].some((node) => node.nodeType === 3 && node.data.trim());
const all = [...document.querySelectorAll("body *")].filter((one) => one.checkVisibility({ opacityProperty: true }) && !one.matches("script, noscript, option") && hasText(one));
const found = all.flatMap((one) => [[one, ""], ...(one.placeholder ? [[one, "::placeholder"]] : [])])
    .map(([one, part]) => [(one.id || one.textContent) + part, contrast(getComputedStyle(one, part || null).color, groundOf(one))]);
hidden.forEach((one) => { one.hidden = true; });
empty.forEach((one) => { one.textContent = ""; });
document.querySelectorAll("details").forEach((one) => { one.open = false; });
return found;
"""
LIVE = {"message": "alert", "refused": "alert", "understood": "status", "heard": "status", "news": "status", "differs": "status", "filter-refused": "alert", "cut-refused": "alert",
        "second-refused": "alert", "background-refused": "alert", "file-refused": "alert"}
LANDMARKS = {"banner", "main", "complementary", "contentinfo"}
CONTROLS = {"button", "textbox", "combobox", "slider", "checkbox", "application", "DisclosureTriangle", "option", "region"}


def keys(trial):
    for name in ("1280 by 800", "1920 by 1080"):
        resize(trial, *SIZES[name])
        trial.open(trial.hash(VIEW, "grid=1&catalogue=0&colours=grey"))
        goes_through(trial, name)
        is_told(trial, name)
        works_by_keys(trial, name)
        is_legible(trial, name)
    resize(trial, *SIZES["1280 by 800"])


def press(trial, *some):
    ActionChains(trial.browser, duration=0).send_keys(*some).perform()


def focus(trial, name):
    """Goes on by Tab to a control."""
    for _ in range(80):
        if script(trial, "return document.activeElement.id") == name:
            return
        press(trial, Keys.TAB)
    trial.blame("Tab doesn't lead to", name)


def goes_through(trial, size):
    # What is at the picture's middle brings a control, so the picture is gone to first.
    press(trial, Keys.TAB, Keys.TAB)
    wait_for(trial, f"{size}: no tile can be saved", lambda: not script(trial, "return document.getElementById('tile').hidden"), 10)
    expected = script(trial, FOCUSABLE)
    script(trial, "document.getElementById('dark').focus({ focusVisible: true })")
    found = []
    for _ in expected:
        name, is_seen, is_marked = script(trial, FOCUSED)
        found.append(name)
        if not (is_seen and is_marked):
            trial.blame(f"{size}: the focus isn't {'marked' if is_seen else 'in sight'} at", name)
        press(trial, Keys.TAB)
    if found != expected:
        trial.blame(f"{size}: Tab leads to {found} in place of {expected}")
    focus(trial, "lines")
    ActionChains(trial.browser).key_down(Keys.SHIFT).send_keys(Keys.TAB).key_up(Keys.SHIFT).perform()
    if script(trial, "return document.activeElement.id") not in ("dark", "fold"):
        trial.blame(f"{size}: Shift and Tab don't lead out of the picture")


def is_told(trial, size):
    """Roles, names and live regions, as the browser tells them to screen readers."""
    trial.browser.execute_cdp_cmd("Accessibility.enable", {})
    nodes = [node for node in trial.browser.execute_cdp_cmd("Accessibility.getFullAXTree", {})["nodes"] if not node.get("ignored")]
    property_of = lambda node, name: next((one["value"].get("value") for one in node.get("properties", []) if one["name"] == name), None)  # noqa: E731
    told = [(node["role"]["value"], node.get("name", {}).get("value", ""), node.get("description", {}).get("value", "")) for node in nodes if property_of(node, "focusable")]
    if wrong := [one for one in told if one[1] == "" or one[0] not in CONTROLS | {"RootWebArea"}]:
        trial.blame(f"{size}: without a name or a role:", wrong)
    if not any(role == "application" and name == "The sky" and "arrows move it" in description for role, name, description in told):
        trial.blame(f"{size}: the picture is told of as", [one for one in told if one[0] not in ("button", "checkbox")])
    roles = {node["role"]["value"] for node in nodes}
    if not LANDMARKS <= roles:
        trial.blame(f"{size}: landmarks are", roles)
    live = script(trial, "return Object.fromEntries([...document.querySelectorAll('[role=alert], [role=status]')].map((one) => [one.id, one.getAttribute('role')]))")
    if live != LIVE:
        trial.blame(f"{size}: live regions are", live)


def works_by_keys(trial, size):
    heard = lambda: script(trial, "return document.getElementById('heard').textContent")  # noqa: E731
    focus(trial, "lines")
    is_middle = lambda: (found := position_of(heard())) and "pixel" in heard() and numpy.allclose(found, view_of(trial)[:2], atol=0.02)  # noqa: E731
    wait_for(trial, f"{size}: nothing is heard at the middle", is_middle, 5)
    for key, is_right in ((Keys.ARROW_LEFT, lambda: view_of(trial)[0] > VIEW[0]), ("=", lambda: abs(view_of(trial)[2] - VIEW[2] / 1.5) < 0.1), ("-", lambda: abs(view_of(trial)[2] - VIEW[2]) < 0.1)):
        press(trial, key)
        wait_for(trial, f"{size}: the key {key!r} leads to {view_of(trial)}", is_right, 5)
    trial.wait("whole")
    wait_for(trial, f"{size}: after keys another place is heard", is_middle, 5)
    press(trial, "m")
    press(trial, Keys.ARROW_UP, Keys.ARROW_UP)
    wait_for(trial, f"{size}: m measures: '{heard()}'", lambda: re.search(r"[\d.]+° from the mark, to 0.0°", heard()), 5)
    press(trial, "m")
    is_said(trial, f"{size}: keys point at the middle", "1", str(cross_is_drawn(trial)))
    focus(trial, "place")
    ActionChains(trial.browser, duration=0).key_down(Keys.CONTROL).send_keys("a").key_up(Keys.CONTROL).send_keys("05:20:00 +20:00:00", Keys.ENTER).perform()
    wait_for(trial, f"{size}: a position by keys leads to {view_of(trial)}", lambda: view_of(trial)[:2] == VIEW[:2], 5)
    for name, key, asked in (("grid", Keys.SPACE, "return String(document.getElementById('grid').checked)"), ("stretch", Keys.ARROW_DOWN, "return document.getElementById('stretch').value"),
                             ("high", Keys.ARROW_LEFT, "return document.getElementById('high-value').value")):
        focus(trial, name)
        before = script(trial, asked)
        press(trial, key)
        if script(trial, asked) == before:
            trial.blame(f"{size}: {name} isn't set by keys")
    turn(trial, VIEW, "grid=1&catalogue=0&colours=grey&stretch=linear")


def position_of(text):
    """Right ascension and declination that a text names."""
    found = re.search(r"RA ([\d.]+)°  Dec \+([\d.]+)°", text)
    return found and [float(found[1]), float(found[2])]


def cross_is_drawn(trial):
    """Whether the lines around the middle are another where keys point there."""
    read = """const canvas = document.getElementById("lines"), [x, y] = [canvas.width / 2, canvas.height / 2];
        return [...canvas.getContext("2d").getImageData(x - 14, y - 14, 28, 28).data].reduce((sum, level) => sum + level, 0);"""
    settled = "const done = arguments[0]; requestAnimationFrame(() => requestAnimationFrame(done))"
    turn(trial, VIEW, "grid=0&catalogue=0&colours=grey")
    with_cross = script(trial, read)
    script(trial, "document.activeElement.blur()")
    trial.browser.execute_async_script(settled)
    without = script(trial, read)
    return int(with_cross > 0 and without == 0)


def is_legible(trial, size):
    for theme in ("light", "dark"):
        if script(trial, "return document.documentElement.dataset.theme") != theme:
            trial.browser.find_element(By.ID, "dark").click()
        ground = max(map(int, re.findall(r"\d+", script(trial, "return getComputedStyle(document.body).backgroundColor"))[:3]))
        if (ground > 80) == (theme == "dark"):
            trial.blame(f"{size}: {theme} is", ground)
        found = script(trial, CONTRASTS)
        if len(found) < 60:
            trial.blame(f"{size}: only {len(found)} texts were found")
        if low := [one for one in found if one[1] < LEAST_CONTRAST]:
            trial.blame(f"{size}, {theme}: too little contrast:", low)
    trial.browser.find_element(By.ID, "dark").click()
