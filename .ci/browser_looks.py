"""How the page looks at several sizes of a window, and what it is for those who don't see it. Each case asserts what must be."""

import os
import pathlib

from browser_ways import IS_STILL, begin, click, give, hear
from webdriver import until

VIEWS = ["forecast", "store", "streams", "fields"]
SIZES = [(320, 640), (390, 844), (800, 900), (1280, 800), (1920, 1080)]
LIGHTS, LEAST_PICTURE = ["dark", "light"], 40_000
WRONG = {"plan": "x", "store-bits": "x", "fields": "x", "units": "x"}
EXAMPLES = {"store": "store-example", "fields": "fields-example"}
# What is wider than the window, or nothing.
TOO_WIDE = """(() => { const wide = document.documentElement.clientWidth;
    if (document.documentElement.scrollWidth <= wide) return '';
    return [...document.querySelectorAll('main *')].filter(it => it.getBoundingClientRect().right > wide + 1 && it.offsetParent).map(it => it.id || it.className || it.tagName).slice(0, 4).join(' ') || 'something'; })()"""
# Where the inputs of a view and its picture are.
PLACES = """(view => [view.querySelector('.inputs'), view.querySelector('.main')].map(it => { const box = it.getBoundingClientRect(); return [box.left, box.top, box.right, box.bottom]; }))(document.getElementById('view-%s'))"""
TOPS = "new Set([...document.querySelectorAll('[role=tab]')].map(it => it.getBoundingClientRect().top)).size"
# The names of the buttons that are seen, and the parts with a label and no role.
NAMES = """[...document.querySelectorAll('button, label.button')].filter(it => it.offsetParent).map(it => (it.control ?? it).getAttribute('aria-label') || it.textContent.trim())"""
NO_ROLE = """[...document.querySelectorAll('[aria-label]')].filter(it => !it.hasAttribute('role') && !['INPUT', 'BUTTON', 'TEXTAREA', 'SELECT', 'SECTION', 'TABLE'].includes(it.tagName)).map(it => it.outerHTML.slice(0, 80))"""
# The texts that are seen with less contrast than 4.5, each by its beginning.
FAINT = """(() => {
    const numbers = text => (text.match(/[0-9.]+/g) ?? []).map(Number);
    const light = ([r, g, b]) => [r, g, b].map(it => it / 255).map(it => it <= 0.03928 ? it / 12.92 : ((it + 0.055) / 1.055) ** 2.4).reduce((sum, it, at) => sum + it * [0.2126, 0.7152, 0.0722][at], 0);
    const over = (front, back) => { const a = front[3] ?? 1; return [0, 1, 2].map(at => front[at] * a + back[at] * (1 - a)); };
    const ground = it => { const found = numbers(getComputedStyle(it).backgroundColor); return (found[3] ?? 1) >= 1 ? found : over(found, it.parentElement ? ground(it.parentElement) : [255, 255, 255]); };
    const clear = it => it ? Number(getComputedStyle(it).opacity) * clear(it.parentElement) : 1;
    const found = [], walk = document.createTreeWalker(document.body, NodeFilter.SHOW_TEXT);
    while (walk.nextNode()) {
        const it = walk.currentNode.parentElement, words = walk.currentNode.textContent.trim();
        if (!words || !it.offsetParent || it.closest('.unseen, script')) continue;
        const back = ground(it), front = over([...numbers(getComputedStyle(it).color).slice(0, 3), clear(it)], back);
        const [high, low] = [light(front), light(back)].sort((one, other) => other - one), ratio = (high + 0.05) / (low + 0.05);
        if (ratio < 4.5) found.push(words.slice(0, 30) + ' ' + ratio.toFixed(2));
    }
    return found.slice(0, 5);
})()"""
DROPS = """(() => { const drag = files => { const data = new DataTransfer(); if (files) data.items.add(new File(['x'], 'x')); else data.setData('text/plain', 'x');
    const event = new DragEvent('dragover', {bubbles: true, cancelable: true, dataTransfer: data}); document.getElementById('plan').dispatchEvent(event); return event.defaultPrevented; };
    return [drag(false), drag(true)]; })()"""


def tell_picture(browser, page, _):
    """The pictures in light and dark show something, each something else."""
    seen = []
    for light in LIGHTS:
        browser.light(light)
        begin(browser, page, "forecast")
        hear(browser, "rows-told", "These")
        seen.append(browser.picture())
        pathlib.Path(os.path.dirname(page), "out", f"{browser.name}-{light}.png").write_bytes(seen[-1])
    sizes = [len(png) for png in seen]
    assert min(sizes) >= LEAST_PICTURE and seen[0] != seen[1], f"the pictures have {sizes} bytes"


def with_examples(browser, page):
    """Opens the page with the examples of all views."""
    begin(browser, page, "forecast")
    for view, example in EXAMPLES.items():
        click(browser, f"tab-{view}")
        click(browser, example)
        assert browser.wait(f"/restored|with 5 fields/.test(document.getElementById('{view}-sum').textContent)", 60), f"the example of {view} did not come"


def hold_places(browser, view, width):
    """How a view stands in a window of this width."""
    wide, (inputs, main), at = browser.value(TOO_WIDE), browser.value(PLACES % view), f"{view} at {width}: "
    assert not wide, f"{at}{wide} is too wide"
    assert width >= 800 or inputs[3] <= main[1], f"{at}inputs and picture are not in one column"
    assert width < 800 or inputs[2] <= main[0], f"{at}the inputs are not at the left of the picture"
    assert width < 1280 or main[2] >= width - 40, f"{at}the picture ends at {main[2]}"


def tell_sizes(browser, page, _):
    """Nothing is too wide at any size; inputs are at the left from 800 on; all tabs are on one line."""
    with_examples(browser, page)
    for width, height in SIZES:
        browser.size(width, height)
        width = browser.value("innerWidth")  # (a browser may have a least one)
        assert width < 390 or browser.value(TOPS) == 1, f"at {width} the tabs are on {browser.value(TOPS)} lines"
        for view in VIEWS:
            click(browser, f"tab-{view}")
            browser.frame()
            hold_places(browser, view, width)
            browser.value("document.documentElement.style.fontSize = '200%'")
            wide = browser.value(TOO_WIDE) if width > 800 else ""
            browser.value("document.documentElement.style.fontSize = ''")
            assert not wide, f"{view} at {width}, with a font twice as large: {wide} is too wide"


def tell_names(browser, page, _):
    """Buttons have names of their own, labelled parts have roles, texts have contrast, and a text can be dragged within a field."""
    for light in LIGHTS:
        browser.light(light)
        with_examples(browser, page)
        hold_names(browser, light)
        for field, wrong in WRONG.items():
            give(browser, field, wrong)
        assert browser.wait(f"document.querySelectorAll('.refusal:not([hidden])').length >= {len(WRONG)}", 30), "what is wrong is not refused"
        hold_names(browser, light)
    without = browser.value(NO_ROLE)
    assert not without, f"{without} have a label and no role"
    found = browser.value(DROPS)
    assert found == [False, True], f"a text and a file that are dragged are taken: {found}"


def tell_media(browser, page, _):
    """On paper the bits and the APID of a store are there, and no card is moved away from the head; in forced colours the chosen tab and
    the legend's signs can be told."""
    with_examples(browser, page)
    click(browser, "tab-store")
    colours = "[...document.querySelectorAll('[role=tab]')].map(it => getComputedStyle(it).borderBottomColor)"
    try:
        browser.media("print", {})
        seen = browser.value("['store-bits', 'store-apid', 'store-strip'].filter(id => document.getElementById(id).getClientRects().length)")
        whole = browser.value("[...document.querySelectorAll('.card')].filter(it => it.matches('.main .card') && getComputedStyle(it).breakInside === 'avoid').length")
        browser.media("", {"forced-colors": "active"})
        tabs, signs = browser.value(colours), browser.value("[...document.querySelectorAll('#store-legend .sign')].map(it => getComputedStyle(it).backgroundColor)")
    finally:
        browser.media("", {})
    assert seen == ["store-bits", "store-apid", "store-strip"] and not whole, f"on paper there are {seen}, and {whole} cards that can't be broken"
    assert tabs[1] not in (tabs[0], tabs[2]) and len(set(signs)) == len(signs), f"in forced colours the tabs are {tabs}, and the signs {signs}"


# What some tasks ask for, of the examples: the view, where the answer stands, and what it has.
ANSWERS = [("forecast", "forecast-sure", "Sure: 0 to 9, 11 to 49"), ("forecast", "rows-told", "These 3 rows make all sure"), ("fields", "fields-stretches", "battery_mV44553320, above 3300")]


def tell_answers(browser, page, files):
    """What a task asks for stands in sight, without scrolling, at 1280 by 800."""
    with_examples(browser, page)
    store, wrong, lost = files["answers"]
    click(browser, "tab-store")
    for name, value in (("bits", "64"), ("apid", "101")):
        give(browser, f"store-{name}", value)
    browser.choose("store-file", store)
    browser.wait("document.getElementById('store-name').textContent.startsWith('answers')", 30)
    click(browser, "to-streams")
    for view, part, words in [*ANSWERS, ("store", "store-wrong", wrong), ("streams", "streams-sum", lost)]:
        click(browser, f"tab-{view}")
        hear(browser, part, words)
        top, bottom = browser.value(f"(box => [box.top, box.bottom])(document.getElementById('{part}').getBoundingClientRect())")
        assert browser.value("scrollY") == 0 and top >= 0 and bottom <= 800, f"{part} lies from {top} to {bottom}"


def hold_names(browser, light):
    """No view has two buttons of one name, or a text that is faint."""
    for view in VIEWS:
        click(browser, f"tab-{view}")
        browser.wait(IS_STILL, 30)
        names, faint = browser.value(NAMES), browser.value(FAINT)
        twice = sorted({name for name in names if names.count(name) > 1 or not name})
        assert not twice, f"{light}: {view} has buttons of one name: {twice}"
        assert not faint, f"{light}: {view}: {faint} are faint"


def tell_saved(browser, page, files):
    """What is made can be kept: each file that is saved is what the program writes, or what was typed."""
    begin(browser, page, "forecast")
    for name in ("plan", "script"):
        browser.choose(f"{name}-file", files[name])
    give(browser, "packets", "60")
    hear(browser, "forecast-sum", "of 60")
    save = lambda area: browser.value(f"document.querySelector('#{area}-box .files button').click()")
    save("plan")
    save("script")
    click(browser, "save-forecast")
    click(browser, "tab-fields")
    give(browser, "fields-bits", "64")
    browser.choose("fields-file", files["fields"])
    browser.choose("recording-file", files["recording"])
    hear(browser, "fields-sum", "with 5 fields")
    save("fields")
    click(browser, "save-table")
    click(browser, "save-outside")
    for name, wanted in files["wanted"].items():
        path = pathlib.Path(browser.saved, name)
        until(lambda path=path, size=len(wanted): path.exists() and path.stat().st_size >= size)
        assert path.read_bytes() == wanted, f"{name} is another one"


def tell_policy(browser, page, _):
    """No text becomes code, and the tests are not in the page as it ships."""
    begin(browser, page, "forecast")
    refused = browser.value("(() => { try { document.createElement('div').innerHTML = '<b>x</b>'; return ''; } catch (fault) { return fault.name; } })()")
    worker = browser.value("(() => { try { new Worker('data:text/javascript,1'); return ''; } catch (fault) { return fault.name; } })()")
    has_tests = "the words of ten packets" in pathlib.Path(page).read_text("utf-8")
    assert (refused, worker, has_tests) == ("TypeError", "TypeError", False), f"a text as HTML: {refused!r}, another worker: {worker!r}, tests: {has_tests}"
