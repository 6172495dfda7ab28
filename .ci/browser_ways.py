"""What is done with the page as it ships: hands and fingers, and large files. Each case asserts what must be.

The milliseconds that a case names are a goal. What fails is a step whose best time of all tries is above twice the goal, or above more if
the loop below takes longer than it did when it was measured: at a load of 7, for no quiet machine was at hand."""

import os
import pathlib
import shutil
import time

IS_STILL = "document.querySelectorAll('.old').length === 0"
TRIES = 5
# What took the page's thread some forty milliseconds: sums over eight megabytes.
LOOP = """(() => { const cells = new Float64Array(1 << 20); let x = 1;
    for (let n = 0; n < 4e6; n++) { x = Math.imul(x, 48271) & 0x7fffffff; cells[x & 1048575] += x; } return cells[0]; })()"""
LOOP_TOOK = 40
# Beside other work, of this machine or its host, the same step takes up to twice the processor's time.
BESIDE = 2


def longest(times):
    """The longest of a step's tasks."""
    return max(times, default=0)


def longest_two(times):
    """The longest time of two tasks one after the other, as a key's and the drawing after it are."""
    long = [it for it in times if it >= 1]
    return max(map(sum, zip(long, long[1:])), default=longest(long))


def slowness(browser):
    """How many times as long as then the loop takes now; at least 1."""
    browser.open("about:blank")
    return max(1, longest(browser.tasks([lambda: browser.value(LOOP)])[0]) / LOOP_TOOK)


def measure(browser, take, most, words):
    """Holds each step to so many milliseconds in one of its tries. `take` tries all steps, and gives what each took; `words` tell a time."""
    best = None
    for _ in range(TRIES):
        found = take()
        best = [min(it) for it in zip(best or found, found)]
        if max(best) <= most * BESIDE or max(best) <= most * BESIDE * slowness(browser):
            return
    raise AssertionError(words.format(round(max(best))))


def text(browser, part):
    """The text of a part of the page."""
    return browser.value(f"document.getElementById('{part}').textContent")


def click(browser, part):
    browser.value(f"document.getElementById('{part}').click()")


def begin(browser, page, view, size=(1280, 800)):
    """Opens the page anew, at a view, in a window of this size."""
    browser.size(*size)
    browser.open(f"file://{page}")
    assert browser.wait("document.querySelector('main')?.hidden === false", 60), f"the page did not begin: {browser.value('document.body.innerText')[:300]!r}"
    click(browser, f"tab-{view}")
    browser.wait(IS_STILL, 60)


def give(browser, name, value):
    """Puts a text into a field."""
    browser.value(f"((field) => {{ field.value = {value!r}; field.dispatchEvent(new Event('input', {{bubbles: true}})); }})(document.getElementById('{name}'))")


def seen(browser, strip):
    """How many packets a strip shows: a tenth of them lie between the first and the one after PageDown."""
    browser.value(f"document.getElementById('{strip}').focus()")
    browser.press("Home")
    browser.press("PageDown")
    return 10 * int(browser.value(f"document.getElementById('{strip}').getAttribute('aria-valuenow')"))


def shown_middle(browser):
    """Scrolls the strip of the forecast into sight, and gives where its middle is then."""
    browser.value("document.getElementById('forecast-strip').scrollIntoView({block: 'center'})")
    return browser.middle("forecast-strip")


def tell_wheel(browser, page, _):
    """The wheel scrolls the page; with Ctrl, or on a strip that has the focus, it zooms."""
    begin(browser, page, "forecast", (1280, 500))
    browser.wheel(browser.middle("forecast-strip"), 120)
    assert browser.wait("scrollY > 0", 10), "the wheel over the strip does not scroll the page"
    browser.value("scrollTo(0, 0)")
    found = seen(browser, "forecast-strip")
    assert found == 1000, f"a wheel that scrolls leaves {found} packets in sight"
    browser.value("document.activeElement.blur()")
    browser.wheel(browser.middle("forecast-strip"), -60, "Control")
    found = seen(browser, "forecast-strip")
    assert 0 < found < 1000, f"the wheel with Ctrl leaves {found} packets in sight"
    browser.wheel(browser.middle("forecast-strip"), 60, "Shift")  # (the focus is on the strip: it moves what is seen)
    assert browser.value("scrollY") == 0, "the wheel scrolls the page though the strip has the focus"


def tell_fingers(browser, page, _):
    """A swipe up scrolls the page, two fingers zoom, and no finger makes a row."""
    begin(browser, page, "forecast", (390, 700))
    texts = "document.getElementById('plan').value + document.getElementById('script').value"
    before = browser.value(texts)
    (x, y), top = shown_middle(browser), browser.value("scrollY")
    browser.drag("touch", ((x, y), (x, y - 150)))
    assert browser.wait(f"scrollY > {top} + 80", 10), "a swipe over the strip does not scroll the page"
    shown_middle(browser)
    browser.drag("touch", ((x - 30, y), (x - 110, y)), ((x + 30, y), (x + 110, y)))
    found = seen(browser, "forecast-strip")
    assert 0 < found < 700, f"two fingers leave {found} packets in sight"
    browser.drag("touch", ((x, y), (x - 100, y)))
    moved = seen(browser, "forecast-strip")
    assert moved == found, f"a swipe to the side leaves {moved} packets in sight"
    browser.value("document.querySelector('#forecast-zoom button:nth-child(2)').click()")
    assert seen(browser, "forecast-strip") > found, "the button − does not zoom out"
    assert browser.value(texts) == before, "fingers changed the schedule or the losses"


def tell_drag(browser, page, _):
    """A press and a short drag add no row; a longer one adds the row that was shown, and Z takes it back."""
    begin(browser, page, "forecast")
    (x, y), losses = shown_middle(browser), "document.getElementById('script').value"
    before = browser.value(losses)
    for shift, more in ((0, 0), (4, 0), (60, 1)):
        browser.drag("mouse", ((x, y), (x + shift, y)), rest=400)
        found = browser.value(losses).removeprefix(before).count("drop,")
        assert found == more, f"a drag by {shift} adds {found} rows"
    assert "Z takes it back" in text(browser, "forecast-change"), f"after a drag it says {text(browser, 'forecast-change')!r}"
    browser.press("z")
    assert browser.value(losses) == before, "Z does not take the row back"


def hear(browser, part, words):
    """Waits until a part says these words."""
    assert browser.wait(f"document.getElementById('{part}').textContent.includes({words!r})", 120), f"{part} says {text(browser, part)!r}"


def pressed(browser, key):
    """Presses a key, and waits for what is drawn after it."""
    browser.press(key)
    browser.frame()
    time.sleep(0.1)


def hold_up(browser, page, view, chooser, bits, paths, words, keys):
    """Opens files in a view and presses keys on its strip: no task of the page takes more than 50 milliseconds."""
    def opened():
        browser.choose(chooser, *paths)
        hear(browser, f"{view}-sum", words)

    def take():
        begin(browser, page, view)
        give(browser, f"{view}-bits", bits)
        focus = lambda: browser.value(f"document.getElementById('{view}-strip').focus()")
        return [longest(it) for it in browser.tasks([opened, focus, *(lambda key=key: pressed(browser, key) for key in keys)])]

    measure(browser, take, 50, "its longest task takes {} milliseconds")


def tell_million(browser, page, files):
    """A store of a million packets: what is told of it, and no task of the page above 50 milliseconds."""
    keys = ("n", "+", "+", "+", "0", "End", "p", "PageUp")
    hold_up(browser, page, "store", "store-file", "64", [files["million"]], "restored", keys)
    (arrived, written), told = files["million_told"], text(browser, "store-sum")
    assert told.startswith(f"{written:,} of 1,000,000 packets restored; {arrived:,} arrived"), f"it says {told!r}"


def tell_fields(browser, page, files):
    """A table of 40 fields by 100,000 packets has no task above 50 milliseconds; eight curves and the values are in sight at 1280 by 800."""
    keys = ("+", "+", "0", "n", "End", "PageUp")
    hold_up(browser, page, "fields", "recording-file", "320", [files["forty"], files["forty_fields"]], "40 fields", keys)
    last = browser.value("document.querySelectorAll('#curves canvas')[7]?.getBoundingClientRect().bottom")
    assert last and last <= 800, f"the eighth curve ends at {last}"
    side = browser.value("(box => [box.left, box.top])(document.getElementById('fields-words').getBoundingClientRect())")
    right = browser.value("document.getElementById('curves').getBoundingClientRect().right")
    assert side[0] >= right and side[1] < 400, f"the values begin at {side}, and the curves end at {right}"


def tell_typing(browser, page, files):
    """Typing in a schedule of 10,000 rows takes the page at most 100 milliseconds for a key and the drawing after it."""
    def take():
        begin(browser, page, "forecast")
        give(browser, "packets", "1000000")
        browser.choose("plan-file", files["rows"])
        assert browser.wait(f"document.getElementById('plan-box').textContent.includes('of 10,001') && {IS_STILL}", 30), "the schedule was not opened"
        browser.value("document.getElementById('plan').focus()")
        return [longest_two(it) for it in browser.tasks([lambda key=key: pressed(browser, key) for key in ["Enter", *"7,9,1,r"]])]

    measure(browser, take, 100, "a key takes {} milliseconds")
    hear(browser, "forecast-sum", "of 1,000,000")


def tell_losses(browser, page, files):
    """The losses of a store in 11,264 stretches become a forecast without a task of the page above 50 milliseconds."""
    def take():
        begin(browser, page, "store")
        give(browser, "store-bits", "64")
        browser.choose("store-file", files["lossy"])
        hear(browser, "store-sum", "restored")
        return [longest(it) for it in browser.tasks([lambda: click(browser, "to-forecast"), lambda: hear(browser, "forecast-sum", "of 123,904 packets")])]

    measure(browser, take, 50, "its longest task takes {} milliseconds")
    hear(browser, "script-box", "Lines 1 to 500 of 11,265")


def tell_no_store(browser, page, files):
    """A gigabyte of zeros or of random bytes is refused by its first header that is none, within a second."""
    for name in ("zeros", "random"):
        def take(name=name):
            begin(browser, page, "store")
            give(browser, "store-bits", "64")
            start = time.monotonic()
            browser.choose("store-file", files[name])
            browser.wait("!document.getElementById('store-refusal').hidden", 60)
            took, said = 1000 * (time.monotonic() - start), text(browser, "store-refusal")
            assert "The program says: store packet at byte" in said, f"{name}: it says {said!r}"
            return [took]

        measure(browser, take, 1000, f"{name} are refused after {{}} milliseconds")


def tell_cancel(browser, page, files):
    """What is read is told, and can be ended; the picture of before stays, and a file that is gone is said to be so."""
    begin(browser, page, "store")
    give(browser, "store-bits", "64")
    gone = shutil.copy(files["small"], browser.folder)
    browser.choose("store-file", gone)
    hear(browser, "store-sum", "restored")
    before = text(browser, "store-sum")
    browser.choose("store-file", files["long"])
    told = browser.wait("/reading [0-9,]+ of 1,0[0-9]+ MB/.test(document.getElementById('store-busy').textContent) && document.getElementById('store-busy').textContent", 60)
    dim = browser.value("document.getElementById('store-picture').classList.contains('old')")
    assert told and dim, f"it says {told or text(browser, 'store-busy')!r}; its picture is dim: {dim}"
    browser.value("document.querySelector('#store-busy button').click()")
    hear(browser, "store-busy", "Cancelled")
    assert text(browser, "store-sum") == before, f"after that it says {text(browser, 'store-sum')!r}"
    browser.choose("store-file", gone)
    browser.wait(f"{IS_STILL} && document.getElementById('store-busy').hidden", 60)
    os.remove(gone)
    give(browser, "store-bits", "72")
    hear(browser, "store-refusal", "the file small.store can't be read")


def tell_start(browser, page, files):
    """A module that can't start is said to be so."""
    front, _, rest = pathlib.Path(page).read_text("utf-8").partition('id="module">')
    pathlib.Path(files["broken"]).write_text(front + 'id="module">AAAA' + rest[rest.index("</script>"):], "utf-8")
    browser.open(f"file://{files['broken']}")
    said = browser.wait("document.getElementById('fault')?.hidden === false && document.getElementById('fault').textContent", 30)
    assert said and said.startswith("The program can't be run in this browser: "), f"it says {said!r}"
