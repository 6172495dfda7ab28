"""Browsers without a window, which are told what to do by WebDriver, the standard protocol of browsers' drivers: Debian's Chromium and
WebKitGTK by their drivers over HTTP, Firefox, whose driver Debian has not, by the same commands at the port that its driver would use."""

import base64
import contextlib
import glob
import http.client
import json
import os
import shutil
import socket
import subprocess
import tempfile
import time

# Each browser with what it needs: the command, and Debian's package.
NEEDS = {"chromium": {"chromium": "chromium", "chromedriver": "chromium-driver"}, "firefox": {"firefox-esr": "firefox-esr"},
         "webkit": {"WebKitWebDriver": "webkit2gtk-driver", "Xvfb": "xvfb"}}
FLAGS = ["--headless=new", "--no-sandbox", "--disable-gpu", "--disable-dev-shm-usage", "--no-first-run", "--disable-extensions", "--disable-background-networking",
         "--disable-component-update", "--disable-sync", "--no-proxy-server", "--hide-scrollbars", "--window-size=1280,1600"]
COMMANDS = {"NewSession": ("POST", "/session"), "DeleteSession": ("DELETE", ""), "SetTimeouts": ("POST", "/timeouts"), "Navigate": ("POST", "/url"), "ExecuteAsyncScript": ("POST", "/execute/async"),
            "FindElement": ("POST", "/element"), "ElementSendKeys": ("POST", "/element/{id}/value"), "PerformActions": ("POST", "/actions"), "SetWindowRect": ("POST", "/window/rect"),
            "TakeScreenshot": ("GET", "/screenshot"), "Log": ("POST", "/se/log"), "Chromium": ("POST", "/goog/cdp/execute")}
KEYS = {"Enter": "\ue006", "Shift": "\ue008", "Control": "\ue009", "PageUp": "\ue00e", "PageDown": "\ue00f", "End": "\ue010", "Home": "\ue011",
        "ArrowRight": "\ue014"}
SCRIPT = """const done = arguments[arguments.length - 1];
(async () => (%s))().then((value) => done({value}), (fault) => done({fault: String(fault?.stack ?? fault)}));"""
PREFS = {"browser.download.folderList": 2, "browser.download.alwaysOpenPanel": False, "network.proxy.type": 0, "datareporting.policy.dataSubmissionEnabled": False}
MINI_BROWSER = "/usr/lib/*/webkit2gtk-4.*/MiniBrowser"
LIGHT = "layout.css.prefers-color-scheme.content-override"
LIMIT = 600  # seconds for one command


def until(holds, limit=60):
    """Waits so many seconds until something holds, and gives it; or None."""
    end = time.monotonic() + limit
    while time.monotonic() < end:
        found = holds()
        if found:
            return found
        time.sleep(0.1)
    return None


class Browser:
    """A browser with one page."""

    def __init__(self, name):
        self.name, self.folder, self.processes = name, tempfile.mkdtemp(prefix=f"pocket-{name}-"), []
        self.session, self.number, self.socket = "", 0, None
        self.saved = None if name == "webkit" else os.path.join(self.folder, "saved")
        with socket.socket() as free:
            free.bind(("127.0.0.1", 0))
            self.port = free.getsockname()[1]
        try:
            wanted = {"chromium": self.start_chromium, "firefox": self.start_firefox, "webkit": self.start_webkit}[name]()
            if not until(self.is_open):
                raise RuntimeError("its driver does not begin")
            self.begin(wanted)
        except BaseException:
            self.close()
            raise

    def run(self, *words, **more):
        """Starts a process that ends with the browser."""
        self.processes.append(subprocess.Popen(words, stdin=subprocess.DEVNULL, stderr=subprocess.DEVNULL, **{"stdout": subprocess.DEVNULL, **more}))
        return self.processes[-1]

    def start_chromium(self):
        self.run("chromedriver", f"--port={self.port}")
        options = {"args": [*FLAGS, f"--user-data-dir={self.folder}/profile"], "perfLoggingPrefs": {"traceCategories": "toplevel", "enableNetwork": False, "enablePage": False},
                   "prefs": {"download.default_directory": self.saved, "profile.default_content_setting_values.automatic_downloads": 1}, "binary": shutil.which("chromium")}
        return {"goog:loggingPrefs": {"performance": "ALL"}, "goog:chromeOptions": options}

    def start_webkit(self):
        screen = self.run("Xvfb", "-displayfd", "1", "-screen", "0", "2000x1700x24", "-nolisten", "tcp", stdout=subprocess.PIPE)
        display = f":{screen.stdout.readline().decode().strip()}"
        self.run("WebKitWebDriver", f"--port={self.port}", env={**os.environ, "DISPLAY": display, "GDK_BACKEND": "x11", "HOME": self.folder})
        return {}

    def start_firefox(self):
        os.makedirs(f"{self.folder}/profile")
        with open(f"{self.folder}/profile/user.js", "w", encoding="utf-8") as file:
            file.writelines(f"user_pref({json.dumps(name)}, {json.dumps(value)});\n" for name, value in {**PREFS, "browser.download.dir": self.saved, "marionette.port": self.port}.items())
        self.run("firefox-esr", "--headless", "--marionette", "--remote-allow-system-access", "--no-remote", "--profile", f"{self.folder}/profile", env={**os.environ, "HOME": self.folder})
        return {}

    def is_open(self):
        """Whether the driver answers."""
        try:
            link = socket.create_connection(("127.0.0.1", self.port), LIMIT)
        except OSError:
            return False
        if self.name != "firefox":
            link.close()
            return True
        self.socket, self.stream = link, link.makefile("rb")
        return self.heard()

    def begin(self, wanted):
        """Begins a session."""
        self.session = self.ask("NewSession", capabilities={"alwaysMatch": wanted})["sessionId"]
        self.ask("SetTimeouts", script=LIMIT * 1000, pageLoad=LIMIT * 1000)
        self.size(1280, 1600)

    def end(self):
        """Ends the session."""
        if self.session:
            self.ask("DeleteSession")
        self.session = ""

    def ask(self, command, **given):
        """What the browser answers to a command."""
        answer = self.ask_firefox(command, given) if self.socket else self.ask_driver(command, given)
        if isinstance(answer, dict) and "error" in answer:
            raise RuntimeError(f"{command}: {answer['error']}: {str(answer.get('message'))[:400]}")
        return answer["value"] if self.socket and "value" in answer else answer

    def ask_driver(self, command, given):
        method, path = COMMANDS[command]
        place = (f"/session/{self.session}" if self.session else "") + path.format(**given)
        link = http.client.HTTPConnection("127.0.0.1", self.port, timeout=LIMIT)
        link.request(method, place, json.dumps(given) if method == "POST" else None, {"Content-Type": "application/json"})
        try:
            return json.loads(link.getresponse().read())["value"]
        finally:
            link.close()

    def ask_firefox(self, command, given):
        self.number += 1
        sent = json.dumps([0, self.number, command if ":" in command else f"WebDriver:{command}", given]).encode()
        self.socket.sendall(b"%d:%s" % (len(sent), sent))
        _, _, error, answer = self.heard()
        return error or answer

    def heard(self):
        """The next message of Firefox: its length, a colon, and its bytes."""
        size = b""
        while not size.endswith(b":"):
            size += self.stream.read(1) or b":"
        return json.loads(self.stream.read(int(size[:-1])))

    def value(self, expression):
        """The value of an expression in the page."""
        found = self.ask("ExecuteAsyncScript", script=SCRIPT % expression, args=[])
        if "fault" in found:
            raise RuntimeError(found["fault"][:400])
        return found.get("value")

    def wait(self, expression, limit):
        """Waits until an expression is true in the page, and gives its value; or None."""
        return until(lambda: self.value(expression), limit)

    def open(self, address):
        """Opens an address, anew even if only what follows its # differs."""
        for place in ("about:blank", address):
            self.ask("Navigate", url=place)

    def act(self, *sources):
        """Acts as hands do: each source has its type, its parameters and its steps."""
        self.ask("PerformActions", actions=[{"type": kind, "id": f"{kind}{more}{number}", "actions": steps, **({"parameters": {"pointerType": more}} if more else {})}
                                            for number, (kind, more, steps) in enumerate(sources)])

    def press(self, key):
        """Presses a key."""
        self.act(("key", None, [{"type": kind, "value": KEYS.get(key, key)} for kind in ("keyDown", "keyUp")]))

    def drag(self, kind, *ways, rest=0):
        """Moves the mouse, or as many fingers ("touch") as there are ways, pressed over the page: each a pair of places (x, y), from one to the
        other, at which it rests for so many milliseconds."""
        move = lambda place, time: {"type": "pointerMove", "duration": time, "x": round(place[0]), "y": round(place[1])}
        self.act(*(("pointer", kind, [move(begin, 0), {"type": "pointerDown", "button": 0}, move(end, 250), {"type": "pause", "duration": rest},
                                      {"type": "pointerUp", "button": 0}]) for begin, end in ways))
        self.frame()

    def wheel(self, place, down, held=None):
        """Turns the wheel, with a key held or none."""
        x, y, rest = round(place[0]), round(place[1]), {"type": "pause", "duration": 0}
        scroll = {"type": "scroll", "x": x, "y": y, "deltaX": 0, "deltaY": down, "duration": 0, "origin": "viewport"}
        keys = [("key", None, [{"type": "keyDown", "value": KEYS[held]}, rest, {"type": "keyUp", "value": KEYS[held]}])] if held else []
        self.act(*keys, ("wheel", None, [rest, scroll, rest]))

    def choose(self, chooser, *paths):
        """Chooses files of this machine in the chooser of this id."""
        found = self.ask("FindElement", using="css selector", value=f"#{chooser}")
        self.ask("ElementSendKeys", id=next(iter(found.values())), text="\n".join(paths), value=[*"\n".join(paths)])

    def size(self, width, height):
        """Gives the page this size, or the least that the browser has."""
        if self.name == "chromium":
            self.ask("Chromium", cmd="Emulation.setDeviceMetricsOverride", params={"width": width, "height": height, "deviceScaleFactor": 1, "mobile": False})
        else:
            wide, high = self.value("[outerWidth - innerWidth, outerHeight - innerHeight]")
            self.ask("SetWindowRect", x=0, y=0, width=width + wide, height=height + high)
        self.frame()

    def light(self, name):
        """Has the page in light or dark. WebKitGTK takes that at the beginning: it begins anew, without a page."""
        if self.name == "chromium":
            self.media("", {"prefers-color-scheme": name})
        elif self.name == "firefox":
            self.ask("Marionette:SetContext", value="chrome")
            self.ask("ExecuteScript", script=f"Services.prefs.setIntPref('{LIGHT}', {int(name == 'light')})", args=[])
            self.ask("Marionette:SetContext", value="content")
        else:
            self.end()
            self.begin({"webkitgtk:browserOptions": {"binary": glob.glob(MINI_BROWSER)[0], "args": ["--automation", *(["--dark-mode"] if name == "dark" else [])]}})

    def media(self, kind, features):
        """Has Chromium draw for another medium, print or none, with these features."""
        self.ask("Chromium", cmd="Emulation.setEmulatedMedia", params={"media": kind, "features": [{"name": name, "value": value} for name, value in features.items()]})

    def picture(self):
        """The page's picture, as PNG."""
        return base64.b64decode(self.ask("TakeScreenshot", full=False))

    def tasks(self, steps):
        """Does some steps after the page was opened, and gives for each the processor's time of each task of the page's thread meanwhile, in
        milliseconds, if the browser tells it."""
        if self.name == "chromium":
            self.ask("Log", type="performance")  # (what was traced before fills the room)
        spans = []
        for step in steps:
            begin = time.monotonic()
            step()
            spans.append((begin * 1e6, time.monotonic() * 1e6))
        if self.name != "chromium":
            return [[] for _ in spans]
        self.frame()  # (a task after the last step: once it is told, all before it are)
        events, pages = [], set()

        def are_told():
            told = [json.loads(it["message"])["message"] for it in self.ask("Log", type="performance")]
            events.extend(it["params"] for it in told if it["method"] == "Tracing.dataCollected")
            pages.update((it["pid"], it["tid"]) for it in events if it["ph"] == "M" and it["args"].get("name") == "CrRendererMain")
            return any(it["ts"] > spans[-1][1] for it in events if (it["pid"], it["tid"]) in pages)

        if not until(are_told, LIMIT):
            raise RuntimeError("the browser does not tell its tasks")
        found = [it for it in events if it["name"] == "ThreadControllerImpl::RunTask" and it["ph"] == "X" and (it["pid"], it["tid"]) in pages]
        return [[it.get("tdur", 0) / 1000 for it in sorted(found, key=lambda it: it["ts"]) if begin <= it["ts"] <= end] for begin, end in spans]

    def frame(self):
        """Waits until the page has drawn itself."""
        self.value("new Promise(done => requestAnimationFrame(() => requestAnimationFrame(() => done(1))))")

    def middle(self, part):
        """Where the middle of the part of this id is: x and y."""
        return self.value(f"(box => [box.x + box.width / 2, box.y + box.height / 2])(document.getElementById('{part}').getBoundingClientRect())")

    def close(self):
        with contextlib.suppress(OSError, RuntimeError, ValueError):
            self.end()
        if self.socket:
            self.socket.close()
        for process in reversed(self.processes):
            process.kill()
            process.wait()
        shutil.rmtree(self.folder, ignore_errors=True)
