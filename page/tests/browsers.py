"""Drives headless browsers: Chromium by its driver, and Firefox by Marionette, which geckodriver translates to, so that it isn't needed.

`started` yields the browsers that the machine has. Each runs scripts in the page and presses keys.
"""
import contextlib
import json
import os
import signal
import socket
import subprocess
import time
import urllib.error
import urllib.request

import common

# The keys of WebDriver.
KEYS = {
    "Tab": "\ue004", "Enter": "\ue007", "Shift": "\ue008", "Escape": "\ue00c", "End": "\ue010", "Home": "\ue011", "PageUp": "\ue00e",
    "PageDown": "\ue00f", "ArrowLeft": "\ue012", "ArrowUp": "\ue013", "ArrowRight": "\ue014", "ArrowDown": "\ue015",
}
ELEMENT = "element-6066-11e4-a52e-4f735466cecf"
WAIT = 60


class BrowserError(Exception):
    """A browser refused a command, or did not respond."""


def waited(find, what):
    """What `find` returns once it is not None."""
    end = time.time() + WAIT
    while time.time() < end:
        found = find()
        if found is not None:
            return found
        time.sleep(0.05)
    raise BrowserError("no %s in %d s" % (what, WAIT))


class Browser:
    """What the browsers have in common. `send` takes a command of WebDriver and its parameters, and `send_to` sends one to an element."""

    def open(self, url):
        self.send("url", {"url": url})

    def run(self, script, *args):
        """The result of a script; a promise is awaited."""
        return self.send("execute/sync", {"script": script, "args": list(args)})

    def element(self, selector):
        return self.send("element", {"using": "css selector", "value": selector})[ELEMENT]

    def press(self, *words):
        """Presses keys one after the other. A word as Shift+Tab holds a key."""
        actions = []
        for word in words:
            keys = [KEYS.get(key, key) for key in word.split("+")]
            actions += [{"type": "keyDown", "value": key} for key in keys] + [{"type": "keyUp", "value": key} for key in reversed(keys)]
        self.send("actions", {"actions": [{"type": "key", "id": "keys", "actions": actions}]})

    def choose(self, path, selector="#file"):
        """Gives a file to an input of the page."""
        self.send_to(self.element(selector), "value", {"text": path})


class Chromium(Browser):
    name, programs = "Chromium", ("chromium|google-chrome", "chromedriver")

    def __init__(self, program, driver, folder):
        self.process = subprocess.Popen([driver, "--port=0"], stdout=subprocess.PIPE, stderr=subprocess.DEVNULL, text=True)
        port = next(line.split()[-1].rstrip(".") for line in self.process.stdout if "started successfully on port" in line)
        self.place = "http://127.0.0.1:%s/session" % port
        words = ["--headless=new", "--disable-ipc-flooding-protection", "--no-sandbox", "--hide-scrollbars", "--disable-gpu", "--disable-dev-shm-usage"]
        preferences = {"download.default_directory": folder}
        wanted = {"goog:chromeOptions": {"binary": program, "args": words, "prefs": preferences}, "goog:loggingPrefs": {"browser": "ALL"}}
        made = self.call("POST", "", {"capabilities": {"alwaysMatch": wanted}})
        self.place += "/" + made["sessionId"]
        self.version = made["capabilities"]["browserVersion"]

    def call(self, method, path, given=None):
        data = None if given is None else json.dumps(given).encode()
        request = urllib.request.Request(self.place + path, data, {"content-type": "application/json"}, method=method)
        try:
            with urllib.request.urlopen(request, timeout=WAIT) as answer:
                return json.load(answer)["value"]
        except urllib.error.HTTPError as error:
            raise BrowserError(json.load(error)["value"]["message"]) from None

    def send(self, command, given=None):
        return self.call("GET" if given is None else "POST", "/" + command, given)

    def send_to(self, element, command, given=None):
        return self.send("element/%s/%s" % (element, command), given)

    def resize(self, width, height):
        values = {"width": width, "height": height, "deviceScaleFactor": 1, "mobile": False}
        self.send("goog/cdp/execute", {"cmd": "Emulation.setDeviceMetricsOverride", "params": values})

    def errors(self):
        """What the console has said since the last call, other than information."""
        return [one["message"] for one in self.send("se/log", {"type": "browser"}) if one["level"] in ("SEVERE", "WARNING")]

    def stop(self):
        with contextlib.suppress(BrowserError, OSError):
            self.call("DELETE", "")
        self.process.terminate()
        self.process.wait()
        self.process.stdout.close()


PREFERENCES = {
    "marionette.port": 0, "browser.shell.checkDefaultBrowser": False, "browser.startup.page": 0,
    "datareporting.policy.dataSubmissionEnabled": False,
    "browser.download.folderList": 2, "browser.download.alwaysOpenPanel": False, "toolkit.telemetry.reportingpolicy.firstRun": False,
    "app.update.enabled": False, "browser.download.start_downloads_in_tmp_dir": False, "browser.aboutwelcome.enabled": False,
    "network.captive-portal-service.enabled": False, "network.connectivity-service.enabled": False,
}
# What errors of scripts the console has, without advice about scrolling.
MESSAGES = """return Services.console.getMessageArray().filter(one => one instanceof Ci.nsIScriptError
    && !(one.flags & Ci.nsIScriptError.infoFlag) && /inspector\\.html|127\\.0\\.0\\.1|^blob:/.test(one.sourceName))
    .map(one => one.message).filter(message => !message.includes("scroll-linked"))"""
# The commands of Marionette whose names differ from those of WebDriver.
MARIONETTE = {
    "url": "Navigate", "execute/sync": "ExecuteScript", "element": "FindElement", "elements": "FindElements", "actions": "PerformActions",
    "value": "ElementSendKeys", "computedlabel": "GetComputedLabel", "computedrole": "GetComputedRole",
    "frame": "SwitchToFrame", "window/rect": "SetWindowRect",
}


class Firefox(Browser):
    name, programs = "Firefox", ("firefox-esr|firefox",)

    def __init__(self, program, folder):
        profile = os.path.join(folder, "profile")
        os.makedirs(profile)
        preferences = {**PREFERENCES, "browser.download.dir": folder}
        common.write(os.path.join(profile, "user.js"), "".join("user_pref(%s, %s);\n" % (json.dumps(name), json.dumps(value)) for name, value in preferences.items()))
        words = [program, "--headless", "--marionette", "--no-remote", "--remote-allow-system-access", "--profile", profile]
        quiet = {"stdout": subprocess.DEVNULL, "stderr": subprocess.DEVNULL}
        self.process = subprocess.Popen(words, env={**os.environ, "HOME": folder, "MOZ_HEADLESS": "1"}, start_new_session=True, **quiet)
        self.count, port = 0, waited(lambda: self.port(os.path.join(profile, "MarionetteActivePort")), "port of Firefox")
        self.socket = socket.create_connection(("127.0.0.1", port), WAIT)
        self.stream = self.socket.makefile("rb")
        self.receive()
        self.version = self.send("NewSession", {})["capabilities"]["browserVersion"]
        self.seen = 0

    def port(self, path):
        if self.process.poll() is not None:
            raise BrowserError("Firefox ended with status %d" % self.process.returncode)
        with contextlib.suppress(OSError, ValueError), open(path, encoding="ascii") as file:
            return int(file.read())
        return None

    def receive(self):
        size = b""
        while not size.endswith(b":"):
            size += self.stream.read(1)
        return json.loads(self.stream.read(int(size[:-1])))

    def send(self, command, given=None):
        self.count += 1
        name = command if ":" in command else "WebDriver:" + MARIONETTE.get(command, command)
        data = json.dumps([0, self.count, name, given or {}]).encode()
        self.socket.sendall(b"%d:%s" % (len(data), data))
        _, _, error, value = self.receive()
        if error:
            raise BrowserError("%s: %s" % (error["error"], error["message"]))
        return value["value"] if isinstance(value, dict) and list(value) == ["value"] else value

    def send_to(self, element, command, given=None):
        return self.send(command, {"id": element, **(given or {})})

    def resize(self, width, height):
        self.send("window/rect", {"width": width, "height": height})

    def errors(self):
        self.send("Marionette:SetContext", {"value": "chrome"})
        found = self.run(MESSAGES)
        self.send("Marionette:SetContext", {"value": "content"})
        found, self.seen = found[self.seen :], len(found)
        return found

    def stop(self):
        with contextlib.suppress(BrowserError, OSError, ValueError):
            self.send("Marionette:Quit", {"flags": ["eForceQuit"]})
        self.socket.close()
        try:
            self.process.wait(20)
        except subprocess.TimeoutExpired:
            os.killpg(self.process.pid, signal.SIGKILL)
            self.process.wait()


@contextlib.contextmanager
def started(kind, folder):
    """A browser that runs until the end of the block, or None where the machine has none. Downloads go to `folder`."""
    os.makedirs(folder)
    paths = [common.found(name) for name in kind.programs]
    browser = kind(*paths, folder) if all(paths) else None
    try:
        yield browser
    finally:
        if browser:
            browser.stop()
