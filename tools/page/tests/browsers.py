"""Real browsers without a window: Chromium by its pipe for debuggers, and Firefox by Marionette."""
import base64
import contextlib
import json
import os
import shutil
import signal
import socket
import subprocess
import tempfile
import time

WAIT, LEAST = 60, 600
KEYS = {"Tab": (9, "\ue004"), "Enter": (13, "\ue007"), " ": (32, " ")}


class Gone(Exception):
    """The browser doesn't answer, or answers with an error."""


def free_port():
    with socket.socket() as it:
        it.bind(("127.0.0.1", 0))
        return it.getsockname()[1]


class Browser:
    """A browser with a folder of its own for what it keeps."""

    def __init__(self):
        self.folder, self.process, self.count = tempfile.mkdtemp(prefix="page-browser-"), None, 0

    def begin(self, words, **how):
        self.process = subprocess.Popen(words, stdin=subprocess.DEVNULL, stdout=subprocess.DEVNULL,
                                        stderr=subprocess.DEVNULL, start_new_session=True,
                                        env={**os.environ, "HOME": self.folder}, **how)

    def __enter__(self):
        return self

    def __exit__(self, *_):
        with contextlib.suppress(ProcessLookupError):
            os.killpg(self.process.pid, signal.SIGKILL)
        self.process.wait()
        shutil.rmtree(self.folder, ignore_errors=True)

    def until(self, expression):
        """Waits until an expression of JavaScript is true."""
        since = time.monotonic()
        while not self.value(f"!!({expression})"):
            if time.monotonic() - since > WAIT:
                raise Gone(f"never true: {expression}")
            time.sleep(0.05)


class Chromium(Browser):
    """Chromium, which reads messages with a zero byte behind each from one pipe, and writes them to another."""

    name = "chromium"

    def __init__(self):
        super().__init__()
        theirs, self.write = os.pipe()
        self.read, their_write = os.pipe()
        flags = ("--headless=new", "--no-sandbox", "--disable-gpu", "--hide-scrollbars", "--no-first-run",
                 "--remote-debugging-pipe", f"--user-data-dir={self.folder}")
        self.begin(["sh", "-c", f'exec "$@" 3<&{theirs} 4>&{their_write}', "sh", "chromium", *flags, "about:blank"],
                   pass_fds=(theirs, their_write))
        os.close(theirs)
        os.close(their_write)
        self.rest, self.session = b"", None
        target = self.told("Target.createTarget", url="about:blank")["targetId"]
        self.session = self.told("Target.attachToTarget", targetId=target, flatten=True)["sessionId"]
        self.told("Page.enable")

    def message(self):
        while b"\0" not in self.rest:
            part = os.read(self.read, 1 << 20)
            if not part:
                raise Gone("chromium ended")
            self.rest += part
        text, _, self.rest = self.rest.partition(b"\0")
        return json.loads(text)

    def told(self, method, **params):
        """What it answers to a message."""
        self.count += 1
        asked = {"id": self.count, "method": method, "params": params}
        if self.session:
            asked["sessionId"] = self.session
        text = json.dumps(asked).encode() + b"\0"
        while text:
            text = text[os.write(self.write, text):]
        while True:
            answer = self.message()
            if answer.get("id") == self.count:
                if "error" in answer:
                    raise Gone(f"{method}: {answer['error']['message']}")
                return answer["result"]

    def open(self, url):
        self.told("Page.navigate", url=url)

    def value(self, expression):
        """The value of an expression of JavaScript, also one that is promised."""
        told = self.told("Runtime.evaluate", expression=expression, awaitPromise=True, returnByValue=True)
        if "exceptionDetails" in told:
            raise Gone(str(told["exceptionDetails"].get("exception", {}).get("description")))
        return told["result"].get("value")

    def look(self, width, height, is_dark):
        self.told("Emulation.setDeviceMetricsOverride", width=width, height=height, deviceScaleFactor=1, mobile=False)
        scheme = {"name": "prefers-color-scheme", "value": "dark" if is_dark else "light"}
        self.told("Emulation.setEmulatedMedia", features=[scheme])

    def key(self, name):
        code = KEYS[name][0]
        text = {"text": "\r"} if name == "Enter" else {"text": " "} if name == " " else {}
        key = {"key": name, "code": "Space" if name == " " else name, "windowsVirtualKeyCode": code}
        self.told("Input.dispatchKeyEvent", type="keyDown", **key, **text)
        self.told("Input.dispatchKeyEvent", type="keyUp", **key)

    def picture(self):
        """What is seen, as PNG."""
        return base64.b64decode(self.told("Page.captureScreenshot", format="png")["data"])


class Firefox(Browser):
    """Firefox, which takes messages at a port, each with its length before it."""

    name = "firefox-esr"

    def __init__(self):
        super().__init__()
        port = free_port()
        with open(os.path.join(self.folder, "user.js"), "w", encoding="utf-8") as file:
            file.write(f'user_pref("marionette.port", {port});\n')
        self.begin(["firefox-esr", "--headless", "--marionette", "--remote-allow-system-access", "--no-remote",
                    "--profile", self.folder])
        self.socket = self.connected(port)
        self.rest = b""
        self.message()
        self.told("WebDriver:NewSession", capabilities={})
        self.told("WebDriver:SetTimeouts", script=WAIT * 1000)

    def connected(self, port):
        since = time.monotonic()
        while True:
            try:
                return socket.create_connection(("127.0.0.1", port), WAIT)
            except OSError:
                if time.monotonic() - since > WAIT:
                    raise Gone("firefox-esr doesn't listen") from None
                time.sleep(0.1)

    def message(self):
        while True:
            size, colon, rest = self.rest.partition(b":")
            if colon and len(rest) >= int(size):
                self.rest = rest[int(size):]
                return json.loads(rest[:int(size)])
            part = self.socket.recv(1 << 20)
            if not part:
                raise Gone("firefox-esr ended")
            self.rest += part

    def told(self, command, **params):
        """What it answers to a message."""
        self.count += 1
        text = json.dumps([0, self.count, command, params]).encode()
        self.socket.sendall(str(len(text)).encode() + b":" + text)
        _, _, error, result = self.message()
        if error:
            raise Gone(f"{command}: {error['message']}")
        return result

    def open(self, url):
        self.told("WebDriver:Navigate", url=url)

    def value(self, expression):
        """The value of an expression of JavaScript, also one that is promised."""
        script = ("const done = arguments[arguments.length - 1];"
                  f"Promise.resolve(window.eval({json.dumps(expression)})).then((it) => done({{it}}),"
                  " (why) => done({why: String(why)}));")
        # nothing is told where the page is left meanwhile
        told = self.told("WebDriver:ExecuteAsyncScript", script=script, args=[], sandbox=None)["value"] or {}
        if "why" in told:
            raise Gone(told["why"])
        return told.get("it")

    def look(self, width, height, is_dark):
        self.told("WebDriver:SetWindowRect", width=max(width, LEAST), height=height)
        self.told("Marionette:SetContext", value="chrome")
        # a window has a least width, and what it shows hasn't
        script = ('Services.prefs.setIntPref("layout.css.prefers-color-scheme.content-override", '
                  f'{0 if is_dark else 1}); gBrowser.selectedBrowser.style.maxWidth = "{width}px";')
        self.told("WebDriver:ExecuteScript", script=script, args=[])
        self.told("Marionette:SetContext", value="content")

    def key(self, name):
        keys = [{"type": kind, "value": KEYS[name][1]} for kind in ("keyDown", "keyUp")]
        self.told("WebDriver:PerformActions", actions=[{"type": "key", "id": "keys", "actions": keys}])

    def picture(self):
        """What is seen, as PNG."""
        return base64.b64decode(self.told("WebDriver:TakeScreenshot", full=False, hash=False)["value"])


BROWSERS = (Chromium, Firefox)
