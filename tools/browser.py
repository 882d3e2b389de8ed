"""Headless Chromium (Debian's chromium), driven over its DevTools pipe: messages of JSON, each ended by an octet 0."""
import base64
import json
import os
import subprocess
import tempfile
import threading
import time

import small_png

KEYS = {"Enter": 13, "F8": 119, "Tab": 9, "ArrowDown": 40, "ArrowUp": 38, "ArrowLeft": 37, "ArrowRight": 39, "Home": 36, "End": 35}
CONTROL, SHIFT = 2, 8

PLACE = """(() => {
    const it = document.querySelector(%s);
    it.scrollIntoView({ block: "nearest" });
    const box = it.getBoundingClientRect();
    return [box.left + Math.min(box.width / 2, 100), box.top + box.height / 2];
})()"""


class Browser:
    """A browser with one page."""

    def __init__(self, downloads):
        self.profile = tempfile.TemporaryDirectory(prefix="browser-")
        there, self.to = os.pipe()
        self.answers, back = os.pipe()
        words = ["chromium", "--headless=new", "--disable-gpu", "--no-first-run", f"--user-data-dir={self.profile.name}",
                 "--remote-debugging-pipe", *(["--no-sandbox"] if os.geteuid() == 0 else []), "about:blank"]
        at_3_and_4 = ["sh", "-c", f'exec "$@" 3<&{there} 4>&{back}', "sh"]
        self.process = subprocess.Popen([*at_3_and_4, *words], pass_fds=(there, back), stdin=subprocess.DEVNULL,
                                        stdout=subprocess.DEVNULL, stderr=subprocess.DEVNULL)
        os.close(there)
        os.close(back)
        self.number, self.session, self.answered, self.events = 0, None, {}, []
        self.came = threading.Condition()
        threading.Thread(target=self.listen, daemon=True).start()
        pages = [it for it in self.call("Target.getTargets")["targetInfos"] if it["type"] == "page"]
        self.session = self.call("Target.attachToTarget", targetId=pages[0]["targetId"], flatten=True)["sessionId"]
        for domain in ("Page", "Runtime", "Log"):
            self.call(f"{domain}.enable")
        self.call("Browser.setDownloadBehavior", behavior="allow", downloadPath=str(downloads), session=False)

    def listen(self):
        rest = b""
        while piece := os.read(self.answers, 1 << 20):
            *whole, rest = (rest + piece).split(b"\0")
            with self.came:
                for it in map(json.loads, whole):
                    if "id" in it:
                        self.answered[it["id"]] = it
                    else:
                        self.events.append(it)
                self.came.notify_all()

    def call(self, method, session=True, **params):
        """What the browser answers to a call."""
        self.number += 1
        number, message = self.number, {"id": self.number, "method": method, "params": params}
        if session and self.session:
            message["sessionId"] = self.session
        whole = json.dumps(message).encode() + b"\0"
        while whole:
            whole = whole[os.write(self.to, whole):]
        with self.came:
            if not self.came.wait_for(lambda: number in self.answered, timeout=120):
                raise TimeoutError(method)
            answer = self.answered.pop(number)
        if "error" in answer:
            raise RuntimeError(f"{method}: {answer['error']['message']}")
        return answer["result"]

    def run(self, text):
        """The value of an expression of the page's."""
        said = self.call("Runtime.evaluate", expression=text, returnByValue=True, awaitPromise=True)
        if "exceptionDetails" in said:
            raise RuntimeError(said["exceptionDetails"].get("exception", {}).get("description", text))
        return said["result"].get("value")

    def open(self, address):
        """Opens a page, and waits until it's ready."""
        self.call("Page.navigate", url="about:blank")
        self.call("Page.navigate", url=address)
        self.until("document.body && document.body.dataset.ready === 'yes'")

    def until(self, fact):
        end = time.monotonic() + 60
        while not self.run(fact):
            if time.monotonic() > end:
                raise TimeoutError(fact)
            time.sleep(0.05)

    def key(self, name, modifiers=0):
        """A key is pressed and let go."""
        what = {"key": name, "code": name, "windowsVirtualKeyCode": KEYS[name], "modifiers": modifiers}
        text = {"text": "\r"} if name == "Enter" and not modifiers else {}
        self.call("Input.dispatchKeyEvent", type="keyDown" if text else "rawKeyDown", **what, **text)
        self.call("Input.dispatchKeyEvent", type="keyUp", **what)

    def type(self, text):
        """Types a text, and waits until the page has shown what it makes."""
        self.call("Input.insertText", text=text)
        self.until("!pending")

    def click(self, selector):
        """A click on what the selector finds, at its middle, or near its begin where it's long."""
        x, y = self.run(PLACE % json.dumps(selector))
        for kind in ("mousePressed", "mouseReleased"):
            self.call("Input.dispatchMouseEvent", type=kind, x=x, y=y, button="left", clickCount=1)

    def size(self, width, height, scheme="light"):
        self.call("Emulation.setDeviceMetricsOverride", width=width, height=height, deviceScaleFactor=1, mobile=False)
        self.call("Emulation.setEmulatedMedia", features=[{"name": "prefers-color-scheme", "value": scheme}])

    def shot(self, path):
        path.write_bytes(small_png.small(base64.b64decode(self.call("Page.captureScreenshot", format="png")["data"])))

    def complaints(self):
        """What the page or the browser complained of so far."""
        told = []
        for it in self.events:
            if it["method"] == "Runtime.exceptionThrown":
                told.append(it["params"]["exceptionDetails"].get("text", "an exception"))
            elif it["method"] == "Log.entryAdded" and it["params"]["entry"]["level"] in ("error", "warning"):
                told.append(it["params"]["entry"]["text"])
        return told

    def close(self):
        self.call("Browser.close", session=False)
        self.process.wait(timeout=30)
        self.profile.cleanup()
