"""A headless Chromium, told what to do over a pipe (the DevTools protocol), for tests of pages."""
import base64
import fcntl
import json
import os
import shutil
import subprocess

PROGRAM = next((found for name in ("chromium", "chromium-browser", "google-chrome") if (found := shutil.which(name))), None)
KEYS = {"ArrowLeft": 37, "ArrowRight": 39, "PageUp": 33, "PageDown": 34, "Home": 36, "End": 35, "n": 78, "p": 80}


class Browser:
    def __init__(self, folder):
        """With its files in this folder. Chromium reads from descriptor 3 and writes to 4."""
        (its_in, self.out), (self.into, its_out) = os.pipe(), os.pipe()
        # copies above 4 first, since each pipe may have 3 or 4 itself
        ends = [fcntl.fcntl(end, fcntl.F_DUPFD, 10) for end in (its_in, its_out)]
        words = [PROGRAM, "--headless", "--no-sandbox", "--disable-gpu", "--hide-scrollbars", "--remote-debugging-pipe",
                 f"--user-data-dir={folder}", "about:blank"]
        self.process = subprocess.Popen(words, stdout=subprocess.DEVNULL, stderr=subprocess.DEVNULL, pass_fds=(3, 4),
                                        preexec_fn=lambda: [os.dup2(end, number) for number, end in enumerate(ends, 3)])
        for end in (its_in, its_out, *ends):
            os.close(end)
        self.last, self.rest, self.session, self.faults = 0, b"", None, []
        target = self.call("Target.createTarget", url="about:blank")["targetId"]
        self.session = self.call("Target.attachToTarget", targetId=target, flatten=True)["sessionId"]
        self.call("Page.enable")
        self.call("Runtime.enable")

    def close(self):
        self.session = None
        self.call("Browser.close")
        self.process.wait(20)
        os.close(self.out)
        os.close(self.into)

    def receive(self):
        """The next message."""
        while b"\0" not in self.rest:
            read = os.read(self.into, 1 << 20)
            if not read:
                raise EOFError("the browser has ended")
            self.rest += read
        text, self.rest = self.rest.split(b"\0", 1)
        told = json.loads(text)
        if told.get("method") == "Runtime.exceptionThrown":
            self.faults.append(told["params"]["exceptionDetails"].get("text"))
        return told

    def call(self, method, **parameters):
        self.last += 1
        asked = {"id": self.last, "method": method, "params": parameters}
        if self.session:
            asked["sessionId"] = self.session
        os.write(self.out, json.dumps(asked).encode() + b"\0")
        while True:
            told = self.receive()
            if told.get("id") == self.last:
                if "error" in told:
                    raise RuntimeError(told["error"])
                return told["result"]

    def open(self, address):
        """Opens this page, and waits for its scripts."""
        self.call("Page.navigate", url="about:blank")
        self.call("Page.navigate", url=address)
        while self.value("document.readyState + location.href.slice(0, 4)") != "completefile":
            pass

    def value(self, expression):
        """What this comes to in the page."""
        return self.call("Runtime.evaluate", expression=expression, returnByValue=True)["result"].get("value")

    def press(self, key):
        for kind in ("keyDown", "keyUp"):
            self.call("Input.dispatchKeyEvent", type=kind, key=key, code=key, windowsVirtualKeyCode=KEYS[key])

    def show_as(self, width, height, scheme):
        self.call("Emulation.setDeviceMetricsOverride", width=width, height=height, deviceScaleFactor=1, mobile=False)
        self.call("Emulation.setEmulatedMedia", features=[{"name": "prefers-color-scheme", "value": scheme}])

    def picture(self):
        """The page as a PNG."""
        return base64.b64decode(self.call("Page.captureScreenshot", format="png")["data"])
