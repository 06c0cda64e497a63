"""A headless Chromium for tests of pages; it is no test itself."""
import base64
import json
import os
import shutil
import subprocess
import tempfile
import time


def chromium():
    """The program, where there is one."""
    return next(filter(None, map(shutil.which, ("chromium", "chromium-browser", "google-chrome"))), None)


class Browser:
    """A headless Chromium, told what to do through its pipe."""

    def __init__(self, program):
        self.folder = tempfile.mkdtemp(prefix="cpdb-browser-")
        inward, self.to = os.pipe()
        self.come, outward = os.pipe()

        def take_pipes():
            os.dup2(os.dup(inward), 3)
            os.dup2(os.dup(outward), 4)

        self.process = subprocess.Popen([program, "--headless=new", "--no-sandbox", "--disable-gpu", "--remote-debugging-pipe", f"--user-data-dir={self.folder}",
                                       "about:blank"], close_fds=False, preexec_fn=take_pipes, stdout=subprocess.DEVNULL, stderr=subprocess.DEVNULL)
        os.close(inward)
        os.close(outward)
        self.unread, self.number, self.session, self.events = b"", 0, None, []
        target = self.call("Target.createTarget", url="about:blank")["targetId"]
        self.session = self.call("Target.attachToTarget", targetId=target, flatten=True)["sessionId"]
        for domain in ("Page", "Runtime", "Log", "Network"):
            self.call(f"{domain}.enable")

    def call(self, method, **parameters):
        self.number += 1
        message = {"id": self.number, "method": method, "params": parameters, **({"sessionId": self.session} if self.session else {})}
        os.write(self.to, json.dumps(message).encode() + b"\0")
        while True:
            reply = self.read()
            if reply.get("id") == self.number:
                return reply["result"]
            self.events.append(reply)

    def read(self):
        while b"\0" not in self.unread:
            piece = os.read(self.come, 1 << 20)
            if not piece:
                raise EOFError("the browser has ended")
            self.unread += piece
        message, _, self.unread = self.unread.partition(b"\0")
        return json.loads(message)

    def run(self, script):
        """What a script answers; where that is a promise, what it comes to."""
        reply = self.call("Runtime.evaluate", expression=script, awaitPromise=True, returnByValue=True)
        if "exceptionDetails" in reply:
            raise RuntimeError(reply["exceptionDetails"].get("exception", {}).get("description") or script)
        return reply["result"].get("value")

    def open(self, address):
        self.call("Page.navigate", url="about:blank")
        self.call("Page.navigate", url=address)
        self.wait("document.documentElement.dataset.ready === 'true'")

    def wait(self, condition, seconds=60):
        """Waits until a condition holds, up to so many seconds."""
        end = time.monotonic() + seconds
        while time.monotonic() < end:
            reply = self.call("Runtime.evaluate", expression=f"Boolean({condition})", returnByValue=True)
            if reply["result"].get("value") is True:
                return
            time.sleep(0.02)
        raise TimeoutError(f"in the page it never held that {condition}")

    def size(self, width, height):
        self.call("Emulation.setDeviceMetricsOverride", width=width, height=height, deviceScaleFactor=1, mobile=width < 700)

    def picture(self):
        """What is seen, as PNG."""
        return base64.b64decode(self.call("Page.captureScreenshot", format="png")["data"])

    def press(self, *keys):
        for key in keys:
            text = {"text": key} if len(key) == 1 else {"text": "\r"} if key == "Enter" else {}
            self.call("Input.dispatchKeyEvent", type="keyDown", key=key, **text)
            self.call("Input.dispatchKeyEvent", type="keyUp", key=key)

    def close(self):
        self.process.terminate()
        self.process.wait()
        # Processes that the browser began may write for a moment more.
        shutil.rmtree(self.folder, ignore_errors=True)
