"""Headless Chromium over its debugging pipe, with one page whose scrollbars are hidden. It resolves no name."""
import contextlib
import fcntl
import json
import os
import pathlib
import select
import shutil
import signal
import sys
import tempfile
import time

FLAGS = ["--headless", "--no-sandbox", "--disable-gpu", "--remote-debugging-pipe", "--hide-scrollbars", "--window-size=800,600",
         "--force-device-scale-factor=1", "--no-first-run", "--disable-background-networking", "--disable-component-update",
         "--disable-sync", "--disable-extensions", "--mute-audio", "--disable-dev-shm-usage", "--host-resolver-rules=MAP * ~NOTFOUND"]
SECONDS = 300
SECONDS_TO_END, SECONDS_TO_LET_GO = 5, 0.2
# Descriptors that a child moves to 3 and 4, where Chromium wants its pipe, must stand above those.
LEAST_DESCRIPTOR = 10


def moved(descriptor):
    """The descriptor, moved to where it isn't overwritten."""
    higher = fcntl.fcntl(descriptor, fcntl.F_DUPFD_CLOEXEC, LEAST_DESCRIPTOR)
    os.close(descriptor)
    return higher


@contextlib.contextmanager
def started(program):
    """A browser with its page, which ends with the block."""
    browser = Chromium(program)
    try:
        browser.begin()
        yield browser
    finally:
        browser.end()


class Chromium:
    """A browser and its page."""

    def __init__(self, program):
        path = shutil.which(program) or sys.exit(f"there is no program {program}: apt-get install chromium")
        self.folder = tempfile.mkdtemp(prefix="lay-chromium-")
        for_commands, self.commands = os.pipe()
        self.answers, for_answers = os.pipe()
        ends = [moved(for_commands), moved(for_answers)]
        actions = [(os.POSIX_SPAWN_OPEN, wanted, os.devnull, os.O_RDWR, 0) for wanted in (0, 1, 2)]
        actions += [(os.POSIX_SPAWN_DUP2, end, wanted) for end, wanted in zip(ends, (3, 4))]
        words = [path, *FLAGS, f"--user-data-dir={self.folder}", "about:blank"]
        self.process = os.posix_spawn(path, words, os.environ, file_actions=actions)
        for end in ends:
            os.close(end)
        self.last, self.session, self.rest, self.seen = 0, None, b"", set()

    def begin(self):
        self.version = self.send("Browser.getVersion")["product"].split("/")[-1]
        target = self.send("Target.createTarget", url="about:blank")["targetId"]
        self.session = self.send("Target.attachToTarget", targetId=target, flatten=True)["sessionId"]
        self.send("Page.enable")
        self.send("Emulation.setDeviceMetricsOverride", width=800, height=600, deviceScaleFactor=1, mobile=False)

    def end(self):
        self.write({"id": self.last + 1, "method": "Browser.close"})
        late = time.monotonic() + SECONDS_TO_END
        while not os.waitpid(self.process, os.WNOHANG)[0]:
            if time.monotonic() > late:
                os.kill(self.process, signal.SIGKILL)
            time.sleep(0.05)
        os.close(self.commands)
        os.close(self.answers)
        time.sleep(SECONDS_TO_LET_GO)  # Its helpers end after it, and write to the folder until then.
        shutil.rmtree(self.folder, ignore_errors=True)

    def write(self, message):
        data = json.dumps(message).encode() + b"\0"
        try:
            while data:
                data = data[os.write(self.commands, data):]
        except BrokenPipeError:
            pass  # What is read next says that it ended.

    def message(self):
        """The next message of Chromium: each is a JSON text with a zero byte after it."""
        while b"\0" not in self.rest:
            if not select.select([self.answers], [], [], SECONDS)[0]:
                sys.exit(f"chromium said nothing for {SECONDS} s")
            data = os.read(self.answers, 1 << 20) or sys.exit("chromium ended, or didn't start")
            self.rest += data
        text, self.rest = self.rest.split(b"\0", 1)
        return json.loads(text)

    def send(self, method, **params):
        """What a command returns. Events that come before are noted by their names."""
        self.last += 1
        command = {"id": self.last, "method": method, "params": params}
        self.write(command if self.session is None else {**command, "sessionId": self.session})
        while True:
            message = self.message()
            if "method" in message:
                self.seen.add(message["method"])
            elif message["id"] == self.last:
                return message["result"] if "result" in message else sys.exit(f"chromium: {method}: {message['error']['message']}")

    def open(self, page):
        """Loads a page that is given as text."""
        path = pathlib.Path(self.folder) / "page.html"
        path.write_text(page)
        self.seen.discard("Page.loadEventFired")
        self.send("Page.navigate", url=path.as_uri())
        while "Page.loadEventFired" not in self.seen:
            self.seen.add(self.message().get("method"))

    def evaluate(self, expression):
        answer = self.send("Runtime.evaluate", expression=expression, returnByValue=True)
        if "exceptionDetails" in answer:
            sys.exit(f"in the page: {answer['exceptionDetails']['exception'].get('description')}")
        return answer["result"].get("value")

    def count_processor_time(self):
        """From here on the durations among the metrics are seconds of the processor of the page's own thread."""
        self.send("Performance.enable", timeDomain="threadTicks")

    def metrics(self):
        return {each["name"]: each["value"] for each in self.send("Performance.getMetrics")["metrics"]}

