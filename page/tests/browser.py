"""Drives a headless Chromium by its remote protocol, over a pipe: no port is opened, and only Python is needed."""

import base64
import contextlib
import json
import os
import shutil
import subprocess
import tempfile
import time
from collections.abc import Callable, Iterator
from pathlib import Path
from typing import Any

FLAGS = (
    "--headless",
    "--no-sandbox",
    "--disable-gpu",
    "--disable-dev-shm-usage",
    "--no-first-run",
    "--disable-background-networking",
    "--disable-component-update",
    "--disable-sync",
    "--remote-debugging-pipe",
)


def chromium() -> str | None:
    """The browser, if there is one."""
    return shutil.which("chromium") or shutil.which("chromium-browser") or shutil.which("google-chrome")


class Browser:
    """One tab of one browser. `seen` has the addresses that the page asked for and what failed in it."""

    def __init__(self, process: subprocess.Popen[bytes], to: int, answers: int) -> None:
        self.process, self.to, self.answers = process, to, answers
        self.count, self.rest, self.session, self.loads = 0, b"", None, 0
        self.seen: list[tuple[str, str]] = []
        self.events: list[dict[str, Any]] = []
        self.ran: list[dict[str, Any]] = []
        self.process_of_page = 0
        tab = self.call("Target.createTarget", url="about:blank")["targetId"]
        self.session = self.call("Target.attachToTarget", targetId=tab, flatten=True)["sessionId"]
        for domain in ("Page", "Runtime", "Log", "Network", "DOM"):
            self.call(f"{domain}.enable")

    def messages(self) -> Iterator[dict[str, Any]]:
        """The browser's messages as they come: each ends with a zero byte."""
        while True:
            while b"\0" in self.rest:
                message, self.rest = self.rest.split(b"\0", 1)
                yield json.loads(message)
            read = os.read(self.answers, 1 << 20)
            if not read:
                raise RuntimeError("the browser ended")
            self.rest += read

    def call(self, method: str, **parameters: Any) -> dict[str, Any]:
        """Calls a method of the protocol and waits for its answer."""
        self.count += 1
        message = {"id": self.count, "method": method, "params": parameters}
        if self.session:
            message["sessionId"] = self.session
        data = json.dumps(message).encode() + b"\0"
        while data:
            data = data[os.write(self.to, data) :]
        for answer in self.messages():
            if answer.get("id") == self.count:
                if "error" in answer:
                    raise RuntimeError(f"{method}: {answer['error']['message']}")
                return answer["result"]
            self.note(answer)
        raise RuntimeError("the browser ended")

    def note(self, message: dict[str, Any]) -> None:
        """Keeps what the page asked for and what failed."""
        method, told = message.get("method"), message.get("params", {})
        if method == "Network.requestWillBeSent":
            self.seen.append(("asks", told["request"]["url"][:200]))
        elif method == "Runtime.exceptionThrown":
            details = told["exceptionDetails"]
            self.seen.append(("fails", details.get("exception", {}).get("description", details["text"])))
        elif method == "Tracing.dataCollected":
            self.events += told["value"]
        elif method == "Page.loadEventFired":
            self.loads += 1
        elif method == "Page.javascriptDialogOpening":
            self.seen.append(("dialog", told["type"]))
        elif method == "Log.entryAdded" and told["entry"]["level"] in ("error", "warning"):
            self.seen.append(("fails", told["entry"]["text"]))

    def evaluate(self, expression: str) -> Any:
        """The value of an expression of JavaScript, once its promise is kept."""
        answer = self.call("Runtime.evaluate", expression=expression, awaitPromise=True, returnByValue=True)
        if "exceptionDetails" in answer:
            raise RuntimeError(answer["exceptionDetails"].get("exception", {}).get("description", "failed"))
        return answer["result"].get("value")

    def wait(self, expression: str, seconds: float = 180) -> None:
        """Waits till an expression holds."""
        self.until(lambda: self.evaluate(f"!!({expression})"), expression, seconds)

    @staticmethod
    def until(holds: Callable[[], object], words: str, seconds: float = 180) -> None:
        """Waits till something holds, which these words say."""
        end = time.monotonic() + seconds
        while not holds():
            if time.monotonic() > end:
                raise RuntimeError(f"this did not come within {seconds} seconds: {words}")
            time.sleep(0.05)

    @contextlib.contextmanager
    def tasks(self) -> Iterator[list[float]]:
        """Takes note of the tasks of the page's own thread: at the end the list has the processor time of each, in
        milliseconds, and `process_of_page` is the number of the process that has them. (By the clock a task takes longer
        where the machine does other work too.)"""
        found: list[float] = []
        self.events.clear()
        categories = ["toplevel", "blink.user_timing", "__metadata"]
        config = {"includedCategories": categories, "excludedCategories": ["*"]}
        self.call("Tracing.start", transferMode="ReportEvents", traceConfig=config)
        yield found
        self.call("Tracing.end")
        for message in self.messages():
            self.note(message)
            if message.get("method") == "Tracing.tracingComplete":
                break
        threads = {(it["pid"], it["tid"]): it["args"]["name"] for it in self.events if it["name"] == "thread_name"}
        of: dict[int, list[dict[str, Any]]] = {}
        for it in self.events:
            thread = threads.get((it["pid"], it["tid"]), "")
            if it["name"] == "ThreadControllerImpl::RunTask" and thread in ("CrRendererMain", "DedicatedWorker thread"):
                of.setdefault(it["pid"], []).append({**it, "is_main": thread == "CrRendererMain"})
        self.process_of_page = max(of, key=lambda process: sum(it.get("tdur", 0) for it in of[process]))
        self.ran = of[self.process_of_page]
        found += sorted(it.get("tdur", 0) / 1000 for it in self.ran if it["is_main"])

    def between(self, begin: str, end: str) -> float:
        """The processor time between two marks of the page, while tasks were taken note of, in milliseconds: of the page
        or of its worker, which work beside each other, whichever had more."""
        at = {it["name"]: it["ts"] for it in self.events if "blink.user_timing" in it.get("cat", "")}
        then = [it for it in self.ran if at[begin] <= it["ts"] <= at[end]]
        return max(sum(it.get("tdur", 0) / 1000 for it in then if it["is_main"] == is_main) for is_main in (True, False))

    def go(self, address: str) -> None:
        """Opens a page and waits till it is whole."""
        self.call("Page.navigate", url=address)
        self.wait("document.readyState === 'complete'")

    def reload(self) -> None:
        """Loads the page anew and waits till it is whole."""
        before = self.loads
        self.call("Page.reload")
        for message in self.messages() if self.loads == before else ():
            self.note(message)
            if self.loads > before:
                break

    def choose(self, selector: str, files: list[Path]) -> None:
        """Gives files to a file input, as a person does in the browser's dialog."""
        root = self.call("DOM.getDocument")["root"]["nodeId"]
        node = self.call("DOM.querySelector", nodeId=root, selector=selector)["nodeId"]
        self.call("DOM.setFileInputFiles", nodeId=node, files=[str(it.resolve()) for it in files])

    def drop(self, files: list[Path]) -> None:
        """Drops files and folders on the page, as a person does with the mouse."""
        data = {"items": [], "files": [str(it.resolve()) for it in files], "dragOperationsMask": 1}
        for what in ("dragEnter", "dragOver", "drop"):
            self.call("Input.dispatchDragEvent", type=what, x=300, y=300, data=data)

    def press(self, key: str, text: str = "") -> None:
        """Presses a key."""
        code = {"Tab": 9, "Enter": 13, " ": 32}.get(key, 0)
        parameters = {"key": key, "windowsVirtualKeyCode": code, **({"text": text} if text else {})}
        self.call("Input.dispatchKeyEvent", type="keyDown", **parameters)
        self.call("Input.dispatchKeyEvent", type="keyUp", **parameters)

    def type(self, text: str) -> None:
        """Types a text into what has the focus."""
        self.call("Input.insertText", text=text)

    def look(self, width: int, height: int, dark: bool = False, medium: str = "") -> None:
        """Sets the size of the window, light or dark, screen or print."""
        self.call(
            "Emulation.setDeviceMetricsOverride", width=width, height=height, deviceScaleFactor=1, mobile=width < 600
        )
        features = [{"name": "prefers-color-scheme", "value": "dark" if dark else "light"}]
        self.call("Emulation.setEmulatedMedia", media=medium, features=features)

    def picture(self, file: Path, whole: bool = True) -> None:
        """Keeps a picture of the page."""
        answer = self.call(
            "Page.captureScreenshot", captureBeyondViewport=whole, **({"clip": self.whole_page()} if whole else {})
        )
        file.write_bytes(base64.b64decode(answer["data"]))

    def whole_page(self) -> dict[str, Any]:
        """The whole page as a part to be pictured."""
        size = self.call("Page.getLayoutMetrics")["cssContentSize"]
        return {"x": 0, "y": 0, "width": size["width"], "height": min(size["height"], 12000), "scale": 1}


@contextlib.contextmanager
def browser() -> Iterator[Browser]:
    """Starts a browser, and ends it with all that it started."""
    words_in, to = os.pipe()
    answers, words_out = os.pipe()
    with tempfile.TemporaryDirectory(prefix="course-match-", ignore_cleanup_errors=True) as folder:
        # (the browser takes the protocol at its files 3 and 4, so the shell moves the pipes' ends there)
        shell = f'exec "$@" 3<&{words_in} 4>&{words_out}'
        words = ["sh", "-c", shell, "", str(chromium()), *FLAGS, f"--user-data-dir={folder}", "about:blank"]
        environment = {**os.environ, "HOME": folder}
        process = subprocess.Popen(
            words,
            stdin=subprocess.DEVNULL,
            stdout=subprocess.DEVNULL,
            stderr=subprocess.DEVNULL,
            pass_fds=(words_in, words_out),
            env=environment,
            start_new_session=True,
        )
        os.close(words_in)
        os.close(words_out)
        try:
            yield Browser(process, to, answers)
        finally:
            process.terminate()
            process.wait()
            os.close(to)
            os.close(answers)
