"""What the tests of the page share: the files, the native program without threads, and the page's own program."""

import base64
import json
import os
import subprocess
from pathlib import Path

from browser import Browser

# The most milliseconds of processor time for which one task may hold the page up.
LONGEST_TASK = 200
# A fixed piece of work, of the kinds that the page does: words are made and sorted, elements are made and laid out.
WORK = """(() => {
  const room = document.createElement('div');
  document.body.append(room);
  let height = 0;
  for (let round = 0; round < 12; round++) {
    const words = Array.from({ length: 4000 }, (_, at) => `S${at * 7919 % 4001}`).sort();
    room.replaceChildren(...words.slice(0, 400).map(it => {
      const made = document.createElement('p');
      made.append(it, ' ', String(round));
      return made;
    }));
    height += room.getBoundingClientRect().height;
  }
  room.remove();
  return height;
})()"""
# The milliseconds of processor time of that work on the machine on which the marks by time were set.
WORK_TAKES = 100

# Whether all of what is looked at stands there: nothing is still to be drawn, and the program has answered.
DRAWN = "!document.querySelector('.below')?.fill && !isWorking()"

HERE = Path(__file__).resolve().parent
TOP = HERE.parents[1]
TERM, MARKET = TOP / "examples/term", TOP / "examples/market"
PAGE = TOP / "page/out/course-match.html"
PICTURES = TOP / "page/out/pictures"
NAMED = os.environ.get("PROGRAM") or os.environ.get("COURSE_MATCH_PROGRAM")
PROGRAM = Path(NAMED or TOP / "crates/market_program/out/market_program")
VECTORS = Path(os.environ.get("VECTORS", TOP.parent / "shared/vectors"))


def refuser(room: Path) -> Path:
    """A shared object that refuses each thread."""
    made = room / "refuse.so"
    subprocess.run(["gcc", "-shared", "-fPIC", "-o", made, HERE / "refuse.c"], check=True)
    return made


def native(words: list[str], files: dict[str, bytes], room: Path, refuse: Path) -> tuple[int, bytes]:
    """The native program's status and output, with every thread refused; the files lie in a folder of their own."""
    folder = room / "files"
    folder.mkdir(exist_ok=True)
    for it in folder.iterdir():
        it.unlink()
    for name, content in files.items():
        (folder / name).write_bytes(content)
    ran = subprocess.run(
        [PROGRAM.resolve(), *words],
        cwd=folder,
        stdin=subprocess.DEVNULL,
        stdout=subprocess.PIPE,
        env={"LD_PRELOAD": str(refuse)},
        timeout=300,
        check=False,
    )
    return ran.returncode, ran.stdout


# The page's own program, called from outside: files come in base64, answers go so.
ASK = """(async ([words, files, limit]) => {
  const bytes = files.map(([name, text]) => [name, Uint8Array.from(atob(text), it => it.charCodeAt(0))]);
  program.limit = limit;
  const { status, out, ms } = await program.ask({ words, files: bytes }).finally(() => { program.limit = 0; });
  let text = '';
  for (let at = 0; at < out.length; at += 32768) text += String.fromCharCode(...out.subarray(at, at + 32768));
  return [status, btoa(text), ms];
})"""


def in_page(tab: Browser, words: list[str], files: dict[str, bytes], limit: int = 0) -> tuple[int | str, bytes]:
    """The status and output of the page's module."""
    given = [words, [[name, base64.b64encode(content).decode()] for name, content in files.items()], limit]
    status, out, _ = tab.evaluate(f"{ASK}({json.dumps(given)})")
    return status, base64.b64decode(out)


def slowness(tab: Browser) -> float:
    """How many times as long this machine takes for the fixed work in the tab as the one on which the marks by time were
    set: the middle of five times. It is at least 1: no mark is less than what is written."""
    with tab.tasks() as tasks:
        for _ in range(5):
            tab.evaluate(WORK)
    return max(1, tasks[-3] / WORK_TAKES)


def open_page(tab: Browser) -> None:
    """Opens the page, without what was looked at or made in it before, and waits till it can be used."""
    tab.evaluate("typeof registrar === 'undefined' || (registrar.made = null, registrar.isRunning = false)")
    tab.go("about:blank")
    tab.go(PAGE.as_uri())
    tab.wait("document.body.dataset.ready")
