#!/usr/bin/env python3
"""Shows what a browser makes of a page that spark_story wrote with --page.

    tools/shoot_page.py PAGE [PICTURE] [--size WIDTH,HEIGHT]

Opens the page in headless Chromium, which the system must have, and writes a picture of it as PNG:
PICTURE, or PAGE with the ending .png. Beside it goes what is printed of the page, as PDF. Prints
both names, and what of the page would ask for anything but itself, which should be nothing. Ends
with 1 where there is such a thing or Chromium fails, and with 0 where there is no Chromium. It is
outside the gate: what is in a page is tested by tools/check_story.py, and how it looks is for the
eye.
"""
import argparse
import pathlib
import re
import shutil
import subprocess
import sys
import tempfile

NAMES = ("chromium", "chromium-browser", "google-chrome")
LIMIT = 120
ASKS = re.compile(r"<(?:script|link|img|iframe|object|embed)\b|\b(?:src|href)=|url\(|@import")


def shoot(browser: str, page: pathlib.Path, wanted: list[str]) -> bool:
    """Whether headless Chromium did what was wanted of a page."""
    with tempfile.TemporaryDirectory() as profile:
        words = [browser, "--headless", "--no-sandbox", "--disable-gpu", "--hide-scrollbars"]
        words += ["--disable-background-networking", f"--user-data-dir={profile}"]
        run = subprocess.run(
            [*words, *wanted, page.as_uri()], capture_output=True, text=True, timeout=LIMIT
        )
    if run.returncode:
        print(run.stderr, file=sys.stderr)
    return run.returncode == 0


def main() -> int:
    parser = argparse.ArgumentParser(description="Makes a picture of a page.")
    parser.add_argument("page", type=pathlib.Path)
    parser.add_argument("picture", type=pathlib.Path, nargs="?")
    parser.add_argument("--size", default="1400,1600", help="of the window, in pixels")
    arguments = parser.parse_args()
    browser = next((it for it in map(shutil.which, NAMES) if it), None)
    if browser is None:
        print("shoot_page: skipped, since there is no Chromium")
        return 0
    page = arguments.page.resolve()
    picture = (arguments.picture or page.with_suffix(".png")).resolve()
    printed = picture.with_suffix(".pdf")
    shots = (
        [f"--screenshot={picture}", f"--window-size={arguments.size}"],
        [f"--print-to-pdf={printed}", "--no-pdf-header-footer"],
    )
    if not all(shoot(browser, page, wanted) for wanted in shots):
        return 1
    others = sorted(set(ASKS.findall(page.read_text(errors="replace"))))
    print(picture, printed, *(f"it has {it}" for it in others), sep="\n")
    return 1 if others else 0


if __name__ == "__main__":
    sys.exit(main())
