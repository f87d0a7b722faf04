"""Writes the pictures of docs/PAGE.md anew, with chromium: python3 web/tests/pictures.py"""
import pathlib
import sys
import tempfile

HERE = pathlib.Path(__file__).resolve().parent
ROOT = HERE.parents[1]
sys.path.insert(0, str(HERE))
sys.dont_write_bytecode = True
from driver import Browser  # noqa: E402


def main():
    with tempfile.TemporaryDirectory() as folder:
        browser = Browser(folder, 1180, 1000)
        try:
            browser.open((ROOT / "web/dihkelu.html").as_uri())
            browser.until("return document.body.dataset.ready")
            browser.run("document.querySelector('[data-action=example]').click()")
            browser.run("document.querySelectorAll('details[data-coat]').forEach((x, i) => { x.open = i === 1; })")
            browser.until("return document.querySelector('#picture svg')")
            browser.run("document.querySelector('#materials-part').open = false")
            browser.picture(ROOT / "docs/page/train.png")
            browser.fill("[data-path='rows.0.angle']", "65°")
            browser.run("document.activeElement.blur(); document.querySelector('#train-title').scrollIntoView()")
            browser.picture(ROOT / "docs/page/refused.png", False)
        finally:
            browser.close()


main()
