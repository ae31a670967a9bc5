"""page/picture [--page FILE] [--out FILE]: a picture of the page, for the README, made from the page itself.

page/scullpouch.html (page/build makes it) is opened in chromium without a window, with its example;
the picture shows the verdict, the differences and a product.
"""

import argparse
import sys
import time
from pathlib import Path


import tests
from tests.gate import browser

ROOT = Path(tests.ROOT)

WIDTH, PATIENCE, BYTES_AT_MOST = 920, 60, 200_000
FROM_TO = '''(() => { const top = document.getElementById('verdict').getBoundingClientRect(), end = document.getElementById('legend').getBoundingClientRect();
  return { x: 0, y: top.top + scrollY - 12, width: innerWidth, height: end.bottom - top.top + 24 }; })()'''


def wait(one, condition):
    end = time.monotonic() + PATIENCE
    while not one.evaluate(condition):
        if time.monotonic() > end:
            sys.exit(f'page/picture: the page is not ready: {condition}')
        time.sleep(0.1)


def main():
    parser = argparse.ArgumentParser(description=__doc__, formatter_class=argparse.RawDescriptionHelpFormatter)
    parser.add_argument('--page', type=Path, default=ROOT / 'page' / 'scullpouch.html')
    parser.add_argument('--out', type=Path, default=ROOT / 'page' / 'scullpouch.png')
    asked = parser.parse_args()
    if not browser.installed():
        sys.exit('page/picture: chromium is not installed')
    with browser.Browser() as one:
        one.width(WIDTH)
        one.open(asked.page)
        wait(one, "document.documentElement.dataset.ready === 'yes'")
        one.evaluate("document.getElementById('example').click()")
        wait(one, "document.querySelector('#notices-done table') !== null && document.getElementById('working').hidden")
        one.evaluate("document.activeElement.blur()")
        picture = one.picture(whole=True, clip=one.evaluate(FROM_TO))
    if len(picture) > BYTES_AT_MOST:
        sys.exit(f'page/picture: {len(picture):,} bytes are more than {BYTES_AT_MOST:,}')
    asked.out.write_bytes(picture)
    print(f'page/picture: made {asked.out}, {len(picture):,} bytes')


if __name__ == '__main__':
    main()
