"""Runs the examples of docs/python.md and python/README.md, and compares what they print with what the pages say."""

import contextlib
import io
import os
import re
import unittest

from .support import ROOT, require_program

BLOCK = re.compile(r"^```(\w+)\n(.*?)^```$", re.MULTILINE | re.DOTALL)


def setUpModule():
    require_program()


def text_of(*parts):
    """Returns the text of a file of the repository."""
    with open(os.path.join(ROOT, *parts), encoding="utf-8") as file:
        return file.read()


class Pages(unittest.TestCase):
    def setUp(self):
        self.addCleanup(os.chdir, os.getcwd())
        os.chdir(ROOT)

    def printed(self, code, names):
        """Returns what `code` prints."""
        out = io.StringIO()
        with contextlib.redirect_stdout(out):
            exec(compile(code, "page", "exec"), names)
        return out.getvalue()

    def test_python_page(self):
        blocks = BLOCK.findall(text_of("docs", "python.md"))
        self.assertEqual([kind for kind, _ in blocks], ["python", "text"] * (len(blocks) // 2))
        self.assertGreater(len(blocks), 10)
        names = {}
        for (_, code), (_, text) in zip(blocks[::2], blocks[1::2]):
            with self.subTest(code=code):
                self.assertEqual(self.printed(code, names), text)

    def test_readme(self):
        page = text_of("python", "README.md")
        ((_, code),) = BLOCK.findall(page)
        says = re.search(r"It prints `(.*?)`", page).group(1)
        self.assertEqual(self.printed(code, {}), says + "\n")

    def test_names(self):
        """Each public name is on the page, but for the results and the types of parameters."""
        import cgra
        from cgra import _results

        page = text_of("docs", "python.md")
        results = {name for name in vars(_results) if isinstance(getattr(_results, name), type)}
        left_out = results | {name for name in cgra.__all__ if name.endswith("Like")} | {"Earlier"}
        missing = [name for name in cgra.__all__ if name not in left_out and f"`{name}`" not in page]
        self.assertEqual(missing, [])


if __name__ == "__main__":
    unittest.main()
