#!/usr/bin/env python3
"""Every link between the repository's pages leads somewhere, and README leads to every page."""
import glob
import os
import re
import unittest

ROOT = os.path.realpath(os.path.join(os.path.dirname(os.path.abspath(__file__)), ".."))


def pages():
    found = []
    for folder, below, files in os.walk(ROOT):
        below[:] = [name for name in below if name not in (".git", "target")]
        found += [os.path.join(folder, name) for name in files if name.endswith(".md")]
    return found


def text_of(page):
    """A page without its code."""
    with open(page) as lines:
        text = lines.read()
    return re.sub(r"`[^`\n]*`", "", re.sub(r"^```.*?^```", "", text, flags=re.S | re.M))


def links(page):
    """The links to places in the repository, as the folder or file and the heading."""
    for link in re.findall(r"\]\(([^)\s]+)\)", text_of(page)):
        if not re.match("[a-z]+:", link):
            path, _, heading = link.partition("#")
            yield link, os.path.normpath(os.path.join(os.path.dirname(page), path)) if path else page, heading


def headings(page):
    """The names under which a page's headings are linked."""
    with open(page) as lines:
        for line in lines:
            heading = re.match("#+ (.*)", line)
            if heading:
                yield re.sub(r"[^\w\- ]", "", heading.group(1).lower()).replace(" ", "-")


class Links(unittest.TestCase):
    def test_links_lead_somewhere(self):
        count = 0
        for page in pages():
            for link, path, heading in links(page):
                count += 1
                where = "%s: %s" % (os.path.relpath(page, ROOT), link)
                self.assertTrue(os.path.exists(path), where)
                self.assertTrue(path == ROOT or path.startswith(ROOT + os.sep), where)
                self.assertTrue(not os.path.isdir(path) or os.path.exists(os.path.join(path, "README.md")), where + " has no README.md")
                self.assertTrue(not heading or heading in headings(path), where)
        self.assertGreater(count, 20)

    def test_readme_leads_to_every_page(self):
        readme = os.path.join(ROOT, "README.md")
        reached, todo = set(), [readme]
        while todo:
            page = todo.pop()
            page = os.path.join(page, "README.md") if os.path.isdir(page) else page
            if page.endswith(".md") and page not in reached:
                reached.add(page)
                todo += [path for _, path, _ in links(page)]
        self.assertEqual(sorted(set(pages()) - reached), [])
        direct = {path for _, path, _ in links(readme)}
        self.assertEqual(sorted(set(glob.glob(os.path.join(ROOT, "docs", "*.md"))) - direct), [])


if __name__ == "__main__":
    unittest.main()
