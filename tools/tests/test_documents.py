"""The documents name the commands that there are, their links lead somewhere, and edits fit the code."""

import glob
import os
import re
import unittest

TOP = os.path.dirname(os.path.dirname(os.path.dirname(os.path.abspath(__file__))))


def found(pattern):
    return sorted(os.path.relpath(it, TOP) for it in glob.glob(f"{TOP}/{pattern}"))


CRATES = found("crates/*/README.md")
PAGES = ["README.md", "bindings/README.md", "examples/README.md", "bench/README.md", *found("docs/*.md"), *CRATES]


def text_of(name):
    with open(f"{TOP}/{name}", encoding="utf-8") as file:
        return file.read()


def commands_of(readme):
    """The commands in the table of README's section on them."""
    return re.findall(r"(?m)^\| `([a-z]+)` \|", readme.split("## Commands")[1].split("\n## ")[0])


def anchors(name):
    heads = re.findall(r"(?m)^#+ (.*)$", text_of(name))
    return {re.sub(r"[^a-z0-9 _-]", "", it.lower()).replace(" ", "-") for it in heads}


class Documents(unittest.TestCase):
    def test_help_readme_and_formats_have_the_same_commands(self):
        options = dict(re.findall(r"(?m)^dsaplan ([a-z]+) (--.*)$", text_of("tools/help.txt")))
        formats = dict(re.findall(r"(?m)^    ([a-z]+) (--.*)$", text_of("docs/FORMATS.md").split("## The launcher")[0]))
        self.assertEqual(formats, options)
        self.assertEqual(sorted(commands_of(text_of("README.md"))), sorted(options))

    def test_a_word_of_another_table_is_no_command(self):
        table = "| Word | What\n|---|---\n| `{}` | a word\n\n"
        readme = f"# A\n\n{table}## Commands\n\n{table}## More\n\n{table}".format("before", "least", "after")
        self.assertEqual(commands_of(readme), ["least"])

    def test_readme_names_the_toolchain_as_the_launcher_reads_it(self):
        found = re.findall(r"`rt version` must end in `([^`]+)`", text_of("README.md").replace("\n", " "))
        self.assertEqual(len(found), 1)
        self.assertRegex(found[0], r"^logic [0-9a-f]+$")

    def test_links_lead_somewhere(self):
        for page in PAGES:
            for target in re.findall(r"(?<!!)\[[^\]]*\]\(([^)]+)\)", text_of(page)):
                name, _, anchor = target.partition("#")
                with self.subTest(page=page, target=target):
                    path = os.path.normpath(os.path.join(os.path.dirname(page), name)) if name else page
                    self.assertTrue(os.path.exists(f"{TOP}/{path}"))
                    self.assertTrue(not anchor or anchor in anchors(path))

    def test_the_readme_of_a_crate_is_a_few_sentences_and_one_table(self):
        for page in CRATES:
            with self.subTest(page=page):
                form = r"# (.*)\n\n((?:(?![|#]).*\n)+)(?:\|.*\n)*"
                read = re.fullmatch(form, text_of(page))
                self.assertIsNotNone(read, "a heading, what it is for, a table of its calls, and nothing else")
                self.assertEqual(read[1], os.path.basename(os.path.dirname(page)))
                self.assertLessEqual(len(re.findall(r"[.?!]\s", read[2])), 5, "sentences")

    def test_each_edit_fits_its_crate_and_has_a_row(self):
        for name in found("crates/*/must-fail/*.edit") + found("bench/edits/*/*.edit"):
            folder, edit = os.path.split(name)
            crate = os.path.basename(folder.removesuffix("/must-fail"))
            file, text = "", text_of(name)
            for key, value in re.findall(r"(?m)^(file|old|new): ?(.*)$", text):
                file = value if key == "file" else file
                with self.subTest(edit=name, key=key, value=value):
                    self.assertTrue(key != "old" or text_of(f"crates/{crate}/{file}").count(value) == 1)
            with self.subTest(edit=name):
                self.assertRegex(text, r"(?m)^file: .*\nold: .+\nnew:")
                self.assertEqual(text_of(f"{folder}/README.md").count(f"| `{edit.removesuffix('.edit')}` |"), 1)

    def test_the_log_that_is_explained_is_the_one_of_the_row(self):
        log = text_of("rows/a_log_that_is_explained/before/l").splitlines()
        shown = text_of("docs/FORMATS.md").split("## A log explained")[1].split("\n## ")[0]
        self.assertEqual([it[4:] for it in re.findall(r"(?m)^    (?:dsalog|over|case|end) .*$", shown)], log)


if __name__ == "__main__":
    unittest.main()
