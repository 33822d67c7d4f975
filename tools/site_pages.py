"""The pages of the site, by its rooms."""

COOKBOOK = "captures volume time loss latency averages order counters flowlets queues paths running tools"
# The rooms of the site, and their pages.
ROOMS = {
    "Start": ["README.md", "docs/START.md", "docs/FAQ.md"],
    "Recipes": ["docs/cookbook/README.md", *(f"docs/cookbook/{it}.md" for it in COOKBOOK.split()), "docs/COMPARE.md"],
    "Reference": ["docs/LANGUAGE.md", "docs/ERRORS.md", "docs/FORMATS.md", "docs/PYTHON.md", "CHANGES.md"],
    "Performance": ["docs/PERFORMANCE.md", "docs/SCALING.md", "bench/README.md"],
    "Proof and tests": ["docs/THEOREM.md", "docs/PROOF.md", "docs/TESTING.md", "tests/README.md"],
    "Contributing": ["docs/ARCHITECTURE.md", "docs/CHANGING.md", "docs/DECISIONS.md"],
}
# The room that has the manual pages of the commands too.
COMMANDS = "Reference"
COPIED = [page for pages in ROOMS.values() for page in pages]
