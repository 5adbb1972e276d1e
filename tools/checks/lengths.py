"""No document has more than 350 lines; that of a manual, as it is shown, is compared by pages/checks/manual.py."""

from . import cited

MOST = 350


def faults():
    for document in cited.documents():
        count = len(document.read_text().splitlines())
        if count > MOST:
            yield document, f"it has {count} lines, and a document may have {MOST}"
