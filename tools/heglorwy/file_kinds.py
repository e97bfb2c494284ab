"""What kind of file was given where a text is wanted, by its first bytes."""

ARCHIVE = b"PK\x03\x04"
# The first bytes of each kind, and of an archive also what stands in it.
KINDS = [
    (ARCHIVE, b"xl/workbook", "a workbook of a spreadsheet (.xlsx)"),
    (ARCHIVE, b"opendocument.spreadsheet", "a workbook of a spreadsheet (.ods)"),
    (ARCHIVE, b"word/document", "a document (.docx)"), (ARCHIVE, b"opendocument.text", "a document (.odt)"),
    (ARCHIVE, b"", "an archive"),
    (b"\xd0\xcf\x11\xe0", b"", "an old workbook of a spreadsheet (.xls), or an old document"),
    (b"%PDF", b"", "a PDF"), (b"{\\rtf", b"", "a document in RTF"), (b"\x89PNG", b"", "a picture"),
    (b"\xff\xd8\xff", b"", "a picture"), (b"\x1f\x8b", b"", "a packed file"),
]  # fmt: skip
NO_TEXT = "this is {}, and no text: write {} in an editor of plain text, one line below the other"


def is_wide(text):
    """Whether a text is UTF-16."""
    return text[:2] in (b"\xff\xfe", b"\xfe\xff") or len(text) > 3 and text.count(0) > len(text) // 3


def no_text(text, wanted):
    """What is said of a file that is no text at all, or None."""
    kinds = (kind for head, inside, kind in KINDS if text.startswith(head) and inside in text)
    return next((NO_TEXT.format(kind, wanted) for kind in kinds), None)
