"""Readings of docs/RULES.md that share no code with the product: what each call has to answer, as numbers.

One module for each subject, and each rule stands in one of them:
    reader      1 to 3, 14   the text or the cards, statements, levels, and the refusals 1, 2, 10 to 14, 50, 51
    picture     4            kind, width and mask of a picture, 22 to 27
    layout      5 to 8       offsets, folding, the record and the bytes of the listing, 20, 21, 28 to 30, 52
    details     9
    owner       10           every byte of a record as laid, and the owner of one by counting, 40, 41
    reasons     11           53
    key         12           56, 57
    extract     15           58 to 60
    wording     16
Beside them, `lines` has what the command prints of an answer (docs/FORMATS.md), and `original` says where the original
Rust has an answer, and which.

An answer begins with 1, and a refusal is `0 NUMBER POSITION NEEDED`.
"""


class Refused(Exception):
    """A refusal: its number and its position."""

    def numbers(self):
        return [0, *self.args, 0]
