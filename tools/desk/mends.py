"""Commands of sed and awk that mend a file that is written in another way. The tutorial's table has those for logs.

A line is compared with a form, in which WIDTH is the number of bits of a right line. A mend that deletes lines is offered only if it leaves some
and deletes none that may hold a pattern's bits."""

import re
import shlex
from typing import NamedTuple


class Mend(NamedTuple):
    has: str  # what is wrong with a line or a file
    form: bytes  # matches such a line
    command: str  # in it LINE is the number of the line, and WIDTH the number of bits of a right line
    keeps: bytes = b""  # matches the beginning of a line that stays, if others are deleted


BIT = rb"[01xXzZHLhl?.-]"
ENCODED = (  # by the bytes at the beginning of a file
    Mend("is compressed by gzip", rb"\x1f\x8b", "zcat"),
    Mend("is compressed by xz", rb"\xfd7zXZ\x00", "xzcat"),
    Mend("is compressed by bzip2", rb"BZh[1-9]1AY", "bzcat"),
    Mend("is compressed by zstd", rb"\x28\xb5\x2f\xfd", "zstdcat"),
    Mend("is written in UTF-16", rb"\xff\xfe|\xfe\xff", "iconv -f UTF-16 -t UTF-8"),
    Mend("begins with a byte order mark", rb"\xef\xbb\xbf", r"sed '1s/^\xEF\xBB\xBF//'"),
)
FEEDS = Mend("ends with CR and LF", rb"[^\n]*\r\n?", r"sed 's/\r$//'")
OPEN = Mend("has no LF at its end", rb"[^\n]+", r"sed '$a\'")
EMPTY = Mend("is empty", rb"[ \t]*\n?", r"sed '/^[ \t]*$/d'", rb"[ \t]*\S")
QUOTED = Mend("has quotation marks", rb'.*".*', "sed 's/\"//g'")
LETTER = rb"[A-GI-KM-WYa-gi-km-wy]"  # none that may be a bit
OF_WORDS = rb"[GI-KM-WYgi-km-wy]"  # a letter that is neither a bit nor a hexadecimal digit
COMMENT = rb"[ \t]*[#;*%!/]"
REMARKED = rb"[#;*%!/]+[ \t]*[A-Za-z]"  # how a remark with a word begins
REMARK = Mend(
    "is a remark or a heading",
    rb"(?=.*OF_WORDS)([#;*%!/].*|[A-Za-z_]+([ \t,;:]+[A-Za-z_]+)*[:.]?\s*)|(?!(BIT[ _]*){WIDTH}\s*\Z)[^0-9A-Za-z\s][^0-9A-Za-z]*",
    "sed LINEd",
)
WORD_BEHIND = r"sed -E 's/[ \t,;:]+[A-Za-z]*[A-GI-KM-WYa-gi-km-wy][A-Za-z]*[ \t]*$//'"
REMARK_BEHIND = r"sed -E 's/([01xXzZHLhl?.-])[ \t]*(#|\/\/).*$/\1/'"
FROM_HEX = (  # each digit becomes a letter; its two high bits are put before the letter, and then its two low bits replace the letter
    "y/0123456789abcdefABCDEF/ghijklmnopqrstuvqrstuv/; s/[g-j]/00&/g; s/[k-n]/01&/g; s/[o-r]/10&/g; s/[s-v]/11&/g; "
    r"y/klmnopqrstuv/ghijghijghij/; s/g/00/g; s/h/01/g; s/i/10/g; s/j/11/g; s/^0*([01]{WIDTH})$/\1/"
)
HEX_BEHIND = f"sed -E '/^[0-9]+ 0[xX][0-9A-Fa-f]+$/{{h; s/ .*//; x; s/.* 0[xX]//; {FROM_HEX}; H; x; s/\\n/ /}}'"
HEX_ALONE = f"sed -E '/^0[xX][0-9A-Fa-f]+$/{{s/^..//; {FROM_HEX}}}'"
IN_HEX = Mend("has its bits in hexadecimal, the first positions in the first digit", rb"[0-9]+ 0[xX]HEX\n?", HEX_BEHIND)

NUMBERED = (  # by a line of a log; the first that fits is taken
    FEEDS,
    EMPTY,
    Mend("begins with blanks", rb"[ \t]+[^\s].*", r"sed -E 's/^[ \t]+//; s/[ \t]+$//'"),
    Mend("ends with blanks", rb"BIT{WIDTH}[ \t]+\n?", r"sed -E 's/^[ \t]+//; s/[ \t]+$//'"),
    QUOTED,
    Mend("has no number, and blanks or _ among its bits", rb"(?=.*[ _]+BIT)(BIT[ _]*){WIDTH}\n?", "sed 's/[ _]//g'"),
    Mend("has no number before its bits", rb"[01xX]{WIDTH}\n?", "awk '{ print NR - 1, $0 }'"),
    Mend("has H and L for 1 and 0", rb"([0-9]+[ \t,;:]+)?(?=.*[HLhl])(BIT[ _]*){WIDTH}\n?", "sed 'y/HLhl/1010/'"),
    Mend("has a word before its number", rb"[A-Za-z_]+[ :=]*[0-9]+[ \t,;:]+(BIT[ _]*){WIDTH}.*", "sed -E 's/^[A-Za-z_]+[ :=]*//'"),
    Mend("has something before its number", rb"[^0-9]+[0-9]+[^0-9A-Za-z]+(BIT[ _]*){WIDTH}.*", "sed -E 's/^[^0-9]+([0-9])/\\1/'"),
    Mend("doesn't begin with a number: it may be a heading or a remark", rb"[^0-9].*", "sed '/^[0-9]/!d'", rb"[0-9]"),
    REMARK,
    Mend("has leading zeros in its number", rb"0+[0-9]+[^0-9A-Za-z]+(BIT[ _]*){WIDTH}(?!BIT).*", r"sed -E 's/^0+([0-9])/\1/'"),
    Mend("has a tab, a comma or several blanks after its number", rb"[0-9]+([\t,;:]| [ \t,;:])[ \t,;:]*\S.*", r"sed -E 's/^([0-9]+)[ \t,;:]+/\1 /'"),
    Mend("has a mark after its number", rb"[0-9]+[])}=|>]\s*(BIT[ _]*){WIDTH}.*", r"sed -E 's/^([0-9]+)[])}=|>][ \t,;:]*/\1 /'"),
    Mend("has no bits", rb"[0-9]+ +\n?", r"sed -E '/^[0-9]+ *$/d'"),
    Mend("has no bits", rb"[0-9]+\n?", r"sed -E '/^[0-9]+ *$/d'", rb"[0-9]+[^0-9\n]+[^\s]"),
    Mend("has a word after its bits", rb"[0-9]+ (BIT[ _]*){WIDTH}[ \t,;:]+[A-Za-z]*LETTER[A-Za-z]*[ \t]*\n?", WORD_BEHIND),
    Mend("has a remark after its bits", rb"[0-9]+ (BIT[ _]*){WIDTH}[ \t]*(#|//).*", REMARK_BEHIND),
    Mend("ends with blanks", rb".*[ \t]\n?", r"sed -E 's/^[ \t]+//; s/[ \t]+$//'"),
    Mend("has 0b before its bits", rb"[0-9]+ 0b(BIT[ _]*){WIDTH}\n?", "sed 's/ 0b/ /'"),
    IN_HEX,
    Mend("has X, Z, -, ? or . for what wasn't seen", rb"([0-9]+ )?(?=[^\n]*[XzZ?.-])([01xXzZ?.-][ _]*){WIDTH}\n?", "sed -E 's/[XzZ?.-]/x/g'"),
    Mend("has blanks or _ among its bits", rb"[0-9]+ [01x]+[ _][01x _]*\n?", r"sed -E ':a; s/^([0-9]+ [01x]+)[ _]+/\1/; ta'"),
    OPEN,
)
VECTORS = (  # by a line of a list of vectors; likewise
    FEEDS,
    EMPTY,
    Mend("begins or ends with blanks", rb"[ \t]+\S.*|[01xX]+[ \t]+\n?", r"sed -E 's/^[ \t]+//; s/[ \t]+$//'"),
    QUOTED,
    Mend("has H and L for 1 and 0", rb"([0-9]+[ \t,;:]+)?(?=.*[HLhl])(BIT[ _]*){WIDTH}\n?", "sed 'y/HLhl/1010/'"),
    Mend("is in hexadecimal, the first sources in the first digit", rb"0[xX]HEX\n?", HEX_ALONE),
    Mend(
        "has a bit that isn't given, and each bit of a vector has to be: fill it with 0 or 1",
        rb"(?=[^\n]*[xXzZ?.-])((?=[^\n]*[01])[01xXzZ?.-]{WIDTH}|[xX]{WIDTH}|(?!0[xX])[01xX]+)\n?",
        "sed 's/[xXzZ?.-]/0/g'",
    ),
    Mend("has blanks, commas or _ among its bits or after them", rb"(?=.*[ ,;_])([01xX][ ,;_]*){WIDTH}\n?", "sed 's/[ ,;_]//g'"),
    Mend("has a word or a number before its bits", rb"(?!REMARKED)(\S+ +)+[01xX]{WIDTH}\n?", r"sed -E 's/^.* ([01xX]+)$/\1/'"),
    Mend("has a word or a number before its bits", rb"(?!REMARKED)[^\n]*[\t,;:=][01xX]{WIDTH}\n?", r"sed -E 's/^.*[\t,;:=]([01xX]+)$/\1/'"),
    Mend("has a word or a number before its bits", rb"(?!REMARKED)[^ ]+ +([01xX][ _]*){WIDTH}\n?", "sed -E 's/^[^ ]+ +//'"),
    Mend("has a word after its bits", rb"[01xX]{WIDTH}[ \t,;:]+[A-Za-z]*LETTER[A-Za-z]*[ \t]*\n?", WORD_BEHIND),
    Mend("has a remark after its bits", rb"[01xX]{WIDTH}[ \t]*(#|//).*", REMARK_BEHIND),
    Mend("has 0b before its bits", rb"0b[01xX]{WIDTH}\n?", "sed 's/^0b//'"),
    Mend("doesn't begin with a bit: it may be a heading or a remark", rb"[^01].*", "sed '/^[01]/!d'", rb"[01]"),
    REMARK,
    Mend("has no LF at its end", rb"[01]+", r"sed '$a\'"),
)
AGAIN = Mend("has patterns in another order, or some twice", rb"", "sort -n -s -u -k 1,1")
FROM_ONE = Mend("counts patterns from 1", rb"", "awk '{ print $1 - 1, $2 }'")


def sentence(mend: Mend, subject: str, name: str, line: int = 0, width: int = 0) -> str:
    """What is wrong with a line or a file, and the command that mends it."""
    command = mend.command.replace("LINE", str(line)).replace("WIDTH", str(width))
    return f" {subject} {mend.has}. This mends it:\n  {command} {shlex.quote(name)} > NEW"


def of_file(head: bytes, name: str) -> str:
    """How a file that begins with `head` is encoded, and what mends it; empty if it needs no mend."""
    return next((sentence(it, "The file", name) for it in ENCODED if re.match(it.form, head)), "")


def hexadecimal(width: int) -> bytes:
    """The form of `width` bits in hexadecimal, in as few digits as they need."""
    first = {0: b"", 1: b"[01]", 2: b"[0-3]", 3: b"[0-7]"}[width % 4]
    return first + b"[0-9A-Fa-f]{%d}" % (width // 4)


def form(text: bytes, width: int) -> re.Pattern:
    """The regular expression of a form, for lines of `width` bits."""
    parts = {b"BIT": BIT, b"LETTER": LETTER, b"OF_WORDS": OF_WORDS, b"REMARKED": REMARKED, b"WIDTH": b"%d" % width, b"HEX": hexadecimal(width)}
    for name, part in parts.items():
        text = text.replace(name, part)
    return re.compile(text, re.DOTALL)


def holds_bits(line: bytes, width: int, numbered: bool) -> bool:
    """Whether a line to be deleted may hold a pattern's bits: it has `width` of them. In a log, which is `numbered`, it also has a number before
    them, or no word that says what they are. After a comment mark the number has to be next to them."""
    if not re.search(rb"[0-9A-Za-z]", line):
        return bool(form(rb"\s*(BIT[ _]*){WIDTH}\s*", width).fullmatch(line))
    number = rb"[0-9][^0-9A-Za-z]+\Z" if re.match(COMMENT, line) else rb"[0-9]"
    found = form(rb"(?<![0-9A-Za-z])(BIT[ _]*){WIDTH}(?![0-9A-Za-z])", width).finditer(line)
    bare = not numbered or not re.search(OF_WORDS, line)
    return any(bare or re.search(number, line[: it.start()]) for it in found)


def keeps_bits(mend: Mend, name: str, width: int, numbered: bool) -> bool:
    """Whether a mend that deletes lines leaves some, and deletes none that may hold a pattern's bits."""
    stays, left = re.compile(mend.keeps), False
    with open(name, "rb") as file:
        for line in file:
            if stays.match(line):
                left = True
            elif len(line) > width and holds_bits(line, width, numbered):
                return False
    return left


def of_line(line: bytes, mends: tuple[Mend, ...], name: str, width: int = 0, number: int = 0) -> str:
    """What is wrong with a line, and what mends it; empty if no mend fits. The line has its LF, if there is one; a right line has `width` bits."""
    for it in mends:
        if form(it.form, width).fullmatch(line) and (not it.keeps or keeps_bits(it, name, width, mends is NUMBERED)):
            return sentence(it, "The line", name, number, width)
    return ""
