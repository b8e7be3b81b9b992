"""What is on paper: the words of each page of a PDF and where they are, and how light a page is, by poppler-utils."""
import html
import re
import shutil
import subprocess

COMMANDS = ("pdftotext", "pdftoppm")
LACKING = [it for it in COMMANDS if shutil.which(it) is None]
# The width and the height of sheets, in inches.
SHEETS = {"A4": (8.27, 11.69), "Letter": (8.5, 11)}
PAGE, WORD = r'<page width="([0-9.]+)"', r'<word xMin="([0-9.]+)" yMin="[0-9.]+" xMax="([0-9.]+)".*?>(.*?)</word>'


def said(*words):
    return subprocess.run(words, stdout=subprocess.PIPE, check=True).stdout


def pages_of(path):
    """The lines of words on each page, without empty ones, with one space between two words."""
    text = said("pdftotext", "-layout", path, "-").decode()
    return [[" ".join(line.split()) for line in page.splitlines() if line.strip()] for page in text.split("\f")[:-1]]


def words_of(path):
    """For each page its width and its words, each with its left and its right edge, in points."""
    text = said("pdftotext", "-bbox", path, "-").decode()
    for page in text.split("<page ")[1:]:
        width, = re.findall(PAGE, "<page " + page)
        yield float(width), [(html.unescape(word), float(left), float(right)) for left, right, word in re.findall(WORD, page)]


def lightness(path):
    """How light the first page is on the whole: 0 if it is black, 1 if it is white."""
    grey = said("pdftoppm", "-gray", "-r", "20", "-f", "1", "-l", "1", path)
    size = int(grey.split()[1]) * int(grey.split()[2])
    return sum(grey[-size:]) / size / 255
