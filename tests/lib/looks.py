"""How the page for a browser looks: what can be read and distinguished, by day and in the dark, in a narrow window and
on paper."""
import collections

import paper

# The words with the least contrast, how many there are, and the contrast of shapes.
CONTRASTS = """(() => {
    const rgb = it => it.match(/[0-9.]+/g).map(Number);
    const part = it => it / 255 <= .03928 ? it / 255 / 12.92 : ((it / 255 + .055) / 1.055) ** 2.4;
    const light = it => .2126 * part(it[0]) + .7152 * part(it[1]) + .0722 * part(it[2]);
    const ratio = (...pair) => { const [a, b] = pair.map(light).sort((a, b) => b - a); return (a + .05) / (b + .05); };
    const background = it => {
        const colour = rgb(getComputedStyle(it).backgroundColor);
        if (colour.length === 3 || colour[3] > 0) return colour;
        return it.parentElement ? background(it.parentElement) : [255, 255, 255];
    };
    const words = [...document.querySelectorAll("body *")].filter(it => !it.closest("svg, script, noscript, canvas")
        && [...it.childNodes].some(node => node.nodeType === 3 && node.data.trim()));
    const found = words.map(it => [ratio(rgb(getComputedStyle(it).color), background(it)), it.tagName + " " + it.id]);
    for (const it of document.querySelectorAll("[placeholder]"))
        found.push([ratio(rgb(getComputedStyle(it, "::placeholder").color), background(it)), "placeholder " + it.id]);
    const hex = it => [1, 3, 5].map(at => parseInt(it.slice(at, at + 2), 16));
    const { private: own, shared, reached, refusal, ink } = COLOURS, white = "#ffffff";
    const pairs = [[own, white, 2.6], [own, shared, 2.6], [shared, reached, 2.6], [own, reached, 4.5],
        [shared, white, 4.5], [refusal, white, 4.5], [ink, white, 4.5]];
    return [found.sort((a, b) => a[0] - b[0])[0], found.length, pairs.map(it => [ratio(hex(it[0]), hex(it[1])), ...it])];
})()"""
SMALL = """[...document.querySelectorAll("body *")].filter(it => it.offsetParent
    && parseFloat(getComputedStyle(it).fontSize) < 12).length"""
# The grounds of the page, of its drawing and of the samples in its legend.
GROUNDS = """[getComputedStyle(document.body).backgroundColor,
    `rgb(${[...pen.getImageData(1, 1, 1, 1).data].slice(0, 3).join(", ")})`,
    ...new Set([...document.querySelectorAll(".legend svg")].map(it => getComputedStyle(it).backgroundColor))]"""
PRINTED = """[".buttons", "#keys", "#question", "figure", "#refusals", "#lives", "#shares", "#digests"].map(
    it => getComputedStyle(document.querySelector(it)).display !== "none")"""
# How much wider than its box anything is that has one, and what the page's own width is.
WIDER = """[Math.max(...[...document.querySelectorAll(".table")].map(it => it.scrollWidth - it.clientWidth)),
    document.documentElement.scrollWidth]"""
# Each life and digest: its words, where it is to the left and to the right, and how high its row is.
SEEN = """[...byId('lives').tBodies[0].rows].map(row => {
    const digests = [...row.querySelectorAll("code")].map(it => [it.textContent, it.getBoundingClientRect()]);
    return [row.getBoundingClientRect().height, digests.map(([text, box]) => [text, box.left, box.right])];
})"""
DARK = [{"name": "prefers-color-scheme", "value": "dark"}]
NARROW = 800
# Heading rows of tables, by what they begin with, and captions by what they have.
HEADS = ("registered measured", "frame guest frame", "line call")
CAPTIONS = (" of vm ", " in which vm ", " that name vm ", "reads and writes")
HEADINGS = ("Lives", "Sharing", "Refused calls", "Reads and writes of the host that were served", "Of what, and by what")


class Looks:
    """What is tried of how a page looks, in the Chromium of a trial."""

    def wait(self):
        self.ask("new Promise(done => requestAnimationFrame(() => setTimeout(done, 60)))")

    def print_to(self, sheet):
        """Prints the page on sheets of this size, in inches. Returns the path of the PDF."""
        path = self.folder / "page.pdf"
        path.write_bytes(self.chromium.print(sheet))
        return path

    def try_contrast(self, how=""):
        """Each text is 4.5 times as light or dark as what it is on, and neighbouring shapes can be distinguished."""
        least, count, shapes = self.ask(CONTRASTS)
        self.count(least[0] >= 4.5 and count > 40, f"the contrast of the words{how}", f"{least}, {count}")
        for ratio, one, other, wanted in shapes:
            self.count(ratio >= wanted, f"the contrast of {one} and {other}{how}", f"{ratio:.2f}, and not {wanted}")
        self.same(self.ask(SMALL), 0, f"nothing is written in small letters{how}")

    def try_dark(self):
        """For those who want it dark the page is dark, and its drawing and samples are on white, as on paper."""
        self.chromium.ask("Emulation.setEmulatedMedia", media="", features=DARK)
        self.wait()
        self.try_contrast(", in the dark")
        page, *drawn = self.ask(GROUNDS)
        self.count(max(map(int, page[4:-1].split(", "))) < 64, "the page is dark", page)
        self.same(drawn, ["rgb(255, 255, 255)"] * 2, "what the drawing and its samples are on, in the dark")
        if not paper.LACKING:
            light = paper.lightness(self.print_to(paper.SHEETS["A4"]))
            self.count(light > 0.75, "a page that is dark is printed light", f"{light:.2f}")
        self.chromium.ask("Emulation.setEmulatedMedia", media="", features=[])

    def try_narrow(self, name, digests):
        """In a narrow window no table is wider than its box, and all of each life and digest is seen."""
        sized = {"width": NARROW, "height": 1000, "deviceScaleFactor": 1, "mobile": False}
        self.chromium.ask("Emulation.setDeviceMetricsOverride", **sized)
        self.wait()
        self.same(self.ask(WIDER), [0, NARROW], f"{name}: how much is wider than {NARROW} points")
        rows = self.ask(SEEN)
        seen = [text for _, its in rows for text, left, right in its if 0 < left and right < NARROW]
        self.same(sorted(seen), sorted(digests), f"{name}: the digests that are seen")
        highest = max(height for height, _ in rows)
        self.count(highest < 100, f"{name}: lives take few lines", f"one takes {highest} points")
        self.chromium.ask("Emulation.clearDeviceMetricsOverride")

    def try_print(self):
        """It is printed without what is only for a screen, and with all else."""
        self.chromium.ask("Emulation.setEmulatedMedia", media="print")
        self.same(self.ask(PRINTED), [False] * 3 + [True] * 5, "what is printed")
        self.chromium.ask("Emulation.setEmulatedMedia", media="")
        for sheet in paper.SHEETS.values():
            printed = self.print_to(sheet).read_bytes()
            self.count(printed.startswith(b"%PDF") and len(printed) > 10000, "it is printed")

    def try_paper(self, name, digests, turns, more):
        """On paper are all digests, the lines of all lives, and how many rows of each table are not there. Nothing
        reaches beyond the edges, and each sheet that goes on with lives has their heading row."""
        for sheet, size in paper.SHEETS.items():
            path = self.print_to(size)
            pages, said = paper.pages_of(path), f"{name}, on {sheet}"
            found = collections.Counter(word for page in pages for line in page for word in line.split())
            wanted = collections.Counter(digests)
            self.same({it: found[it] for it in wanted}, dict(wanted), f"{said}: the digests")
            lacking = [it for it in turns if it not in found]
            self.count(turns and not lacking, f"{said}: the lines of lives", f"without {lacking[:9]}")
            text = " ".join(line for page in pages for line in page)
            self.count(all(f"{it:,} row" in text for it in more), f"{said}: what is not there", str(more))
            beyond = [word for width, words in paper.words_of(path) for word, _, right in words if right > width - 20]
            self.count(not beyond, f"{said}: its right edge", str(beyond[:9]))
            bare = [at for at, page in enumerate(pages, 1) if any(it in line for it in wanted for line in page)
                    and not any(line.startswith(HEADS[0]) for line in page)]
            self.count(not bare, f"{said}: each sheet has the heading row of lives", str(bare))

    def try_breaks(self, name):
        """No heading, caption or heading row is the last thing on a sheet, wherever the sheet ends."""
        for more in range(0, 320, 32):
            self.ask(f"document.querySelector('main').style.paddingTop = '{more}px'")
            ends = [page[-1] for page in paper.pages_of(self.print_to((8.27, 4))) if page]
            alone = [it for it in ends if it in HEADINGS or it.startswith(HEADS) or any(part in it for part in CAPTIONS)]
            self.count(not alone and len(ends) > 3, f"{name}, {more} points lower: what sheets end with", str(alone))
        self.ask("document.querySelector('main').style.paddingTop = ''")
