"""The colours of the pictures by name, each for a light and for a dark reader.

`tools/picture-check` measures the contrast of the pairs in `CONTRASTS`, after the Web Content
Accessibility Guidelines 2.1 (2018): 4.5 for text, 3 for lines and areas that carry meaning.
"""

COLOURS = {
    "page": ("#ffffff", "#0d1117"),
    "ink": ("#1b1f24", "#f0f3f6"),
    "muted": ("#57606a", "#a4afba"),
    "line": ("#8c959f", "#768390"),
    "land": ("#faf8f3", "#1c2128"),
    "water": ("#3f8fc4", "#3a7fb5"),
    "swamp": ("#6d8b34", "#7f9f45"),
    "blocked": ("#2b2f36", "#b1bac4"),
    "plan": ("#0b3fa8", "#7ab8ff"),
    "casing": ("#ffffff", "#05080c"),
    "cut": ("#8a1fb8", "#d78bff"),
    "mark": ("#b3261e", "#ff8f85"),
    "closed0": ("#fbd05b", "#6c280f"),
    "closed1": ("#f6b32f", "#7a3411"),
    "closed2": ("#f19612", "#874213"),
    "closed3": ("#e37f11", "#924f15"),
    "closed4": ("#d36a14", "#9d5e16"),
    "closed5": ("#bf5515", "#aa7019"),
    "closed6": ("#b04717", "#b07e19"),
    "closed7": ("#9c3817", "#b98f1a"),
    "worker0": ("#d9660a", "#ff9a4d"),
    "worker1": ("#00735a", "#3fc79a"),
    "worker2": ("#5b3fc4", "#a594ff"),
    "worker3": ("#db5ca1", "#ff8cc6"),
    "worker4": ("#0b62c4", "#6cb6ff"),
    "worker5": ("#8a6d00", "#d6bf4a"),
    "worker6": ("#6b2d1a", "#d99a80"),
    "worker7": ("#6e7781", "#adbac7"),
}
LIGHT, DARK = ({name: pair[theme] for name, pair in COLOURS.items()} for theme in (0, 1))
AREAS = ("closed", "worker", "land", "water", "swamp", "blocked")
SHADES = 8
WORKERS = 8
CONTRASTS = (
    [("ink", "page", 4.5), ("muted", "page", 4.5), ("ink", "land", 4.5), ("line", "page", 3),
     ("water", "land", 3), ("swamp", "land", 3), ("blocked", "land", 3), ("plan", "casing", 4.5),
     ("cut", "land", 3),
     ("cut", "page", 3), ("plan", "page", 3), ("mark", "page", 4.5), ("closed7", "land", 3)]
    + [(f"worker{i}", "page", 3) for i in range(WORKERS)]
    + [(f"closed{i}", f"closed{i + 1}", 1.15) for i in range(SHADES - 1)]
    + [("closed0", "land", 1.3)]
)


def luminance(colour):
    parts = [int(colour[i : i + 2], 16) / 255 for i in (1, 3, 5)]
    linear = [c / 12.92 if c <= 0.04045 else ((c + 0.055) / 1.055) ** 2.4 for c in parts]
    return 0.2126 * linear[0] + 0.7152 * linear[1] + 0.0722 * linear[2]


def contrast(one, other):
    low, high = sorted((luminance(one), luminance(other)))
    return (high + 0.05) / (low + 0.05)


def text_on(colours, name):
    """The colour for text on the area of that name: the page's or the ink, whichever is clearer."""
    return max(("page", "ink"), key=lambda ink: contrast(colours[ink], colours[name]))


def rules(colours):
    """A style rule for each name: `f-NAME` fills, `s-NAME` draws lines, `t-NAME` is text on it."""
    parts = []
    for name, colour in colours.items():
        parts.append(f".f-{name}{{fill:{colour}}}.s-{name}{{stroke:{colour}}}")
        if name.startswith(AREAS):
            parts.append(f".t-{name}{{fill:{colours[text_on(colours, name)]}}}")
    return "".join(parts)


def style(theme):
    """The style of a picture: `light`, `dark`, or `both`, if the reader's setting is to decide."""
    if theme == "light":
        return rules(LIGHT)
    if theme == "dark":
        return rules(DARK)
    return rules(LIGHT) + "@media (prefers-color-scheme:dark){" + rules(DARK) + "}"
