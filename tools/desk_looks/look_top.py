"""The top of the page is as high for each name: a longer role moves nothing."""

from desk_looks.browser import Differs

NAMES = ("DISP1", "JONES", "REED", "BOSS", "SOTO")


def heights(stage):
    hand = stage.network()
    for wide in (1920, 1440, 1280):
        hand.browser.size(wide, 900)
        hand.browser.script("window.scrollTo(0, 0)")
        found = {}
        for name in NAMES:
            hand.speak(name)
            hand.shows("The register answers", "#contact")
            found[name] = hand.browser.script("return document.getElementById('frame').getBoundingClientRect().top")
        if len(set(found.values())) > 1:
            raise Differs(f"at a width of {wide} the page begins at {found}")
    hand.picture("top")


LOOKS = {"top": heights}
