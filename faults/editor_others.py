"""Scenes of faults/editor with others at the same post: no typed text is lost without a word, and nobody is told that readers see what they don't see."""
import json, time

from devtools import PATIENCE
from editor_scenes import NAMELESS, OUTCOME, choose, edit, enter, is_asked, is_kept, is_open, is_shown, measure, press_row, row, save, says, tab, text, value, waits
from editor_stages import check

SEEN = "Published: readers see it now."


def paste(browser, selector, words):
    browser.fill(selector, words, True)


def write(browser, title, content):
    paste(browser, "#title", title)
    paste(browser, "#content", content)


# ---- a network that keeps what it is given

def hold(browser, path):
    """What is asked of such paths waits until it is let go."""
    browser.value(f"""window.fetchFor ??= fetch; window.held = [];
        fetch = (path, ...more) => String(path).startsWith({json.dumps(path)}) ? new Promise((done) => held.push(done)).then(() => fetchFor(path, ...more)) : fetchFor(path, ...more); 0""")


def is_held(browser):
    waits(browser, "held.length > 0", "something is on its way")


def let_go(browser):
    browser.value("fetch = fetchFor; held.forEach((it) => it()); 0")


def cut(browser, *paths):
    """What is asked of such paths is lost; the bodies are kept for later."""
    browser.value(f"""window.fetchFor ??= fetch; window.lost = [];
        fetch = (path, ...more) => {json.dumps(paths)}.some((it) => String(path).startsWith(it)) ? (lost.push(more[0]?.body), Promise.reject(new TypeError("gone"))) : fetchFor(path, ...more); 0""")


def cut_answers(browser):
    """Commands come, and nothing is told of them."""
    browser.value("""window.fetchFor ??= fetch;
        fetch = (path, ...more) => path === "/command" ? fetchFor(path, ...more).then(() => Promise.reject(new TypeError("gone"))) : path.startsWith("/result/") ? Promise.reject(new TypeError("gone")) : fetchFor(path, ...more); 0""")


def begin(stage, browser, title="Harbour news", content="Two ships."):
    """A post that readers see, open in the form; its number."""
    number = stage.insert(title, content, "publish")
    enter(browser, stage)
    edit(browser, number)
    is_open(browser, number, title=title, content=content)
    return number


def save_unanswered(browser, content):
    paste(browser, "#content", content)
    browser.click("#save")
    says(browser, OUTCOME, "The site doesn’t answer.")


def unfinished(browser):
    """What was on its way as the page was opened has come to an end."""
    waits(browser, "/Done|Saved|Not |Published/.test(document.querySelector('#unfinished').innerText)", "what was on its way has come to an end", 40)
    return text(browser, "#unfinished")


def go_on(browser, number, **fields):
    """The text that is offered comes into the form again."""
    browser.click("#offers button[aria-label^='Go on']")
    is_open(browser, number, **fields)


def is_usable(browser):
    """What can be pressed is large enough, and has a name."""
    measure(browser, 44 if browser.value("innerWidth") <= 700 else 24, set())
    check(not browser.value(NAMELESS), f"without a name: {browser.value(NAMELESS)}")


def check_words(found, *words):
    for it in words:
        check(it in found, f"the page says {found!r}, without {it!r}")


def check_no_words(found, *words):
    for it in words:
        check(it not in found, f"the page says {found!r}")


def overwrite(browser, number, theirs):
    """Update shows what would be overwritten, and overwrites it where the editor says so."""
    browser.click("#save")
    is_asked(browser, "Somebody changed this post since you opened it", "“somebody” saved this post", theirs)
    choose(browser, "yes")
    says(browser, OUTCOME, SEEN)


# ---- scenes

def cut_off(stage, browser, _other):
    """A save that was cut off is sent again only where what it was written over still stands; else it is taken back, and both texts stay."""
    number = begin(stage, browser)
    cut(browser, "/command")
    save_unanswered(browser, "Three ships.")
    enter(browser, stage)
    check_words(unfinished(browser), "Done.")
    is_kept(stage, number, content="Three ships.")
    check(not is_shown(browser, "#offers"), "a text that is on the site is offered")
    # Somebody wrote before the page was opened anew.
    edit(browser, number)
    is_open(browser, number)
    cut(browser, "/command")
    save_unanswered(browser, "Four ships.")
    stage.update(number, "Harbour news", "Five ships.")
    enter(browser, stage)
    found = unfinished(browser)
    is_kept(stage, number, content="Five ships.")
    check_words(found, "Not saved: “somebody” saved this post while yours was on its way")
    check_no_words(found, "Done.")
    says(browser, "#offers", f"changes of post {number}", "It isn’t on the site yet")
    go_on(browser, number, content="Four ships.")
    says(browser, OUTCOME, "“somebody” saved this post since you opened it", "readers see that text")
    says(browser, "#versions", "What the site has", "Five ships.")
    overwrite(browser, number, "Five ships.")
    is_kept(stage, number, content="Four ships.")
    cut_off_within(stage, browser, number)


def cut_off_within(stage, browser, number):
    """The same while the page is open; and what was lost on the way comes late."""
    cut(browser, "/command")
    save_unanswered(browser, "Six ships.")
    lost = browser.value("lost[0]")
    stage.update(number, "Harbour news", "Seven ships.")
    time.sleep(0.5)
    let_lost_come(browser)
    waits(browser, "/Not saved|Published/.test(document.querySelector('#save-outcome p').textContent)", "the save has come to an end", 40)
    is_kept(stage, number, content="Seven ships.")
    says(browser, OUTCOME, "Not saved: “somebody” saved this post while yours was on its way", "kept in this browser")
    says(browser, "#versions", "Seven ships.")
    check(value(browser, "#content") == "Six ships." and is_shown(browser, "#discard"), "the text isn't in the form any more")
    # Each token is done once: what comes late finds it used.
    stage.send_body(lost)
    time.sleep(1)
    is_kept(stage, number, content="Seven ships.")
    waits(browser, "document.querySelector('#log').textContent.includes('taken back')", "the record of commands says so")


def let_lost_come(browser):
    browser.value("fetch = fetchFor; 0")


def done_unseen(stage, browser, _other):
    """A save that was done while nobody heard of it, and over which somebody saved since, isn't told as done alone, and its text stays."""
    number = begin(stage, browser)
    cut_answers(browser)
    save_unanswered(browser, "Three ships.")
    is_kept(stage, number, content="Three ships.")
    stage.update(number, "Harbour news", "Four ships.")
    enter(browser, stage)
    found = unfinished(browser)
    is_kept(stage, number, content="Four ships.")
    check_words(found, "Saved, but “somebody” saved this post right behind it", "readers see another text")
    check_no_words(found, "Done.", SEEN)
    says(browser, "#offers", "not on the site any more", "“somebody” took its place")
    go_on(browser, number, content="Three ships.")
    says(browser, "#versions", "Four ships.")
    overwrite(browser, number, "Four ships.")
    is_kept(stage, number, content="Three ships.")
    check(not is_shown(browser, "#versions"), "a text that is on the site is offered")


def clicks_cut_off(stage, browser, _other):
    """A click in the list and the site's name, cut off: neither is sent again over what somebody did meanwhile."""
    number = begin(stage, browser)
    browser.click("#clear")
    cut(browser, "/command")
    press_row(browser, number, "Move")
    says(browser, row(number) + " .outcome p", "The site doesn’t answer.")
    paste(browser, "#name", "Morning Post")
    browser.click("#name-save")
    says(browser, "#name-outcome p", "Waiting until what was sent before is done")
    stage.update(number, "Harbour news", "Three ships.")
    enter(browser, stage)
    found = unfinished(browser)
    is_kept(stage, number, status="publish", content="Three ships.")
    check_words(found, "Not done: “somebody” saved this post while your click was on its way")
    # Now the name.
    enter(browser, stage)
    cut(browser, "/command")
    paste(browser, "#name", "Morning Post")
    browser.click("#name-save")
    says(browser, "#name-outcome p", "The site doesn’t answer.")
    stage.send("option", name="blogname", value="Evening Post")
    enter(browser, stage)
    found = unfinished(browser)
    check("Evening Post" in stage.text("/"), "the name is overwritten")
    check_words(found, "Not done: somebody changed this meanwhile")


def saved_before(stage, browser, _other):
    """Somebody saves between the look at the post and the save: who it was is told, and that text is kept to compare."""
    number = begin(stage, browser, "Council votes", "The vote is at noon, in the old hall.")
    hold(browser, "/command")
    paste(browser, "#content", "The vote is at ten, in the old hall.")
    browser.click("#save")
    is_held(browser)
    stage.update(number, "Council votes", "The vote is off, in the old hall.")
    let_go(browser)
    says(browser, OUTCOME, SEEN, "“somebody” saved another text of it a moment before")
    check_no_words(text(browser, OUTCOME), "plugin")
    is_kept(stage, number, content="The vote is at ten, in the old hall.")
    says(browser, "#versions", "By “somebody”", "The vote is off, in the old hall.")
    marks = browser.value("[...document.querySelectorAll('#versions mark')].map((it) => it.textContent)")
    # The time of the save may be another one.
    check([it for it in marks if ":" not in it] == ["off,"], f"marked are {marks}")
    is_usable(browser)
    check(value(browser, "#content") == "The vote is at ten, in the old hall.", "the form has another text")
    # It is there after a reload too, and can be brought back.
    enter(browser, stage)
    says(browser, "#offers", "Council votes", "by “somebody”")
    go_on(browser, number, content="The vote is off, in the old hall.")
    save(browser, SEEN)
    is_kept(stage, number, content="The vote is off, in the old hall.")
    check(not is_shown(browser, "#versions") and not is_shown(browser, "#offers"), "a text that is on the site is offered")
    # What comes again under its token, and what the site refuses, is nobody's save.
    paste(browser, "#content", "The vote is on Friday.")
    save(browser, SEEN)
    hold(browser, "/command")
    paste(browser, "#content", "The vote is on Monday.")
    browser.click("#save")
    is_held(browser)
    stage.send_again()
    check(stage.send("update", id=number, title="t" * 1025, content="Refused.", status="publish") == {"refused": 2}, "a title of 1,025 letters isn't refused")
    let_go(browser)
    says(browser, OUTCOME, SEEN)
    check_no_words(text(browser, OUTCOME), "somebody", "plugin")
    is_kept(stage, number, content="The vote is on Monday.")


def save_behind(stage, browser, number, content, then):
    """A save of which the page hears only when something else was done to the post; what it says then."""
    hold(browser, "/result/")
    paste(browser, "#content", content)
    browser.click("#save")
    is_held(browser)
    is_kept(stage, number, content=content)
    then()
    let_go(browser)
    waits(browser, "/Saved|Published/.test(document.querySelector('#save-outcome p').textContent)", "the save has come to an end")
    found = text(browser, OUTCOME)
    check(value(browser, "#content") == content, f"the typed text isn't in the form any more, and the page says {found!r}")
    check_no_words(found, SEEN, "plugin")
    return found


def saved_behind(stage, browser, _other):
    """Somebody saves right behind: the page says that readers see that text, and keeps the one that was typed."""
    number = begin(stage, browser)
    found = save_behind(stage, browser, number, "Three ships.", lambda: stage.update(number, "Harbour news", "Four ships."))
    check_words(found, "Saved, but “somebody” saved this post right behind it", "readers see another text")
    says(browser, "#kept-note", "Kept in this browser", "not on the site any more")
    says(browser, "#versions", "What the site has", "Four ships.")
    is_usable(browser)
    browser.click("#clear")
    is_asked(browser, "isn’t on the site any more", "“somebody” took its place")
    choose(browser, "stay")
    enter(browser, stage)
    says(browser, "#offers", "not on the site any more")
    go_on(browser, number, content="Three ships.")
    # Theirs into the form: this one stays to compare.
    browser.click("#versions button[aria-label='Open what the site has']")
    waits(browser, "document.querySelector('#content').value === 'Four ships.'", "what the site has is in the form")
    says(browser, "#versions", "Three ships.", "not on the site any more")
    browser.click("#versions button[aria-label^='Throw']")
    is_asked(browser, "Throw this text away?", "record of commands")
    choose(browser, "throw")
    check(not is_shown(browser, "#versions"), "a text that was thrown away is there")
    found = save_behind(stage, browser, number, "Five ships.", lambda: stage.send("trash", id=number))
    check_words(found, "Saved, but “somebody” moved this post to the trash right behind it")
    browser.click("#clear")
    choose(browser, "throw")
    saved_behind_as_new(stage, browser)
    saved_since(stage, browser)


def saved_behind_as_new(stage, browser):
    """A new post, saved over by somebody before its writer hears that it is there."""
    write(browser, "Night buses", "Line 4.")
    hold(browser, "/result/")
    browser.click("#save")
    is_held(browser)
    number = max(it["id"] for it in stage.posts())
    is_kept(stage, number, content="Line 4.")
    stage.update(number, "Night buses", "Line 5.", "draft")
    let_go(browser)
    waits(browser, "/Saved/.test(document.querySelector('#save-outcome p').textContent)", "the save has come to an end")
    check(value(browser, "#content") == "Line 4.", "the typed text isn't in the form any more")
    says(browser, OUTCOME, "“somebody” saved this post right behind it", "the site has another text")
    is_open(browser, number, content="Line 4.")
    overwrite_draft(browser)
    is_kept(stage, number, content="Line 4.")


def overwrite_draft(browser):
    browser.click("#save")
    is_asked(browser, "Somebody changed this post since you opened it", "Line 5.")
    choose(browser, "yes")
    says(browser, OUTCOME, "Saved as a draft.")


def saved_since(stage, browser):
    """A moment after it was told as published: the page says by itself that it isn't what readers see."""
    number = begin(stage, browser, "Market day", "Stalls open at seven.")
    paste(browser, "#content", "Stalls open at six.")
    save(browser, SEEN)
    stage.update(number, "Market day", "Stalls open at five.")
    says(browser, OUTCOME, "“somebody” saved this post right after you", "readers see that text, and not yours")
    check_no_words(text(browser, OUTCOME), SEEN)
    check(value(browser, "#content") == "Stalls open at six.", "the typed text isn't in the form any more")
    says(browser, "#kept-note", "Kept in this browser", "not on the site any more")
    says(browser, "#versions", "Stalls open at five.")
    # And while another text is typed over it.
    paste(browser, "#content", "Stalls open at four.")
    stage.update(number, "Market day", "Stalls are closed.")
    says(browser, "#versions", "Stalls are closed.")
    check(value(browser, "#content") == "Stalls open at four.", "the typed text isn't in the form any more")
    overwrite(browser, number, "Stalls are closed.")
    is_kept(stage, number, content="Stalls open at four.")


def saved_elsewhere(stage, browser, _other):
    """The form shows another post by the time that somebody saves over the one that was sent: its text is offered."""
    other = stage.insert("Night buses", "Line 4.")
    number = begin(stage, browser)
    hold(browser, "/result/")
    paste(browser, "#content", "Three ships.")
    browser.click("#save")
    is_held(browser)
    is_kept(stage, number, content="Three ships.")
    edit(browser, other)
    is_asked(browser, "Keep it for later")
    choose(browser, "keep")
    is_open(browser, other, content="Line 4.")
    stage.update(number, "Harbour news", "Four ships.")
    let_go(browser)
    says(browser, "#offers", f"changes of post {number}", "not on the site any more", "“somebody” took its place")
    check(value(browser, "#content") == "Line 4.", "the form has another post's text")
    says(browser, OUTCOME, f"Post {number}, “Harbour news”: Saved, but “somebody” saved this post right behind it")
    go_on(browser, number, content="Three ships.")


# Another window of the same browser, as far as the page asks for one.
WINDOW = "otherWindow = document.createElement('iframe'); otherWindow.src = '/editor'; otherWindow.id = 'other-window'; document.body.append(otherWindow); 0"


def other_window(stage, browser, _other):
    """A window that is opened while another one of the browser has something on its way leaves it to that one."""
    number = begin(stage, browser)
    hold(browser, "/command")
    paste(browser, "#content", "Three ships.")
    browser.click("#save")
    is_held(browser)
    browser.value(WINDOW)
    waits(browser, "/shown|none/.test(otherWindow.contentDocument.querySelector('#list-note')?.textContent)", "the other window is there", 60)
    time.sleep(4)
    check(browser.value("otherWindow.contentDocument.querySelector('#unfinished').hidden"), "the other window sends what is on its way here")
    is_kept(stage, number, content="Two ships.")
    let_go(browser)
    says(browser, OUTCOME, SEEN)
    is_kept(stage, number, content="Three ships.")


def at_once(browsers):
    """Both press Save in the same moment."""
    at = browsers[0].value("Date.now()") + 400
    for it in browsers:
        it.value(f"setTimeout(() => document.querySelector('#save').click(), {at} - Date.now()); 0")


def have_ended(browsers, seconds=60):
    """Neither is on its way any more; who was asked whether to overwrite goes on writing."""
    begun = time.monotonic()
    for it in browsers:
        while it.value("document.querySelector('#save').getAttribute('aria-disabled') === 'true'"):
            if it.value("document.querySelector('#question').open"):
                choose(it, "stay")
            check(time.monotonic() - begun < seconds * PATIENCE[0], f"a save isn't done: {text(it, OUTCOME)!r}")
            time.sleep(0.1)


def check_claims(stage, browsers, number, typed):
    """Who is told that readers see the text is right; who isn't has it in the form."""
    shown = stage.post(number)["content"]
    for it, content in zip(browsers, typed):
        found = text(it, OUTCOME)
        check(value(it, "#content") == content, f"{content!r} isn't in its form any more, and the page says {found!r}")
        check((SEEN in found) == (shown == content), f"readers see {shown!r}, and whoever wrote {content!r} is told {found!r}")
        check_no_words(found, "plugin")
    check(shown in typed, f"the site has {shown!r}")


def two_saves(stage, browser, other):
    """Two editors press Save in the same moment, several times: each is told what readers see, and no text is lost."""
    number, browsers = stage.insert("Council votes", "The vote is at noon.", "publish"), (browser, other)
    for count in range(4):
        typed = [f"The vote is at {hour}, and {count} are against." for hour in ("nine", "ten")]
        for place, (it, content) in enumerate(zip(browsers, typed)):
            enter(it, stage, place % len(stage.ports))
            edit(it, number)
            is_open(it, number)
            paste(it, "#content", content)
        at_once(browsers)
        have_ended(browsers)
        # Whoever was quicker hears a moment later that somebody saved behind it.
        waits_for_claims(stage, browsers, number, typed)


def waits_for_claims(stage, browsers, number, typed):
    begun = time.monotonic()
    while True:
        have_ended(browsers)
        try:
            return check_claims(stage, browsers, number, typed)
        except Exception:
            if time.monotonic() - begun > 8 * PATIENCE[0]:
                raise
            time.sleep(0.2)


def no_majority(stage, browser, other):
    """Two editors save one post while no majority is there: once it is, each is told what readers see, and no text is lost."""
    number, browsers = stage.insert("Council votes", "The vote is at noon.", "publish"), (browser, other)
    typed = ["The vote is at nine.", "The vote is at ten."]
    for place, (it, content) in enumerate(zip(browsers, typed)):
        is_kept(stage, number, place)
        enter(it, stage, place)
        edit(it, number)
        is_open(it, number)
        paste(it, "#content", content)
    stage.part()
    for it in browsers:
        it.click("#save")
        says(it, OUTCOME, "Sent. Waiting")
    begun = time.monotonic()
    while time.monotonic() - begun < 60:
        for it in browsers:
            check_no_words(text(it, OUTCOME), SEEN)
        time.sleep(1)
    stage.join()
    have_ended(browsers, 90)
    waits_for_claims(stage, browsers, number, typed)
    told = [text(it, OUTCOME) for it in browsers]
    check(sum(SEEN in it for it in told) == 1, f"they are told {told}")


def true_words(stage, browser, _other):
    """What the page says of drafts, of what is deleted, and of who sees what is so."""
    number = stage.insert("Old notes", "Call the treasurer again.")
    enter(browser, stage)
    options = browser.value("document.querySelector('#status').textContent")
    check_no_words(options, "nobody else", "not on the site")
    check_words(options, "Draft: only editors see it", "Private: only editors see it")
    check(stage.post(number)["content"] == "Call the treasurer again.", "other editors don't see a draft")
    stage.send("trash", id=number)
    tab(browser, "trash")
    press_row(browser, number, "Delete")
    is_asked(browser, "Delete this post for good?", "record of commands")
    check_no_words(text(browser, "#question"), "Nobody can bring it back")
    choose(browser, "delete")
    says(browser, row(number) + " .outcome p", "Deleted for good.")
    check("Call the treasurer again." in stage.text("/desk/log"), "the log doesn't have what was deleted")
    # A text that nobody ever sent.
    write(browser, "Night buses", "Line 4.")
    enter(browser, stage)
    browser.click("#offers button[aria-label^='Throw']")
    is_asked(browser, "Throw this text away?", "in this browser alone")
    choose(browser, "throw")
    check("Line 4." not in stage.text("/desk/log"), "the log has what was never sent")


# A clock that is so many hours off.
CLOCK = "Date = class extends Date { constructor(...it) { if (it.length) super(...it); else super(new.target.now()); } static now() { return super.now() + %d * 3600000; } }; 0"


def clock(stage, browser, _other):
    """A clock of the editor's computer that is an hour off is told, one that is right isn't."""
    stage.insert("Harbour news", "Two ships.")
    enter(browser, stage)
    check(not is_shown(browser, "#clock"), "a clock that is right is told")
    for hours, words in ((-1, "minutes behind"), (1, "minutes ahead")):
        script = browser.call("Page.addScriptToEvaluateOnNewDocument", source=CLOCK % hours)["identifier"]
        try:
            clock_off(stage, browser, hours, words)
        finally:
            browser.call("Page.removeScriptToEvaluateOnNewDocument", identifier=script)
    enter(browser, stage)
    check(not is_shown(browser, "#clock"), "a clock that is right is told")


def clock_off(stage, browser, hours, words):
    enter(browser, stage)
    # A node by itself tells no time of its own: what is ahead of it shows with the first save.
    if stage.is_mock or hours < 0:
        says(browser, "#clock", words, "set it right")
        check(is_shown(browser, "#clock"), "it isn't shown")
    if hours > 0:
        write(browser, "Ahead", "Of its time.")
        save(browser, "clock of this computer", "(Answer 400.)")


OTHERS = (cut_off, done_unseen, clicks_cut_off, saved_before, saved_behind, saved_elsewhere, other_window, two_saves, no_majority, true_words, clock)
