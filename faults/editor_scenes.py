"""The scenes of faults/editor: what an editor does by clicks and keys, and what then has to be on the page and on the site."""
import calendar, json, time

from devtools import PATIENCE, Failed
from editor_stages import check

OUTCOME = "#save-outcome p"


# ---- looking at the page

def value(browser, selector):
    return browser.value(f"document.querySelector({json.dumps(selector)}).value")


def text(browser, selector):
    return browser.value(f"(document.querySelector({json.dumps(selector)}) || {{}}).innerText || ''")


def says(browser, selector, *words, seconds=20):
    """Waits until what is shown there has these words."""
    begun, seconds = time.monotonic(), seconds * PATIENCE[0]
    while not all(it in (found := text(browser, selector)) for it in words):
        check(time.monotonic() - begun < seconds, f"{selector} says {found!r}, and not {words}")
        time.sleep(0.05)


def is_shown(browser, selector):
    return browser.value(f"(it => !!it && it.checkVisibility())(document.querySelector({json.dumps(selector)}))")


def waits(browser, script, what, seconds=20):
    browser.until(script, what, seconds)


def is_asked(browser, *words):
    waits(browser, "document.querySelector('#question').open", f"a question is asked with {words}")
    says(browser, "#question", *words)


def is_not_asked(browser):
    check(not browser.value("document.querySelector('#question').open"), "a question is asked that nobody needs")


def is_answered(browser):
    waits(browser, "!document.querySelector('#question').open", "the question is closed")
    # What the page does with the answer comes behind it.
    time.sleep(0.3)


def choose(browser, choice):
    browser.click(f"#question [data-choice={choice}]")
    is_answered(browser)


def enter(browser, stage, place=0):
    browser.open("about:blank")
    browser.open(stage.url(place) + "/editor")
    waits(browser, "/shown|none/.test(document.querySelector('#list-note').textContent) && /[0-9]/.test(document.querySelector('#tabs').textContent)", "the list is there")


def row(number):
    return f"#rows li[data-post='{number}']"


def press_row(browser, number, label):
    browser.click(f"{row(number)} button[aria-label^='{label}']")


def edit(browser, number):
    press_row(browser, number, "Edit")


def is_open(browser, number, **fields):
    waits(browser, f"document.querySelector('#write-title').textContent.startsWith('Post {number}:')", f"post {number} is open")
    for name, wanted in fields.items():
        found = value(browser, "#" + name)
        check(found == wanted, f"the field {name} has {found!r}, not {wanted!r}")


def tab(browser, name):
    browser.click(f"#tabs [data-tab={name}]")
    waits(browser, f"document.querySelector('#tabs [data-tab={name}]').getAttribute('aria-pressed') === 'true' && !/Looking/.test(document.querySelector('#list-note').textContent)", f"the tab {name} is shown")


def rows(browser):
    return browser.value("[...document.querySelectorAll('#rows > li')].map(it => Number(it.dataset.post))")


def write(browser, title, content):
    browser.fill("#title", title)
    browser.fill("#content", content)


def save(browser, *words):
    browser.click("#save")
    says(browser, OUTCOME, *words)


def is_kept(stage, number, place=0, **fields):
    """A post of the site is so; what another member did is there a moment later."""
    begun = time.monotonic()
    while not (post := stage.post(number, place)) or any(post[name] != wanted for name, wanted in fields.items()):
        check(time.monotonic() - begun < 3 * PATIENCE[0], f"post {number} is {post}, not {fields}")
        time.sleep(0.05)


def choose_status(browser, key, wanted):
    browser.click("#status")
    browser.press("Escape")
    browser.keys(key)
    check(value(browser, "#status") == wanted, f"the status is {value(browser, '#status')!r}, not {wanted}")


# ---- scenes

def two_browsers(stage, browser, other):
    """Two browsers edit one post while plugins change what is shown: each sees and stores what was typed, and is told of the other."""
    stage.send("activate", plugin="breaking")
    stage.send("activate", plugin="signature")
    planted = "Bridge <b id=planted>vote</b> & [quote]"
    first = stage.insert(planted, "The vote is at noon.\r\nAll are welcome.", "publish")
    check("New: Bridge" in stage.text(f"/?p={first}"), "the plugin changes no title")
    for place, it in enumerate((browser, other)):
        enter(it, stage, place % len(stage.ports))
        edit(it, first)
        is_open(it, first, title=planted, content="The vote is at noon.\nAll are welcome.", status="publish")
        check(it.value("document.querySelector('#planted') === null"), "a title became a part of the page")
    # Only the title is touched: the content goes back byte by byte.
    date = stage.post(first)["date"]
    other.fill("#title", "Bridge vote moved")
    save(other, "Published: readers see it now.")
    is_kept(stage, first, title="Bridge vote moved", content="The vote is at noon.\r\nAll are welcome.", date=date, status="publish")
    browser.fill("#content", "The vote is on Monday.")
    browser.click("#save")
    is_asked(browser, "Somebody changed this post since you opened it", "Bridge vote moved", "All are welcome.")
    is_kept(stage, first, title="Bridge vote moved")
    choose(browser, "stay")
    check(value(browser, "#content") == "The vote is on Monday.", "the text is gone with the question")
    is_kept(stage, first, title="Bridge vote moved")
    browser.click("#save")
    is_asked(browser, "Overwrite")
    choose(browser, "yes")
    says(browser, OUTCOME, "Published: readers see it now.")
    is_kept(stage, first, title=planted, content="The vote is on Monday.", date=date)
    # Now the other one: it takes what is there, and its own text is offered.
    other.fill("#content", "No vote at all.")
    other.click("#save")
    is_asked(other, "Somebody changed this post", "The vote is on Monday.")
    choose(other, "theirs")
    is_open(other, first, title=planted, content="The vote is on Monday.")
    says(other, "#versions", "Bridge vote moved", "No vote at all.")
    # Deleted meanwhile.
    stage.send("trash", id=first)
    browser.fill("#content", "It rains.")
    save(browser, "moved this post to the trash")
    stage.send("delete", id=first)
    browser.click("#save")
    is_asked(browser, "deleted meanwhile")
    choose(browser, "new")
    says(browser, OUTCOME, "Published")
    is_kept(stage, first + 1, title=planted, content="It rains.")
    check(len(stage.posts()) == 1, "there are more posts than were written")


def many_drafts(stage, browser, _other):
    """Drafts above a published post don't hide it; tabs have counts, and lists go on."""
    first = stage.insert("The only published post", status="publish")
    for count in (30, 100):
        for number in range(count):
            stage.insert(f"Draft {number}")
        drafts = stage.desk("site")["counts"]["draft"]
        enter(browser, stage)
        check(len(rows(browser)) == 20, f"at first {len(rows(browser))} posts are shown")
        says(browser, "#tabs", "Published 1", f"Drafts {drafts}", "Trash 0", f"All {drafts + 1}")
        tab(browser, "publish")
        says(browser, "#list-note", "1 shown")
        check(rows(browser) == [first], f"published are {rows(browser)}")
    tab(browser, "draft")
    seen = 20
    while seen < 130:
        check(len(rows(browser)) == seen, f"of the drafts {len(rows(browser))} are shown, not {seen}")
        browser.click("#older")
        seen = min(seen + 20, 130)
        says(browser, "#list-note", f"{seen} shown")
    check(rows(browser) == list(range(131, 1, -1)), "the drafts are others, or in another order")
    check(not is_shown(browser, "#older"), "older posts are offered where there are none")
    # To the trash and back, told in the row.
    tab(browser, "draft")
    press_row(browser, 131, "Move")
    says(browser, row(131) + " .outcome p", "In the trash now")
    is_kept(stage, 131, status="trash")
    says(browser, "#tabs", "Trash 1", "Drafts 129")
    tab(browser, "trash")
    check(rows(browser) == [131], f"in the trash are {rows(browser)}")
    check(browser.value(f"[...document.querySelectorAll(\"{row(131)} button\")].filter(it => it.checkVisibility()).map(it => it.textContent).join()") == "Preview,Restore,Delete", "a post in the trash can be edited, or not be restored")
    press_row(browser, 131, "Restore")
    says(browser, row(131) + " .outcome p", "Restored: it is a draft now.")
    is_kept(stage, 131, status="draft")
    tab(browser, "all")
    check(browser.value("![...document.querySelectorAll('#rows button')].some(it => it.textContent === 'Delete')"), "a post outside the trash can be deleted")


def reload_within(stage, browser, _other):
    """A text that was typed is offered again after a reload, in words, and can be thrown away."""
    first = stage.insert("Harbour news", "Two ships.", "publish")
    enter(browser, stage)
    check(not is_shown(browser, "#offers"), "a text is offered before one was typed")
    write(browser, "Ferries run late", "Fog on the river.")
    says(browser, "#kept-note", "Kept in this browser", "not on the site yet")
    enter(browser, stage)
    says(browser, "#offers", "isn’t on the site yet", "Ferries run late", "a new post")
    check(value(browser, "#title") == "", "the text is in the form before it was asked for")
    browser.click("#offers button[aria-label^='Go on']")
    waits(browser, "document.querySelector('#title').value === 'Ferries run late' && document.querySelector('#content').value === 'Fog on the river.'", "the text is there again")
    check(not is_shown(browser, "#offers"), "a text is offered that is open")
    # Two texts at once, the second one changes of a post.
    browser.click("#clear")
    is_asked(browser, "isn’t on the site yet")
    choose(browser, "keep")
    edit(browser, first)
    is_open(browser, first)
    browser.fill("#content", "Three ships.")
    enter(browser, stage)
    says(browser, "#offers", "Ferries run late", f"changes of post {first}", "Harbour news")
    check(stage.post(first)["content"] == "Two ships.", "a text that is only typed is on the site")
    browser.click("#offers button[aria-label^='Throw “Ferries']")
    is_asked(browser, "Throw this text away?")
    choose(browser, "stay")
    says(browser, "#offers", "Ferries run late")
    browser.click("#offers button[aria-label^='Throw “Ferries']")
    is_asked(browser, "Throw this text away?")
    choose(browser, "throw")
    waits(browser, "!document.querySelector('#offers').textContent.includes('Ferries')", "the text is thrown away")
    enter(browser, stage)
    check("Ferries" not in text(browser, "#offers"), "a text that was thrown away is offered")
    browser.click("#offers button[aria-label^='Go on']")
    is_open(browser, first, content="Three ships.", title="Harbour news")
    save(browser, "Published")
    is_kept(stage, first, content="Three ships.", title="Harbour news", status="publish")
    enter(browser, stage)
    check(not is_shown(browser, "#offers"), "a text that was saved is offered")
    check(len(stage.posts()) == 1, "there are more posts than were saved")


def enter_in_title(stage, browser, _other):
    """Enter in a field of one line sends nothing, and a new post is a draft unless the editor says otherwise."""
    enter(browser, stage)
    check(value(browser, "#status") == "draft", f"the first status is {value(browser, '#status')}")
    before = stage.desk("site")["applied"]
    for field in ("#title", "#date", "#name"):
        browser.fill(field, "Fair weather") if field != "#date" else browser.click(field)
        browser.press("Enter")
        browser.press("Escape")
    browser.fill("#content", "Sun at last.")
    time.sleep(1)
    check(stage.desk("site")["applied"] == before and not stage.posts(), "Enter in a field sent something")
    check(value(browser, "#title") == "Fair weather" and text(browser, OUTCOME) == "", "Enter changed the page")
    save(browser, "Saved as a draft.")
    is_kept(stage, 1, title="Fair weather", content="Sun at last.", status="draft")
    check(stage.text("/?p=1") is None, "a draft is shown to readers")
    # The form goes on with the post, by keys alone.
    waits(browser, "document.querySelector('#save').textContent === 'Update'", "the form goes on with the post")
    choose_status(browser, "pu", "publish")
    waits(browser, "document.querySelector('#save').textContent === 'Publish now'", "the button says what it does")
    browser.press("Tab")
    while browser.value("document.activeElement.id") == "date":
        browser.press("Tab")
    check(browser.value("document.activeElement.id") == "save", "the button isn't behind the date")
    browser.press("Enter")
    says(browser, OUTCOME, "Published: readers see it now.")
    is_kept(stage, 1, title="Fair weather", status="publish")
    # A draft of yesterday is dated by its publishing.
    old = stage.insert("Of yesterday", date=int(time.time()) - 86_400)
    browser.click("#again")
    waits(browser, f"!!document.querySelector(\"{row(old)}\")", "the draft is listed")
    edit(browser, old)
    is_open(browser, old, status="draft", date="")
    choose_status(browser, "pu", "publish")
    save(browser, "Published: readers see it now.")
    check(abs(stage.post(old)["date"] - time.time()) < 60, "it isn't dated by its publishing")


def questions(stage, browser, _other):
    """Clear, Edit over unsaved text, and Delete ask in the page; nothing is lost by a wrong click."""
    for title in ("First", "Second", "Third"):
        stage.insert(title)
    stage.send("trash", id=3)
    enter(browser, stage)
    browser.click("#clear")
    is_not_asked(browser)
    write(browser, "Night bus", "Line 4.")
    browser.click("#clear")
    is_asked(browser, "isn’t on the site yet", "Night bus")
    check(browser.value("document.activeElement.dataset.choice") == "stay", "the choice that loses nothing isn't the first one")
    browser.press("Escape")
    is_answered(browser)
    check(value(browser, "#title") == "Night bus", "Escape lost the text")
    edit(browser, 1)
    is_asked(browser, "isn’t on the site yet")
    choose(browser, "stay")
    check(value(browser, "#title") == "Night bus", "the text is lost by Edit")
    edit(browser, 1)
    is_asked(browser, "Keep it for later")
    choose(browser, "keep")
    is_open(browser, 1, title="First")
    says(browser, "#offers", "Night bus")
    edit(browser, 2)
    is_open(browser, 2, title="Second")
    is_not_asked(browser)
    browser.fill("#title", "Second, changed")
    browser.click("#clear")
    is_asked(browser, "Second, changed")
    choose(browser, "throw")
    waits(browser, "document.querySelector('#title').value === '' && document.querySelector('#write-title').textContent === 'New post'", "the form is empty")
    check("changed" not in text(browser, "#offers"), "a text that was thrown away is offered")
    is_kept(stage, 2, title="Second")
    tab(browser, "trash")
    press_row(browser, 3, "Delete")
    is_asked(browser, "Delete this post for good?", "Third")
    is_kept(stage, 3, status="trash")
    choose(browser, "stay")
    time.sleep(0.5)
    is_kept(stage, 3, status="trash")
    press_row(browser, 3, "Delete")
    is_asked(browser, "for good")
    choose(browser, "delete")
    says(browser, row(3) + " .outcome p", "Deleted for good.")
    check(stage.post(3) is None, "the post is there")
    check(browser.value("document.querySelectorAll('#question').length === 1"), "there are two questions")


def is_previewed(browser, stage, number, title):
    """The frame has what readers would see of that post; its text."""
    says(browser, "#preview", f"Preview of “{title}”")
    shown, begun = stage.url() + f"/desk/preview/{number}", time.monotonic()
    while f"New: {title}" not in (found := browser.frames().get(shown, "")):
        check(time.monotonic() - begun < 20, f"the frame shows {found!r}")
        time.sleep(0.1)
    return found


def preview(stage, browser, _other):
    """A draft is shown as readers would see it, and its scripts can't touch the page; so is a post of any status."""
    stage.send("activate", plugin="breaking")
    script = "<script>document.body.append(['script', 'ran'].join('-')); parent.document.title = 'touched'; top.location = 'about:blank'</script>"
    picture = """<img src=x onerror="document.body.append(['picture', 'ran'].join('-'))">"""
    first = stage.insert("Council votes", f"The vote is at noon. {script}{picture}")
    enter(browser, stage)
    press_row(browser, first, "Preview")
    found = is_previewed(browser, stage, first, "Council votes")
    check("The vote is at noon." in found, f"the frame shows {found!r}")
    time.sleep(0.7)
    found = is_previewed(browser, stage, first, "Council votes")
    for it in ("script-ran", "picture-ran"):
        check(it not in found, f"in the preview: {it}")
    check(browser.value("document.title") == "Press: editor" and browser.value("location.pathname") == "/editor", "a script of the post touched the page")
    check(not is_open_form(browser), "the preview opened the post")
    is_kept(stage, first, status="draft")
    # Of the form: what wasn't saved isn't in it, and the page says so.
    edit(browser, first)
    is_open(browser, first, title="Council votes")
    browser.fill("#title", "Council votes again")
    browser.click("#show")
    says(browser, "#preview-note", "didn’t save isn’t in it")
    browser.click("#preview-close")
    check(not is_shown(browser, "#preview"), "the preview isn't closed")
    browser.click("#clear")
    choose(browser, "throw")
    preview_others(stage, browser)
    preview_from_trash(stage, browser, first)


def preview_others(stage, browser):
    """Of each other status."""
    for status in ("pending", "private", "future", "publish"):
        number = stage.insert(f"As {status}", "Said in short.", status, date=int(time.time()) + (3600 if status == "future" else 0))
        is_kept(stage, number, status=status)
        browser.click("#again")
        waits(browser, f"!!document.querySelector(\"{row(number)}\")", f"post {number} is listed")
        press_row(browser, number, "Preview")
        check("Said in short." in is_previewed(browser, stage, number, f"As {status}"), f"the preview as {status} has no content")
        is_kept(stage, number, status=status)


def preview_from_trash(stage, browser, first):
    """In the trash, and gone."""
    stage.send("trash", id=first)
    tab(browser, "trash")
    press_row(browser, first, "Preview")
    says(browser, "#preview", "Preview of “Council votes”")
    if stage.is_mock:
        # Opened by itself its scripts run, but where a server in front keeps them from that.
        stage.site.has_front = True
        browser.open(shown := f"{stage.url()}/desk/preview/{first}")
        time.sleep(0.7)
        found = browser.frames()[shown]
        check("The vote is at noon." in found and "-ran" not in found, f"the preview shows {found!r}")
        enter(browser, stage)
        tab(browser, "trash")
        press_row(browser, first, "Preview")
        is_previewed(browser, stage, first, "Council votes")
    stage.send("delete", id=first)
    press_row(browser, first, "Preview")
    says(browser, row(first) + " .outcome p", "no such post any more")


def is_open_form(browser):
    return text(browser, "#write-title") != "New post"


def type_date(browser, parts):
    """Into the field behind the status, part by part; Chromium runs in English."""
    browser.press("Tab")
    browser.keys(time.strftime("%m%d", parts))
    browser.keys(time.strftime("%Y", parts))
    browser.press("ArrowRight")
    browser.keys(time.strftime("%I%M%p", parts)[:5])
    found = value(browser, "#date")
    check(found == time.strftime("%Y-%m-%dT%H:%M", parts), f"the date is {found!r}")


def scheduled(stage, browser, _other):
    """A scheduled post: its local time, what brings it out, and that only this does."""
    browser.call("Emulation.setTimezoneOverride", timezoneId="Asia/Tokyo")
    try:
        scheduled_in_tokyo(stage, browser)
    finally:
        browser.call("Emulation.setTimezoneOverride", timezoneId="")


def scheduled_in_tokyo(stage, browser):
    enter(browser, stage)
    write(browser, "Market day", "Stalls open early.")
    choose_status(browser, "s", "future")
    before = stage.desk("site")["applied"]
    save(browser, "Choose a date and a time that are still to come.")
    check(stage.desk("site")["applied"] == before, "a scheduled post without a date was sent")
    choose_status(browser, "s", "future")
    day = time.strptime("2031-05-03 10:30", "%Y-%m-%d %H:%M")
    type_date(browser, day)
    says(browser, "#date-note", "Publish what is due")
    save(browser, "Scheduled for May 3, 2031, 10:30")
    is_kept(stage, 1, status="future", date=calendar.timegm(day) - 9 * 3600, title="Market day")
    tab(browser, "future")
    says(browser, row(1), "Market day", "May 3, 2031, 10:30", "your time", "Publish what is due")
    says(browser, "#due", "don’t come out by themselves", "clock", "every few minutes")
    says(browser, "#events", "Post 1 comes out", "May 3, 2031, 10:30")
    # One that is soon due: saving another post doesn't bring it out.
    at = int(time.time()) + 6
    soon = stage.insert("Soon", "Now.", "publish", date=at)
    is_kept(stage, soon, status="future")
    browser.click("#tick")
    says(browser, "#tick-outcome p", "Done")
    if time.time() < at - 1:
        is_kept(stage, soon, status="future")
    time.sleep(max(0, at + 1.2 - time.time()))
    stage.insert("Another post")
    is_kept(stage, soon, status="future")
    browser.click("#again")
    says(browser, row(soon), "Due since", "Publish what is due")
    browser.click("#tick")
    waits(browser, f"!document.querySelector(\"{row(soon)}\")", "the post that is out isn't among the scheduled ones")
    says(browser, "#tick-outcome p", "Done: what was due is out.")
    is_kept(stage, soon, status="publish", date=at)
    is_kept(stage, 1, status="future")
    # Its date stays, to the second, when another part is changed.
    odd = calendar.timegm(day) + 17
    second = stage.insert("Odd second", status="future", date=odd)
    tab(browser, "future")
    edit(browser, second)
    is_open(browser, second, status="future")
    browser.fill("#content", "Other words.")
    save(browser, "Scheduled for")
    is_kept(stage, second, date=odd, content="Other words.")


def plugins(stage, browser, _other):
    """A plugin off and on, and the site's name, each with its outcome beside the button."""
    stage.send("activate", plugin="breaking")
    stage.insert("Council votes", status="publish")
    enter(browser, stage)
    place = "#plugins li[data-plugin=breaking]"
    says(browser, place, "breaking: on", "Turn off")
    browser.click(place + " button[aria-label]")
    says(browser, place, "breaking: off", "Off now.", "Turn on")
    check(stage.desk("site")["active"] == [] and "New: " not in stage.text("/?p=1"), "the plugin is on")
    browser.click(place + " button[aria-label]")
    says(browser, place, "breaking: on", "On now.", "Turn off")
    check(stage.desk("site")["active"] == ["breaking"] and "New: Council" in stage.text("/?p=1"), "the plugin is off")
    is_kept(stage, 1, title="Council votes")
    # Somebody else was quicker.
    stage.send("deactivate", plugin="breaking")
    browser.click(place + " button[aria-label]")
    says(browser, place, "off already", "Turn on")
    # One that changes a text as it is saved: the form then shows what is kept.
    stage.send("activate", plugin="fullstop")
    write(browser, "It rains", "All day.")
    save(browser, "Saved as a draft.", "A plugin changed the text as it was saved")
    is_open(browser, 2, title="It rains.", content="All day.")
    says(browser, "#versions", "What you typed, before a plugin changed it", "It rains")
    stage.send("deactivate", plugin="fullstop")
    # A date that is still to come, on a post to be published.
    browser.click("#clear")
    write(browser, "In a while", "Soon.")
    choose_status(browser, "pu", "publish")
    type_date(browser, time.strptime("2031-05-03 10:30", "%Y-%m-%d %H:%M"))
    says(browser, "#date-note", "the post is scheduled, and not published yet")
    browser.click("#clear")
    choose(browser, "throw")
    check(value(browser, "#name") == "Press", "a site without a name isn't called Press")
    browser.fill("#name", "Morning <i>Post</i> & Co")
    browser.click("#name-save")
    says(browser, "#name-outcome p", "Saved: pages have this name now.")
    says(browser, "h1", "Morning <i>Post</i> & Co")
    check("Morning &lt;i&gt;Post&lt;/i&gt; &amp; Co" in stage.text("/"), "pages have another name")
    # The switch of what plugins may do is asked about, and made once.
    browser.click("#profile")
    is_asked(browser, "for good")
    choose(browser, "stay")
    check(stage.desk("site")["profile"] == 1, "the profile is switched")
    browser.click("#profile")
    is_asked(browser, "for good")
    choose(browser, "switch")
    waits(browser, "document.querySelector('#profile-part').hidden", "the switch is gone")
    check(stage.desk("site")["profile"] == 2, "the profile isn't switched")


def node_away(stage, browser, _other):
    """A node that is away while a form is sent: the same command is sent again, to another member too, and done once."""
    enter(browser, stage)
    is_fold_closed(browser)
    browser.click("#cluster summary")
    browser.fill("#others", stage.url(1))
    browser.press("Tab")
    write(browser, "Fair weather", "Sun at last.")
    stage.end(0)
    browser.click("#save")
    says(browser, OUTCOME, "The site doesn’t answer.", stage.url(1), "Sending the same again", "done once")
    begun = time.monotonic()
    while not stage.posts(1):
        check(time.monotonic() - begun < 20, "the other member has no post")
        time.sleep(0.1)
    is_kept(stage, 1, 1, title="Fair weather", status="draft")
    stage.start(0)
    says(browser, OUTCOME, "Saved as a draft.", seconds=40)
    time.sleep(0.5)
    check(len(stage.posts()) == 1, f"there are {len(stage.posts())} posts of one click")
    says(browser, "#log", "new post “Fair weather”: done (1)")
    # A window that is closed while its command waits: the next one brings it to its end.
    browser.click("#clear")
    browser.fill("#others", "")
    browser.press("Tab")
    browser.value("fetchFor = fetch; fetch = (path, ...more) => path === '/command' ? Promise.reject(new TypeError('gone')) : fetchFor(path, ...more); 0")
    write(browser, "Night bus", "Line 4.")
    browser.click("#save")
    says(browser, OUTCOME, "The site doesn’t answer.")
    enter(browser, stage)
    says(browser, "#unfinished", "Sent before this page was opened", "Night bus", "Done.")
    is_kept(stage, 2, title="Night bus")
    waits(browser, "!document.querySelector('#offers').checkVisibility()", "a text that is saved isn't offered")
    if stage.is_mock:
        lost_answers(stage, browser)


def member_behind(stage, browser, _other):
    """Members that are asked in turn, of which some hear later of what was done: no older text is shown as the one that is kept."""
    browser.open(stage.front() + "/editor")
    waits(browser, "/none/.test(document.querySelector('#list-note').textContent)", "the list is there")
    write(browser, "Tides", "High water at 0.")
    stage.fall_behind()
    save(browser, "Saved as a draft.")
    waits(browser, "!document.querySelector('#discard').checkVisibility()", "the form is as the site has it")
    for number in range(1, 9):
        browser.fill("#content", f"High water at {number}.")
        browser.value(f"document.querySelector('{OUTCOME}').textContent = ''")
        save(browser, "Saved as a draft.")
        check("plugin" not in text(browser, OUTCOME), f"the page says {text(browser, OUTCOME)!r}")
        is_open(browser, 1, title="Tides", content=f"High water at {number}.")
        is_kept(stage, 1, content=f"High water at {number}.")
    press_row(browser, 1, "Move")
    says(browser, row(1) + " .outcome p", "In the trash now")
    check(not is_shown(browser, row(1) + " button[aria-label^='Edit']"), "a post in the trash can be edited")


def lost_answers(stage, browser):
    """An answer that is lost, and a node that isn't ready, of the site in memory alone."""
    member = stage.members[0]
    member.swallow_next = 1
    write(browser, "Lost answer", "It was taken.")
    browser.click("#save")
    says(browser, OUTCOME, "Saved as a draft.")
    check(len(stage.posts()) == 3, "a lost answer made two posts, or none")
    member.answer_next = [503, 503]
    browser.click("#clear")
    write(browser, "Not ready", "In a moment.")
    browser.click("#save")
    says(browser, OUTCOME, "can’t take this at the moment", "Sending the same again in 1 second")
    says(browser, OUTCOME, "Saved as a draft.")
    check(len(stage.posts()) == 4, "a node that wasn't ready made two posts, or none")
    tokens = [token for token, kind, _ in stage.site.taken if kind == "insert"]
    check(len(set(tokens)) == len(tokens) == 4, f"of four posts the tokens are {tokens}: what was done is looked up before it is sent again")
    # Given up by hand.
    member.answer_next = [503] * 200
    browser.click("#clear")
    write(browser, "Given up", "Never.")
    browser.click("#save")
    browser.click("#save-outcome button")
    says(browser, OUTCOME, "Stopped. It may still be done")
    member.answer_next = []


# What an editor has to be told, by number, and by the status of a reply.
WORDS = {
    0: "no room left", 1: "A name is empty", 2: "too long", 10: "no such post", 11: "isn’t in the trash", 12: "in the trash", 13: "10,000 posts", 14: "4,096 things are planned",
    15: "isn’t installed", 16: "on already", 17: "off already", 18: "another setting", 19: "switched already", 20: "A plugin ran too long", 99: "doesn’t know",
}
ANSWERS = {
    400: "clock of this computer", 401: "log in again", 403: "may not do this", 404: "one version", 405: "doesn’t let this through", 411: "changed what was sent",
    413: "about 3,000 words", 431: "cookies", 500: "A plugin ran too long", 501: "changed what was sent", 418: "doesn’t know",
}


def refusals(stage, browser, _other):
    """What the site refuses is told in words, where the click was, and the text stays."""
    first, second = stage.insert("First"), stage.insert("Second")
    stage.send("trash", id=second)
    enter(browser, stage)
    # What the site refuses by itself.
    write(browser, "T", "Words.")
    browser.fill("#title", "t" * 1025, True)
    save(browser, "too long: a title may have 1,024 bytes", "(Number 2.)")
    browser.fill("#title", "Long")
    most = 16_384 - 35 - len("editor-") - 8 - len("Long")
    browser.fill("#content", "c" * (most + 1), True)
    says(browser, "#room", "Too long by 1 ")
    save(browser, "Too long", "3,000 words", "(Answer 413.)")
    browser.fill("#content", "c" * 17_000, True)
    save(browser, "Too long", "3,000 words", "(Answer 413.)")
    check(len(value(browser, "#content")) == 17_000 and is_shown(browser, "#discard"), "the text is gone with its refusal")
    browser.fill("#content", "c" * most, True)
    check(text(browser, "#room").startswith("Room for"), "a post of the greatest size is called too long")
    save(browser, "Saved as a draft.")
    says(browser, "#list-note", "2 shown")
    browser.click("#clear")
    waits(browser, "document.querySelector('#write-title').textContent === 'New post'", "the form is empty")
    browser.click("#save")
    says(browser, OUTCOME, "Nothing is written yet.")
    stage.send("trash", id=first)
    press_row(browser, first, "Move")
    says(browser, row(first) + " .outcome p", "in the trash: restore it first", "(Number 12.)")
    tab(browser, "trash")
    stage.send("untrash", id=first)
    press_row(browser, first, "Restore")
    says(browser, row(first) + " .outcome p", "isn’t in the trash", "(Number 11.)")
    stage.send("delete", id=second)
    press_row(browser, second, "Restore")
    says(browser, row(second) + " .outcome p", "no such post any more", "(Number 10.)")
    if not stage.is_mock:
        return
    write(browser, "Refused", "By all numbers.")
    before = len(stage.posts())
    for fault, words in WORDS.items():
        stage.site.refuse_next = [fault]
        browser.value("document.querySelector('#save-outcome p').textContent = ''")
        save(browser, words, f"(Number {fault}.)")
    for status, words in ANSWERS.items():
        stage.members[0].answer_next = [status]
        browser.value("document.querySelector('#save-outcome p').textContent = ''")
        save(browser, words, f"(Answer {status}.)")
    check(len(stage.posts()) == before and value(browser, "#content") == "By all numbers.", "a refused text is gone, or on the site")
    save(browser, "Saved as a draft.")
    stage.site.applied = 1_000_000
    browser.click("#again")
    says(browser, "#connection", "used up all of its 1,000,000 commands")


# Elements that can be pressed or typed into, with their names and boxes.
TARGETS = """[...document.querySelectorAll('button, input, select, textarea, summary, a[href]')].filter(it => it.checkVisibility()).map(it => {
    const box = it.getBoundingClientRect();
    return [it.id || it.getAttribute('aria-label') || it.textContent, box.width, box.height, it.tagName === 'BUTTON' && it.scrollWidth > it.clientWidth];
})"""
NAMELESS = """[...document.querySelectorAll('button, input, select, textarea, iframe, summary')].filter(it => !(
    it.getAttribute('aria-label') || (it.labels && it.labels.length) || it.title || (it.textContent.trim() && !['INPUT', 'SELECT', 'TEXTAREA'].includes(it.tagName))
)).map(it => it.outerHTML)"""
WIDE = "document.documentElement.scrollWidth > innerWidth"


def measure(browser, least, seen):
    for name, width, height, is_cut in browser.value(TARGETS):
        check(not is_cut, f"the words of {name!r} are wider than it is")
        check(min(width, height) >= least - 0.01, f"the target {name!r} is {width:.0f} by {height:.0f}")
        seen.add(name)
    check(not browser.value(WIDE), "the page is wider than its window")


def is_fold_closed(browser):
    """Tokens, numbers and addresses are behind one fold."""
    for it in ("#editor", "#others", "#log", "#member"):
        check(browser.value(f"!!document.querySelector('#cluster {it}')") and not is_shown(browser, it), f"{it} isn't behind the fold")
    found = browser.value("document.body.innerText")
    check("mark" not in found.replace("Market", "") and "seq" not in found and "token" not in found, "the page speaks of tokens outside the fold")


def targets(stage, browser, _other):
    """All that can be pressed has 44 pixels at phone width; everything has a name, and outcomes are told aloud."""
    for status in ("draft", "pending", "publish", "private"):
        stage.insert("A rather long title of a post, so that it needs more than one line on a telephone " + "x" * 50, status=status)
    stage.insert("Later", status="future", date=1935567000)
    stage.insert("Old")
    stage.send("trash", id=6)
    enter(browser, stage)
    is_fold_closed(browser)
    write(browser, "Night bus", "Line 4.")
    enter(browser, stage)
    least, seen = 44 if browser.value("innerWidth") <= 700 else 24, set()
    browser.click("#cluster summary")
    for name in ("all", "future", "trash"):
        tab(browser, name)
        measure(browser, least, seen)
    browser.click("#offers button[aria-label^='Go on']")
    tab(browser, "draft")
    press_row(browser, 1, "Preview")
    says(browser, "#preview", "Preview of")
    measure(browser, least, seen)
    browser.click("#clear")
    is_asked(browser, "isn’t on the site yet")
    measure(browser, least, seen)
    choose(browser, "stay")
    for it in ("title", "content", "save", "clear", "tick", "name", "older", "preview-close", "discard", "others"):
        check(it in seen or it == "older", f"{it} wasn't measured")
    check(not browser.value(NAMELESS), f"without a name: {browser.value(NAMELESS)}")
    silent = browser.value("[...document.querySelectorAll('.outcome')].filter(it => !it.querySelector('[aria-live=polite][role=status]')).length")
    check(silent == 0 and browser.value("document.querySelectorAll('.outcome').length") > 6, f"{silent} outcomes aren't told aloud")
    # By keys alone, from the title to the button.
    browser.click("#title")
    order = []
    for _ in range(12):
        browser.press("Tab")
        order.append(browser.value("document.activeElement.id"))
        if order[-1] == "clear":
            break
    order = [it for i, it in enumerate(order) if i == 0 or it != order[i - 1]]
    check(order == ["content", "status", "date", "save", "show", "clear"], f"Tab goes to {order}")
    outline = browser.value("getComputedStyle(document.activeElement).outlineStyle")
    check(outline == "solid", f"the focus isn't shown: {outline}")


SCENES = {it.__name__: it for it in (two_browsers, many_drafts, reload_within, enter_in_title, questions, preview, scheduled, plugins, node_away, member_behind, refusals, targets)}
