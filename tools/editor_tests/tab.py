"""A tab of the browser, used as a person would: by real keys, the mouse and drags. What goes wrong in it is a fault."""
import base64
import json
import time

from remote import SECONDS, SECONDS_TO_START

WIDTH, HEIGHT = 1280, 800
SECONDS_TO_DRAG = SECONDS
PAUSE = 0.01
BETWEEN_CLICKS = 0.05
# What the browser says of an expression whose page was left for another before it had a value.
LEFT = ("Inspected target navigated or closed", "Execution context was destroyed", "Cannot find context")
ALT, CONTROL, META, SHIFT = 1, 2, 4, 8
MODIFIERS = {"Alt": ALT, "Control": CONTROL, "Meta": META, "Shift": SHIFT}
# Of the keys that write nothing, or something else than their name: the code of Windows, and the text.
NAMED = {
    "Enter": (13, "\r"), "Tab": (9, ""), "Escape": (27, ""), "Backspace": (8, ""), "Delete": (46, ""), " ": (32, " "),
    "ArrowLeft": (37, ""), "ArrowUp": (38, ""), "ArrowRight": (39, ""), "ArrowDown": (40, ""), "Home": (36, ""),
    "End": (35, ""), "PageUp": (33, ""), "PageDown": (34, ""), "F2": (113, ""), "F10": (121, ""),
    "ContextMenu": (93, ""),
}  # fmt: skip
PUNCTUATION = {
    "[": 219, "]": 221, "/": 191, "-": 189, "=": 187, ",": 188, ".": 190, ";": 186, "'": 222, "+": 187, "_": 189,
}  # fmt: skip
# The middle of an element, of as much as the list around it lets one see.
CENTER = """(() => {
  const part = %s;
  if (!part) return null;
  part.scrollIntoView({ block: "nearest", inline: "nearest" });
  const own = part.getBoundingClientRect();
  const around = (part.closest(".list, .detail") ?? document.documentElement).getBoundingClientRect();
  const [left, right] = [Math.max(own.left, around.left), Math.min(own.right, around.right)];
  const [top, bottom] = [Math.max(own.top, around.top), Math.min(own.bottom, around.bottom)];
  return right > left && bottom > top ? [(left + right) / 2, (top + bottom) / 2] : null;
})()"""


class Tab:
    """A tab at an address. Its faults are exceptions, errors on the console or in the log, dialogs, and its crash."""

    def __init__(self, remote, address="about:blank"):
        self.remote, self.faults, self.drags = remote, [], []
        begin = {"url": "about:blank", "newWindow": True}
        self.target = remote.call("Target.createTarget", seconds=SECONDS_TO_START, **begin)["targetId"]
        self.session = remote.call("Target.attachToTarget", targetId=self.target, flatten=True)["sessionId"]
        remote.listeners[self.session] = self.heard
        for domain in ("Page", "Runtime", "Log", "Inspector"):
            self.call(f"{domain}.enable")
        self.call("Emulation.setFocusEmulationEnabled", enabled=True)
        self.sized()
        self.call("Page.navigate", url=address)

    def call(self, method, **words):
        return self.remote.call(method, self.session, **words)

    def heard(self, method, said):
        """Notes what an event says of drags and faults."""
        if method == "Input.dragIntercepted":
            self.drags.append(said["data"])
        elif method == "Runtime.exceptionThrown":
            details = said["exceptionDetails"]
            self.faults.append(details.get("exception", {}).get("description") or details["text"])
        elif method == "Runtime.consoleAPICalled" and said["type"] in ("error", "assert", "warning"):
            self.faults.append(f"console: {[part.get('value', part.get('description')) for part in said['args']]}")
        elif method == "Log.entryAdded" and said["entry"]["level"] in ("error", "warning"):
            self.faults.append(f"log: {said['entry']['text']} {said['entry'].get('url', '')}")
        elif method == "Page.javascriptDialogOpening":
            self.faults.append(f"a dialog opened: {said['message']}")
            self.remote.send("Page.handleJavaScriptDialog", self.session, accept=True)
        elif method == "Inspector.targetCrashed":
            self.faults.append("the tab crashed")

    def check(self):
        """That nothing has gone wrong by now."""
        self.remote.hear_all()
        assert not self.faults, f"faults in the page: {self.faults[:5]}"

    def close(self):
        self.check()
        self.remote.call("Target.closeTarget", targetId=self.target)
        del self.remote.listeners[self.session]

    def reload(self):
        """Reloads, and waits for the new page."""
        self.evaluate("document.documentElement.dataset.old = '1'")
        self.call("Page.reload")
        # Between two pages there may be no element at all.
        is_new = "document.readyState === 'complete' && document.documentElement?.dataset.old === undefined"
        self.wait(is_new, "a new page")

    def reload_often(self, pauses):
        """Asks for reloads without waiting for one, so many seconds apart. Between pages the browser refuses some."""
        sent = []
        for pause in pauses:
            sent.append(self.remote.send("Page.reload", self.session))
            time.sleep(pause)
        for number in sent:
            self.remote.heard(number, "Page.reload", SECONDS)

    def open_copy(self):
        """Opens a further tab with what this one has stored, which is `copied` then."""
        self.call("Runtime.evaluate", expression="window.copied = open(location.href)", userGesture=True)

    def evaluate(self, expression):
        """The value of an expression of JavaScript, awaited where it is a promise."""
        answer = self.call("Runtime.evaluate", expression=expression, returnByValue=True, awaitPromise=True)
        assert "exceptionDetails" not in answer, f"{expression}: {answer['exceptionDetails']}"
        return answer["result"].get("value")

    def evaluate_or_left(self, expression):
        """The same, or None where the page is left for another meanwhile."""
        try:
            return self.evaluate(expression)
        except AssertionError as fault:
            if not any(words in str(fault) for words in LEFT):
                raise
            return None

    def wait(self, expression, what, seconds=SECONDS):
        """Waits until an expression is true, and gives its value; `what` says what was waited for. An action answers
        before what it does is drawn, or comes back from the server: so both are waited for."""
        return self.wait_for(lambda: self.evaluate_or_left(expression), what, seconds)

    def wait_for(self, asked, what, seconds=SECONDS):
        end = time.monotonic() + seconds
        while True:
            value = asked()
            if value:
                return value
            self.check()
            assert time.monotonic() < end, f"not in {seconds} s: {what}; the status says {self.status()!r}"
            time.sleep(PAUSE)

    def settle(self):
        """Waits until the page has drawn what it had to, and has done what it put off until then."""
        drawn = "requestAnimationFrame(() => requestAnimationFrame(() => setTimeout(done)))"
        self.evaluate(f"new Promise((done) => {drawn})")

    def status(self):
        return self.evaluate("document.getElementById('status')?.textContent")

    def key_events(self, name, *held):
        """How a key is pressed and released."""
        code, text = NAMED.get(name) or (ord(name.upper()) if name.isalnum() else PUNCTUATION.get(name, 0), name)
        modifiers = sum(MODIFIERS[each] for each in held)
        if modifiers & (CONTROL | ALT | META):
            text = ""
        press = {"key": name, "code": self.code_of(name), "windowsVirtualKeyCode": code, "modifiers": modifiers}
        down = {"type": "keyDown", "text": text} if text else {"type": "rawKeyDown"}
        return {**down, **press}, {"type": "keyUp", **press}

    def key(self, name, *held):
        """Presses and releases a key, while modifiers are held."""
        for event in self.key_events(name, *held):
            self.call("Input.dispatchKeyEvent", **event)

    def keys(self, *pressed):
        """Presses keys, each a name or a name with its modifiers, so quickly as only the page takes them."""
        names = [(each,) if isinstance(each, str) else each for each in pressed]
        events = [event for name in names for event in self.key_events(*name)]
        for number in [self.remote.send("Input.dispatchKeyEvent", self.session, **event) for event in events]:
            self.remote.answer(number, "Input.dispatchKeyEvent")

    @staticmethod
    def code_of(name):
        if len(name) == 1 and name.isalpha():
            return f"Key{name.upper()}"
        if name.isdigit():
            return f"Digit{name}"
        return {" ": "Space", "[": "BracketLeft", "]": "BracketRight"}.get(name, name)

    def write(self, text):
        """Writes a text, key by key."""
        for letter in text:
            if letter.isascii():
                self.key(letter, *(["Shift"] if letter.isupper() else []))
            else:
                self.call("Input.insertText", text=letter)

    def center(self, expression):
        """Where the middle of the element is that an expression gives, scrolled into sight."""
        where = CENTER % expression
        self.wait(where, f"{expression} can be seen")
        self.settle()
        return self.wait(where, f"{expression} can be seen")

    def mouse(self, sort, x, y, **words):
        self.call("Input.dispatchMouseEvent", type=sort, x=x, y=y, **words)

    def click(self, expression, *held, count=1, press=0):
        """Clicks on an element, twice for a double click. `press` says how many seconds the button is held."""
        x, y = self.center(expression)
        modifiers = sum(MODIFIERS[each] for each in held)
        self.mouse("mouseMoved", x, y)
        for number in range(1, count + 1):
            # Between the clicks of a person pages draw.
            time.sleep(BETWEEN_CLICKS if number > 1 else 0)
            for sort, seconds in (("mousePressed", press), ("mouseReleased", 0)):
                self.mouse(sort, x, y, button="left", clickCount=number, modifiers=modifiers)
                time.sleep(seconds)

    def right_click(self, expression):
        x, y = self.center(expression)
        self.mouse("mouseMoved", x, y)
        for sort in ("mousePressed", "mouseReleased"):
            self.mouse(sort, x, y, button="right", clickCount=1)

    def pull(self, start, end, *held, steps=8):
        """Moves the mouse from one point to another with its button down."""
        modifiers = sum(MODIFIERS[each] for each in held)
        self.mouse("mouseMoved", *start)
        self.mouse("mousePressed", *start, button="left", clickCount=1, modifiers=modifiers)
        for step in range(1, steps + 1):
            x, y = (one + (other - one) * step / steps for one, other in zip(start, end))
            self.mouse("mouseMoved", x, y, button="left", buttons=1, modifiers=modifiers)
        self.mouse("mouseReleased", *end, button="left", clickCount=1, modifiers=modifiers)

    def wheel(self, x, y, by):
        self.mouse("mouseWheel", x, y, deltaX=0, deltaY=by)
        self.settle()

    def click_id(self, name):
        self.click(f"document.getElementById({json.dumps(name)})")

    def drag(self, source, target, down=0):
        """Drags an element onto another, so many pixels below its middle, whether the page uses the browser's drags or
        follows the pointer.

        `target` is asked only when the drag has begun, since a page may show then where things can go.
        """
        self.call("Input.setInterceptDrags", enabled=True)
        self.drags.clear()
        x, y = self.center(source)
        self.mouse("mouseMoved", x, y)
        self.mouse("mousePressed", x, y, button="left", clickCount=1)
        for step in (6, 12):
            self.mouse("mouseMoved", x + step, y + step, button="left", buttons=1)
        # Where many processes run, the browser says late that it is a drag.
        end = time.monotonic() + SECONDS_TO_DRAG
        while not self.drags and time.monotonic() < end:
            self.remote.hear(PAUSE)
        to = self.drag_over(target, down)
        if self.drags:
            self.call("Input.dispatchDragEvent", type="drop", data=self.drags[0], **to)
        self.mouse("mouseReleased", button="left", clickCount=1, **to)
        self.call("Input.setInterceptDrags", enabled=False)

    def drag_over(self, target, down):
        """Goes with what is dragged to a target, and after it where the page moves it, and answers where it is."""
        is_first, end = True, time.monotonic() + SECONDS
        while True:
            x, y = self.center(target())
            to = {"x": x, "y": y + down}
            for sort in ("dragEnter", "dragOver")[0 if is_first else 1:] if self.drags else ():
                self.call("Input.dispatchDragEvent", type=sort, data=self.drags[0], **to)
            if not self.drags:
                self.mouse("mouseMoved", button="left", buttons=1, **to)
            if self.center(target()) == [x, y]:
                return to
            is_first = False
            assert time.monotonic() < end, f"what something is dragged to doesn't stay in its place, as {to}"

    def sized(self, width=WIDTH, height=HEIGHT, zoom=1):
        """The window has so many pixels; at a zoom the page has as many fewer of its own."""
        size = {"width": width // zoom, "height": height // zoom, "deviceScaleFactor": zoom, "mobile": False}
        self.call("Emulation.setDeviceMetricsOverride", **size)

    def schemed(self, scheme):
        """Whether the page is to be light or dark."""
        self.call("Emulation.setEmulatedMedia", features=[{"name": "prefers-color-scheme", "value": scheme}])

    def picture(self):
        """What is seen, as a PNG."""
        return base64.b64decode(self.call("Page.captureScreenshot", format="png")["data"])
