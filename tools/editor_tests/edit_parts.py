"""Of what the time from a key to the page's change consists: the page's own steps, told by a script that runs before
the page's; the server and the shell by HTTP, without a page; and the shell alone."""
import statistics
import subprocess
import time

from asking import Asker

# When the page sent its call, heard of the frame, had it in what it knows, and drew it, in milliseconds.
TOLD = """(() => {
  const times = window.times = {};
  const note = (name) => { times[name] ??= performance.now(); };
  const send = window.fetch;
  window.fetch = (path, ...rest) => {
    if (path === "call") note("sent");
    return send(path, ...rest);
  };
  const add = EventSource.prototype.addEventListener;
  EventSource.prototype.addEventListener = function (sort, hear) {
    const noted = (event) => { note("heard"); hear(event); note("known"); };
    return add.call(this, sort, sort === "message" ? noted : hear);
  };
  const ask = window.requestAnimationFrame;
  window.requestAnimationFrame = (draw) => ask((at) => {
    const isKnown = times.known !== undefined;
    if (isKnown) note("frame");
    times.at ??= isKnown ? at : undefined;
    draw(at);
    if (isKnown && times.at === at) times.drawn = performance.now();
  });
  addEventListener("keydown", (event) => { times.key ??= event.timeStamp; }, { capture: true });
})()"""
FORGET = "for (const name of Object.keys(window.times)) delete window.times[name]"
STEPS = (("to its call", "key", "sent"), ("server and shell", "sent", "heard"), ("what it knows", "heard", "known"),
         ("the browser's next frame", "known", "frame"), ("drawing", "frame", "drawn"))  # fmt: skip


def medians(told):
    """Of each step the median, in words."""
    found = []
    for name, begin, end in STEPS:
        times = [each[end] - each[begin] for each in told if begin in each and end in each]
        found.append(f"{name} {statistics.median(times):.1f}" if times else f"{name} ?")
    return ", ".join(found)


def timed(call, count):
    """The median milliseconds of a call, made so many times with a number each."""
    times = []
    for number in range(count):
        begun = time.perf_counter()
        call(number)
        times.append(1000 * (time.perf_counter() - begun))
    return statistics.median(times)


def by_http(address, entity, count):
    """The same edit without a page: the server and the shell, to the answer."""
    asker = Asker(address)
    asker.join()
    found = timed(lambda number: asker.told(f"insert {entity} Number={number}"), count)
    asker.leave()
    asker.close()
    return found


def by_shell(program, store, entity, count):
    """The same by the shell alone, which has the disk keep it."""
    words, pipe = [str(program), "shell", "--store", str(store)], subprocess.PIPE
    with subprocess.Popen(words, stdin=pipe, stdout=pipe) as shell:

        def insert(number):
            shell.stdin.write(f"insert {entity} Number={number}\n".encode())
            shell.stdin.flush()
            assert shell.stdout.readline() == b"done\n"

        insert(-1)
        found = timed(insert, count)
        shell.stdin.close()
    return found
