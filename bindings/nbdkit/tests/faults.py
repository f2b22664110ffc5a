"""What is refused: parameters, and a system that gives no memory, thread or file. And wrong plugins, which the parts have to refuse."""

import os
import re
import shutil
import subprocess
import time

import wrong_edits
from running import HERE, Failure, Server, kill, sanitized_by, side_by_side, want

# Parameters, and words of the error that each has to get. A block of 64 pages has 262,144 bytes.
REFUSED = [
    (["size=1000000"], "a multiple of the page's 4096 bytes; 999424 and 1003520 are"),
    (["size=0"], "size=0: it is 1 to"),
    (["size=lots"], "size"),
    (["size=9223372036854775807"], "at most 4294967296 bytes, which are 1048576 sectors"),
    (["sectors=1048577"], "these are 4294971392 bytes, and a device has at most 4294967296 bytes, which are 1048576 sectors"),
    (["sectors=1048577", "page=8"], "these are 8388616 bytes, and a device has at most 8388608 bytes"),
    (["sectors=100", "blocks=5000"], "5000 blocks of 262144 bytes: a device has 3 to 4096, at most 1073741824 bytes"),
    (["sectors=100", "blocks=2"], "2 blocks of 262144 bytes: a device has 3 to 4096"),
    (["size=8G"], "at most 4294967296 bytes, which are 1048576 sectors"),
    (["size=16M", "page=8"], "at most 8388608 bytes, which are 1048576 sectors"),
    (["size=128M"], "and may take 134217728: make size= or spare= less"),
    (["size=8M", "sectors=100"], "size= and sectors= say the same"),
    (["spare=5%", "blocks=100"], "spare= and blocks= say the same"),
    (["spare=x"], "spare"),
    (["spare=12345%"], "spare=12345: it is 0 to 10000"),
    (["page=1001"], "a multiple of 8 bytes, at most 4096"),
    (["page=8192"], "page=8192: it is 1 to 4096 bytes"),
    (["pages=0"], "pages=0: it is 1 to 16384"),
    (["luns=9"], "luns=9: it is 1 to 8"),
    (["endurance=0"], "endurance=0: it is 1 to 1000000"),
    (["hosts=0"], "hosts=0: it is 1 to 500"),
    (["brooms=33"], "brooms=33: it is 0 to 32"),
    (["low=9", "high=3"], "high=3 is below low=9"),
    (["low=70", "sectors=2400", "blocks=60"], "low=70 or high=0: the device has 60 blocks"),
    (["high=61", "sectors=2400", "blocks=60"], "high=61: the device has 60 blocks"),
    (["blocks=50", "luns=4"], "50 blocks of 262144 bytes: a device has 3 to 4096, at most 1073741824 bytes, and a multiple of luns=4"),
    (["size=64M", "pages=1"], "blocks of 4096 bytes: a device has 3 to 4096"),
    (["sectors=2400", "blocks=40", "hosts=4"], "40 blocks have 10485760 bytes; 4 handles and 1 brooms keep 1572864 bytes of them "
     "(6 blocks), which leaves 8912896 for the 9830400 bytes"),
    (["worn=never"], "worn=never: it is enospc, eio or readonly"),
    (["warn=101"], "warn=101: it is 0 to 100"),
    (["age=1001"], "age=1001: it is 0 to 1000"),
    (["seed=x"], "seed"),
    (["nonsense=1"], "unknown parameter 'nonsense'"),
    (["stats=/dev/null/counts"], "/dev/null/counts: Not a directory"),
]


def start(shop, words, environment=None):
    """The status and the errors of a server that has to end by itself, or that is up: then None, and it is ended."""
    log, socket = shop.folder / "refused.log", shop.folder / "refused.socket"
    socket.unlink(missing_ok=True)
    process = shop.start(["nbdkit", "-f", "-U", socket, shop.plugin(), *words], log, env={**os.environ, **(environment or {})})
    end = time.monotonic() + 20
    while process.poll() is None and not answers(shop, socket):
        want(time.monotonic() < end, f"nbdkit {words}: neither up nor ended")
        time.sleep(0.01)
    status = process.poll()
    kill(process)
    shop.started.remove(process)
    return status, log.read_text()


def answers(shop, socket):
    if not socket.exists():
        return False
    call = ["nbdinfo", "--size", f"nbd+unix:///?socket={socket}"]
    return subprocess.run(call, stdout=subprocess.DEVNULL, stderr=subprocess.DEVNULL, timeout=20, check=False).returncode == 0


def refused_words(shop):
    for words, text in REFUSED:
        status, told = start(shop, words)
        want(status == 1 and text in told, f"{' '.join(words)}: status {status}: {told}")
    return f"{len(REFUSED)} rows"


def refused_in_turn(shop, name, texts):
    """Refuses the first, second, .. request of the plugin, until the server starts. Each refusal ends it with status 1 and an error."""
    for number in range(1, 200):
        status, told = start(shop, ["size=4M", "brooms=2", f"stats={shop.folder}/counts"], {"LD_PRELOAD": str(shop.client("refuse.so")), name: str(number)})
        if status is None:
            want(number > 1, f"{name}: nothing was refused")
            return number - 1
        want(status == 1 and any(text in told for text in texts), f"{name}={number}: status {status}: {told}")
    raise Failure(f"{name}: the server never starts")


def counts_beside_a_link(shop):
    """Counts are written to a file of a name of its own: where somebody has led another name, nothing is written. The file's name may be long."""
    victim, stats = shop.folder / "victim", shop.folder / "c"
    victim.write_text("as it was")
    (shop.folder / "c.new").symlink_to(victim)
    for path in (stats, shop.folder / ("c" * 240)):
        status, told = start(shop, ["size=4M", f"stats={path}"])
        want(status is None and path.read_text().startswith("name,number"), f"no counts were written: {told}")
    want(victim.read_text() == "as it was", "counts were written through a link")
    left = [path.name[:20] for path in shop.folder.iterdir() if ".new" in path.name and path.name != "c.new"]
    want(not left, f"files are left: {left}")


def refused_resources(shop):
    counts_beside_a_link(shop)
    memory = refused_in_turn(shop, "REFUSE_ALLOCATION", ("no memory", "Cannot allocate memory"))
    threads = refused_in_turn(shop, "REFUSE_THREAD", ("no thread for",))
    signalled, told = start(shop, ["size=4M", f"stats={shop.folder}/counts"], {"LD_PRELOAD": str(shop.client("refuse.so")), "SIGNAL_AT_RENAME": "1"})
    want(signalled is None, f"SIGUSR1 just after the first counts ended the server with status {signalled}: {told}")
    server = Server(shop, "size=4M")
    shutil.rmtree(server.stats.parent)  # the counts can't be written at the end: that is told, and the server ends well
    server.process.terminate()
    want(server.process.wait(20) == 0, "a server whose counts can't be written ended badly")
    return f"{memory} allocations and {threads} starts of threads refused in turn"


def help_and_page(shop):
    told = shop.run(["nbdkit", shop.plugin(), "--help"])
    dumped = dict(line.split("=", 1) for line in shop.run(["nbdkit", shop.plugin(), "--dump-plugin"]).splitlines())
    want(dumped["name"] == "mintlintel" and dumped["thread_model"] == "parallel" and dumped["mintlintel_max_page"] == "4096", str(dumped))
    page = HERE / "nbdkit-mintlintel-plugin.pod"
    shop.run(["podchecker", "-warnings", page])
    text = page.read_text()
    for line in told.splitlines():
        for word in line.split("  ")[0].replace(",", " ").split():
            name = word.replace("[size=]", "size=").split("=")[0]
            if "=" in word:
                want(f"B<{name}=" in text or f"B<[>{name}=" in text.replace("B<[>B<", "B<[>"), f"the page doesn't have {name}=")
    shop.run(["man", "--warnings", "-l", HERE / "out/nbdkit-mintlintel-plugin.1"])
    return ""


def whole_edits():
    """The edits of the wrong plugins, each of which can be made."""
    edits = wrong_edits.edits(HERE / "wrong.edits")
    for edit in edits:
        edit.changed(HERE)
    return edits


def wrong_plugin(shop, edit):
    """The plugin with the changes of an edit, in a folder of its own, with the objects of the plugin itself that are as they would be."""
    kind = edit.part.split("_")[-2] if edit.part.endswith("_sanitizer") else ""
    folder = shop.folder / "wrong" / edit.name
    shutil.copytree(HERE, folder, ignore=shutil.ignore_patterns("out", "tests"))
    (folder / "out").mkdir()
    for built in (HERE / "out" / kind).glob("*.o"):
        shutil.copy2(built, folder / "out")
    (folder / edit.file).write_text(edit.changed(folder))
    flags = [f"CFLAGS={sanitized_by(kind)}"] if kind else []
    place = [f"{name}={(HERE / value).resolve()}" for name, value in (("LIBRARY", os.environ.get("LIBRARY", "../out/libmintlintel.a")),
                                                                     ("INCLUDE", os.environ.get("INCLUDE", "../include")))]
    shop.run(["make", "-s", "-C", folder, *place, *flags, "out/nbdkit-mintlintel-plugin.so"])
    return folder / "out/nbdkit-mintlintel-plugin.so"


def refusal(shop, edit, parts):
    """What a part says against a wrong plugin, in one line; None where it passes. A plugin that can't be built fails the check itself."""
    shop.end_kept()
    shop.wrong, shop.changed = wrong_plugin(shop, edit), edit.file
    try:
        parts[edit.part](shop)
        return None
    except Failure as failure:
        return " ".join(str(failure).split())
    finally:
        shop.end_all()
        shop.end_kept()
        shop.wrong, shop.changed = None, ""


def is_refused(shop, edit, parts):
    """Whether a wrong plugin is refused for the reason that it names, which is told."""
    told = refusal(shop, edit, parts)
    found = told and re.search(edit.why, told)
    other = f"NOT REFUSED for {edit.why!r}, but: {told[:1000]}" if told else "NOT REFUSED"
    print(f"nbdkit:   {edit.name}: {f'refused: {found[0][:160]}' if found else other}", flush=True)
    return bool(found)


def wrong_plugins(shop, parts, alone):
    """Each wrong plugin is refused by the part that it names, which the plugin itself has passed, and for the reason that it names: a
    client that is out of time, or a test that can't be built, refuses nothing unless that is the reason."""
    edits = whole_edits()
    shop.options.long = False
    beside = sorted((edit for edit in edits if edit.part not in alone), key=lambda edit: "didn't end" not in edit.why)  # a deadlock takes longest
    failed = [edit.name for edit, is_so in zip(beside, side_by_side(shop, beside, lambda one, edit: is_refused(one, edit, parts))) if not is_so]
    failed += [edit.name for edit in edits if edit.part in alone and not is_refused(shop, edit, parts)]
    want(not failed, f"not refused for their reasons: {', '.join(failed)}")
    return f"{len(edits)} wrong plugins refused, each for its reason"
