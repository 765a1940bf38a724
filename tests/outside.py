#!/usr/bin/env python3
"""Makes scripts, and looks over what the program printed and left in a folder, by tests/program_runs.py.

Run: outside.py script SEED LINES ROWS            prints a random script: a table, and so many upserts and deletes of so
                                                  many rows or keys, with snapshots between them
     outside.py long BYTES                        prints a script of one line of so many bytes
     outside.py rows N | keys N                   prints one with an upsert or a delete of so many rows or keys
     outside.py deep N                            prints one with a row that is nested so deep
     outside.py blocks N                          prints one of so many upserts, with blocks of 6 MB
     outside.py times                             prints one of three writes, and of snapshots at each millisecond of
                                                  the next five seconds
     outside.py cases PROGRAM                     runs each script of run_cases.py on a folder
     outside.py ran SCRIPT TEXT FOLDER FROM TO    the script ran between these times, in milliseconds
     outside.py cut SCRIPT TEXT FOLDER            the script ran, and what was written is a front of its text
     outside.py front SCRIPT FOLDER               a run was stopped: the folder has what its first steps do, and of the
                                                  next one a front of its bytes
     outside.py kills PROGRAM SCRIPT COUNT SEED   so many runs, each stopped by kill -9 at a random moment: each leaves
                                                  what `front` says
     outside.py failed SCRIPT TEXT FOLDER         some steps failed: what is told is what the folder has
     outside.py scarce PROGRAM SCRIPT LEAST STEP  runs with so many KB of memory and then more, until no job wants more:
                                                  each ends for want of memory, or what is told is what the folder has

Those that look end with status 1, and say why, where it isn't so.
"""
import json
import random
import resource
import shutil
import subprocess
import sys
import time

from program_runs import (check_end, check_files, check_reader, clock_of, clock_of_marks, content_of, failing_calls,
                          files_in, run_program, times_in)
from run_cases import bad, good
from script_language import LEAST, MOST, read_script, time_of, time_text
from script_lines import INIT, SNAPSHOT, delete, gone, init, init_members, key, row, schema, snapshot, told, up, upsert
from script_model import answer_rows, batch_of, changes_of, run

# Pieces of keys and texts: quotes, backslashes, controls, NUL, one and the same letter composed and combining, signs of
# two to four bytes, the marks that some readers take for line ends or drop, and the greatest code point.
PIECES = ["a", "b", "Z", "0", " ", '"', "\\", "/", "\x00", "\x01", "\b", "\t", "\n", "\f", "\r", "\x1f", "\x7f", "\x80",
          "\u00e9", "e\u0301", "\u05d0", "\u0430", "\u4e2d", "\u2028", "\u2029", "\ufeff", "\ufffd", "\uffff", "\uac00",
          "\U0001f600", "\U0001f468\u200d\U0001f469", "\U0010ffff", "\\u0041", "{}", "null"]
FIELDS = [("v", "long"), ("small", ["null", "int"]), ("id", "string"), ("flag", "boolean"), ("place", "string"),
          ("data", "bytes"), ("note", ["null", "string"])]
PLACES = ["x", "y=1", "A.b", "_"]
RANKS = [LEAST, MOST, -1, 0, 0, 1, 2, 3]


# ---- scripts

def text(draw, least, most):
    return "".join(draw.choice(PIECES) for _ in range(draw.randint(least, most)))


def random_row(draw, keys):
    return {
        "id": draw.choice(keys), "place": draw.choice(PLACES), "v": draw.choice(RANKS), "flag": draw.random() < 0.5,
        "small": draw.choice([None, 0, 2**31 - 1, -2**31]), "data": draw.randbytes(draw.randrange(9)).hex(),
        "note": text(draw, 0, 12)}


def random_key(draw, keys):
    rank = {"rank": draw.choice(RANKS)} if draw.random() < 0.7 else {}
    return {"partition": draw.choice(PLACES), "key": draw.choice(keys), **rank}


def spelled(draw, members):
    """A spelling of an object in JSON: non-ASCII as it is or escaped, members in any order and maybe twice."""
    members = list(members.items())
    draw.shuffle(members)
    if draw.random() < 0.1:  # of a repeated member the last counts
        members.insert(0, (members[-1][0], 7))
    if draw.random() < 0.2:  # a member that may be missing
        members = [member for member in members if member != ("small", None)]
    space, is_ascii = draw.choice(["", "", " ", "\t"]), draw.random() < 0.5
    texts = [(json.dumps(name), json.dumps(value, ensure_ascii=is_ascii)) for name, value in members]
    return "{" + ",".join(f"{space}{name}{space}:{space}{value}" for name, value in texts) + "}"


def random_write(draw, keys, rows):
    if draw.random() < 0.2:
        return '{"job":"delete","keys":[%s]}' % ",".join(spelled(draw, random_key(draw, keys)) for _ in range(rows))
    return '{"job":"upsert","rows":[%s]}' % ",".join(spelled(draw, random_row(draw, keys)) for _ in range(rows))


def random_script(seed, lines, rows):
    draw = random.Random(seed)
    keys = [text(draw, 1, 4) for _ in range(rows)]
    buckets = draw.choice([1, 2, 5])
    out = [init(name="random", schema=schema(FIELDS), partition="place", ordering="v", buckets=buckets)[:-1]]
    for _ in range(lines):
        out += [draw.choice(["", "\r"])] * (draw.random() < 0.3)  # an empty line, which is counted
        out += [SNAPSHOT[:-1]] * (draw.random() < 2 / lines)
        out.append(random_write(draw, keys, rows) + draw.choice(["", "\r"]))
    return "\n".join(out + [SNAPSHOT[:-1]]) + draw.choice(["", "\n", "\r\n\n"])


def long_script(size):
    """A script of so many bytes whose only line makes a table."""
    bare = told(init_members(schema={**schema(), "doc": ""}))
    return bare.replace('"doc":""', '"doc":"%s"' % ("d" * (size - len(bare))))


def deep_script(depth):
    """Of the levels of nesting the line, its rows and its row are three."""
    inner = "[" * (depth - 3) + "1" + "]" * (depth - 3)
    return INIT + up("a") + upsert('{"id":"b","p":"x","v":%s}' % inner) + SNAPSHOT


def times_script():
    now = time.time_ns() // 1000000
    writes = up("a", 1) + up("b", 2) + gone("a")
    return INIT + writes + "".join(snapshot(time_text(at).decode()) for at in range(now, now + 5000))


def rows_script(count):
    return INIT + upsert(*(row("k%d" % number, number) for number in range(count))) + SNAPSHOT


def keys_script(count):
    return rows_script(1000) + delete(*(key("k%d" % number) for number in range(count))) + SNAPSHOT


def blocks_script(count):
    made = init(schema=schema([("id", "string"), ("p", "string"), ("body", "string")]))
    rows = [told({"id": "k%d" % number, "p": "x", "body": "b" * 60000}) for number in range(100)]
    return made + upsert(*rows) * count


SCRIPTS = {"script": random_script, "long": long_script, "rows": rows_script, "keys": keys_script, "deep": deep_script,
           "blocks": blocks_script, "times": times_script}


# ---- checks

def check_ran(script, output, folder, start, end):
    script, found = content_of(script), files_in(folder)
    check_end(script, 0, content_of(output), found)
    before = 0
    for drawn in times_in(found):  # that of the clock, or one more than the time before, whichever is more
        least, most = (max(int(time), before + 1) for time in (start, end))
        assert least <= drawn <= most, f"time {drawn}, not from {least} to {most}"
        before = drawn


def check_cut(script, output, folder):
    found = files_in(folder)
    ending = run(content_of(script), clock=clock_of(found))
    check_files(found, ending.files)
    check_reader(found, ending.commits)
    written = content_of(output)
    assert ending.text.startswith(written), "the text isn't that of the run"
    if len(written) < len(ending.text):
        print(f"{len(written)} of {len(ending.text)} bytes of the text")


def check_cases(program):
    """The scripts of the cases, each on a folder of its own."""
    count = 0
    for case in (case for subject in (good, bad) for case in subject()):
        script = b"".join(map(bytes_of, case["script"] if isinstance(case["script"], list) else [case["script"]]))
        ran = run_program(program, "case.d", script)
        try:
            check_end(script, ran.returncode, ran.stdout, files_in("case.d"))
        except AssertionError as error:
            raise AssertionError(f"{case['name']}: {error}") from None
        shutil.rmtree("case.d", ignore_errors=True)
        count += 1
    print(f"{count} scripts")


def bytes_of(part):
    """The bytes of a part of a case."""
    if isinstance(part, str):
        return part.encode()
    return bytes.fromhex(part["hex"]) if "hex" in part else part["text"].encode() * part["times"]


def front_of(script, folder):
    """How many steps the folder has, of how many, and how many bytes of the next one. A reader finds the instants that
    these steps completed."""
    found, whole = files_in(folder), {}
    changes, commits = changes_of(script, clock_of(found))
    done = 0
    for name, data, _ in changes:
        if name not in found or not found[name].startswith(data, len(whole.get(name, b""))):
            break
        whole[name] = whole.get(name, b"") + data
        done += 1
    rest = b""
    if done < len(changes):
        name, data, made = changes[done]
        rest = found.get(name, b"")[len(whole.get(name, b"")):]
        assert data.startswith(rest) and not (made and name in found), f"no front of step {done}: {name}"
        if name in found:  # a log may have been made and got no byte yet
            whole[name] = whole.get(name, b"") + rest
    check_files(found, whole)
    if done:
        completed = sum(name.endswith(b".deltacommit") for name in found)
        table = check_reader(found, commits[:completed])
        assert len(table.torn) == (len(rest) > 0), f"rests in {table.torn}"
    return done, len(changes), len(rest)


def tell_front(script, folder):
    print("{} of {} steps, and {} bytes of the next".format(*front_of(content_of(script), folder)))


def kill_at(program, script, folder, seconds):
    with open(script, "rb") as lines:
        child = subprocess.Popen([program, folder, "run", "1"], stdin=lines, stdout=subprocess.DEVNULL)
        time.sleep(seconds)
        child.kill()
        child.wait()


def check_kills(program, script, count, seed):
    draw, begin = random.Random(int(seed)), time.monotonic()
    lines = content_of(script)
    assert run_program(program, "kill.d", lines).returncode == 0, "a run that isn't killed"
    whole = time.monotonic() - begin
    shutil.rmtree("kill.d")
    fronts, total = set(), 0
    for turn in range(int(count)):
        folder = f"kill{turn}.d"
        kill_at(program, script, folder, draw.uniform(0, whole))
        done, total, rest = front_of(lines, folder)
        fronts.add((done, rest))
        shutil.rmtree(folder, ignore_errors=True)
    within = sum(rest > 0 for _, rest in fronts)
    print(f"{len(fronts)} different fronts of {total} steps, {within} of them within a block")


def check_failed(script, output, folder):
    """Where calls failed is told by the journal. A log may end in a front of each block whose append failed."""
    output, found = content_of(output), files_in(folder)
    failing = failing_calls(output)
    ending = run(content_of(script), clock=clock_of_marks(output), failing_calls=failing)
    assert failing and output == ending.text, f"the text {output[:300]}"
    for name in set(found) | set(ending.files):
        assert name in ending.files or name in ending.lost, f"a file {name}"
        placed = ending.files.get(name, b"")
        assert found.get(name, b"").startswith(placed), f"the bytes of {name}"
        rest = found.get(name, b"")[len(placed):]
        assert ending.lost.get(name, b"").startswith(rest), f"{rest[:100]} in {name}"
    check_reader(found, ending.commits)
    print(f"{len(ending.commits)} writes are committed, and {len(failing)} calls failed")


def run_within(program, folder, script, kilobytes):
    """A run that may have so much memory."""
    def limit():
        resource.setrlimit(resource.RLIMIT_AS, (kilobytes * 1024, kilobytes * 1024))
    with open(script, "rb") as lines:
        return subprocess.run([program, folder, "run", "1"], stdin=lines, capture_output=True, preexec_fn=limit)


def check_answers(script, text, found):
    """What jobs answer, some of them that memory is wanting, is what the files have. It gives the number of those."""
    made, *jobs = read_script(script)
    commits, wanting = [], 0
    for job, line in zip(jobs, text.split(b"\n")[1:]):
        words = line.split(b" ", 3)
        assert words[:2] == [b"%d" % job.line, job.kind.encode()], f"the line {line[:100]}"
        if words[2] == b"committed":
            commits.append((time_of(words[3].decode()), batch_of(made.what, job)))
        elif words[2] == b"rows":
            told = answer_rows(commits[-1][0] if commits else None, commits)
            assert line == b"%d snapshot %s" % (job.line, told), f"the rows of line {job.line}"
        else:
            assert words[2:] == [b"memory"], f"the line {line[:100]}"
            wanting += 1
    check_reader(found, commits)
    return wanting


def wanting_within(program, script, kilobytes):
    """How many jobs wanted memory in a run that may have so much; None where it ended for want of memory."""
    shutil.rmtree("scarce.d", ignore_errors=True)
    ran = run_within(program, "scarce.d", script, kilobytes)
    assert ran.returncode in (0, 8), f"status {ran.returncode} with {kilobytes} KB: {ran.stderr[:100]}"
    return check_answers(content_of(script), ran.stdout, files_in("scarce.d")) if ran.returncode == 0 else None


def check_scarce(program, script, least, step):
    """The steps are a twentieth as long where the first run comes to its end."""
    kilobytes, step, found = int(least), int(step), []
    while wanting_within(program, script, kilobytes) is None:
        kilobytes += step
    kilobytes -= step
    while found[-1:] != [0]:
        found.append(wanting_within(program, script, kilobytes))
        kilobytes += max(step // 20, 1)
    print(f"{found.count(None)} runs ended with status 8, and {sum(map(bool, found))} did without some jobs")


COMMANDS = {"ran": check_ran, "cut": check_cut, "cases": check_cases, "front": tell_front, "kills": check_kills,
            "failed": check_failed, "scarce": check_scarce}


def main(command, words):
    if command in SCRIPTS:
        sys.stdout.buffer.write(SCRIPTS[command](*map(int, words)).encode())
        return
    try:
        COMMANDS[command](*words)
    except (AssertionError, OSError, UnicodeError) as error:
        sys.exit(f"{error}")


main(sys.argv[1], sys.argv[2:])
