"""What a run of a script does, from the description of the program alone: the steps of its jobs, the files that they
make, the fold, and the printed text. Nothing of the program's own is used. `script_language.py` is the language, and
`table_files.py` the names and bytes of files.

`run` plays a script over files in memory, of which the listed changing calls fail or find that their file exists, and
says how it has to end.
"""
import re
from collections import namedtuple

from script_language import FIRST_TIME, LAST_TIME, LEAST, MOST, MOST_SCRIPT, BadLine, read_script, time_text
from table_files import (META_FIELDS, PROPERTIES, avro_row, compact, completed_text, content_of, data_block,
                         delete_block, deleted, file_id, inflight_text, log_name, meta_texts, properties_text, range_of,
                         record, schema_text, slot_of, timeline_name)

MOST_KEY, MOST_BODY = 1000, 65536
PIECE = 16777216
USAGE = b"usage: hudi DIR run LANES\n"

# files: by their names; calls: the number of changing calls that the store got; commits: the completed instants in
# order, each with its writes; lost: by the name of its log, a block whose append failed.
Ending = namedtuple("Ending", "status text files calls commits lost")
Change = namedtuple("Change", "name bytes made")  # a file is made with these bytes, or grows by them
Put = namedtuple("Put", "partition key rank values body")
Delete = namedtuple("Delete", "partition key rank")


# ---- what a line writes

def hex_bytes(text):
    return bytes.fromhex(text) if re.fullmatch(r"([0-9a-f]{2})*", text) else None


def value_of(field, row):
    """Whether a row has a value of a field's type, and the value."""
    if field.name not in row:
        return field.nullable, None
    value = row[field.name]
    if value is None:
        return field.nullable, None
    if field.kind == "boolean":
        return isinstance(value, bool), value
    if field.kind in ("int", "long"):
        bound = 2**31 if field.kind == "int" else 2**63
        return type(value) is int and -bound <= value < bound, value
    if not isinstance(value, str):
        return False, None
    if field.kind == "string":
        return True, value
    data = hex_bytes(value)
    return data is not None, data


def refused_place(key, partition):
    """Why a write has no key or no partition."""
    if not 1 <= len(key.encode()) <= MOST_KEY:
        return b"no_key"
    if not re.fullmatch(r"[A-Za-z0-9_=-][A-Za-z0-9_=.-]{0,199}", partition):
        return b"bad_partition"
    return None


def put_of(props, row):
    """The write of a row, or why there is none."""
    values = {}
    for place, field in enumerate(props.fields):
        fits, values[field.name] = value_of(field, row)
        if not fits:
            return b"mismatch %d" % place
    if set(row) - set(values):
        return b"mismatch %d" % len(props.fields)
    key, partition = values[props.key], values[props.partition]
    rank = 0 if props.ordering is None else values[props.ordering]
    refused = refused_place(key, partition) or (b"no_ordering" if rank is None else None)
    if refused:
        return refused
    body = avro_row(props.fields, values.values())
    return Put(partition, key, rank, values, body) if len(body) <= MOST_BODY else b"too_large"


def delete_of(props, key):
    rank = MOST if key.rank is None else key.rank
    write = Delete(key.partition, key.key, 0 if props.ordering is None else rank)
    return refused_place(key.key, key.partition) or write


def batch_of(props, job):
    """The writes of a line, or its first refusal as it is printed."""
    batch = []
    for place, item in enumerate(job.what):
        write = put_of(props, item) if job.kind == "upsert" else delete_of(props, item)
        if isinstance(write, bytes):
            return b"bad_row %d " % place + write
        batch.append(write)
    return batch


# ---- the fold and what is printed

def fold(commits):
    """The rows that are left of commits in the order of time: a greater rank stays, of equal ranks the later write."""
    table = {}
    for time, writes in commits:
        for place, write in enumerate(writes):
            key = write.partition, write.key.encode()
            if key in table and table[key][0].rank > write.rank:
                continue
            if isinstance(write, Put):
                table[key] = write, time, place
            else:
                table.pop(key, None)
    return [table[key] for key in sorted(table)]


def printed_row(put, time, place):
    instant = time_text(time).decode()
    values = {name: value.hex() if isinstance(value, bytes) else value for name, value in put.values.items()}
    return {"_hoodie_commit_seqno": f"{instant}_0_{place}", "_hoodie_commit_time": instant, **values}


def answer_rows(time, commits):
    """A snapshot at a time, or where nothing is completed."""
    told = time_text(time) if time is not None else b"none"
    return b"rows " + told + b" " + compact([printed_row(*row) for row in fold(commits)])


# ---- a run

class Clock:
    """Gives answers in turn, and the last of them again and again."""

    def __init__(self, answers):
        self.answers, self.turn = answers, -1

    def now(self):
        self.turn = min(self.turn + 1, len(self.answers) - 1)
        return self.answers[self.turn]


class Fault(Exception):
    """A call of the store failed."""


class Exists(Exception):
    """A file that was to be made is there."""


class Store:
    """Files in memory. The changing calls of some numbers fail: an append leaves a prefix, a creation nothing. Those of
    other numbers, which are creations, answer that their file exists."""

    def __init__(self, names=(), failing=(), prefix=0, existing=()):
        self.files = {name: b"" for name in names}
        self.failing, self.existing, self.prefix, self.calls = set(failing), set(existing), prefix, 0
        self.changes, self.lost = [], {}

    def fails(self):
        self.calls += 1
        return self.calls - 1 in self.failing

    def create(self, name, data):
        if self.fails():
            raise Fault
        if self.calls - 1 in self.existing:
            raise Exists
        self.files[name] = data
        self.changes.append(Change(name, data, True))

    def append(self, name, data):
        fails = self.fails()
        left = data[:self.prefix] if fails else data
        if left:
            self.files[name] = self.files.get(name, b"") + left
            self.changes.append(Change(name, left, False))
        if fails:
            self.lost[name] = data
            raise Fault


class Slice:
    """The logs of a file group: those that were placed, and the version in use, nameless before its first append."""

    def __init__(self):
        self.version, self.name, self.logs = 1, None, {}


class Table:
    """The table of a run: what its jobs have written, and the marks of their steps."""

    def __init__(self, props, store, clock):
        self.props, self.store, self.clock = props, store, clock
        self.greatest = FIRST_TIME
        self.attempts = 0
        self.slices = {}  # by partition and slots
        self.commits = {}  # the writes of each completed instant
        self.pins = 0
        self.marks = []

    def mark(self, job, step, reply, a=0, b=0):
        self.marks.append(b"mark 1 %d %s %s %d %d\n" % (job.line, step, reply, a, b))

    def leave(self, job, time, answer):
        self.mark(job, b"abandon", b"done", time)
        return answer

    def create(self, job, step, name, data):
        """Why a file isn't made, or None."""
        try:
            self.store.create(name, data)
        except Fault:
            self.mark(job, step, b"fault")
            return b"fault"
        except Exists:
            self.mark(job, step, b"damaged")
            return b"damaged " + name + b" exists 0"
        return None

    # -- writing

    def write(self, job):
        batch = batch_of(self.props, job)
        if isinstance(batch, bytes):
            return batch
        now = self.clock.now()
        if self.greatest == LAST_TIME:
            self.mark(job, b"begin", b"time_over")
            return b"time_over"
        time = max(self.greatest + 1, min(now, LAST_TIME))
        failure = self.create(job, b"begin", timeline_name(time, b".requested"), b"")
        if failure:
            return failure
        self.greatest = time
        self.mark(job, b"begin", b"began", time)
        return self.write_at(job, time, batch)

    def groups_of(self, batch):
        """The groups that a batch writes to, by partition and slots, each with its writes and their places."""
        groups = {}
        for place, write in enumerate(batch):
            slots = range_of(slot_of(write.key.encode()), self.props.buckets)
            groups.setdefault((write.partition, slots), []).append((place, write))
        return dict(sorted(groups.items()))

    def write_at(self, job, time, batch):
        table, groups = self.props.name, self.groups_of(batch)
        failure = self.create(job, b"enter", timeline_name(time, b".inflight"), inflight_text(table, groups))
        if failure:
            return self.leave(job, time, failure)
        self.mark(job, b"enter", b"entered", len(groups))
        for group, writes in groups.items():
            if not self.append(job, group, self.block(job, time, group, writes)):
                return self.leave(job, time, b"fault")
        counts = [len(writes) for writes in groups.values()]
        failure = self.create(job, b"finish", timeline_name(time, b""), completed_text(table, groups, counts))
        if failure:
            return self.leave(job, time, failure)
        self.commits[time] = batch
        self.mark(job, b"finish", b"completed", time)
        return b"committed " + time_text(time)

    def block(self, job, time, group, writes):
        """The block of an instant's writes in a group."""
        if job.kind == "delete":
            return delete_block(time, content_of([deleted(write.key, write.rank) for _, write in writes]))
        partition, slots = group
        file = file_id(self.props.name, partition, slots)
        records = [record(meta_texts(time, place, put.key, partition, file), put.body) for place, put in writes]
        return data_block(time, schema_text(self.props, META_FIELDS), content_of(records))

    def append(self, job, group, data):
        """Whether a block was placed. What failed takes its version."""
        used = self.slices.setdefault(group, Slice())
        if used.name is None:
            used.name = log_name(self.props.name, *group, used.version, self.attempts)
            self.attempts += 1
        try:
            self.store.append(used.name, data)
        except Fault:
            used.version, used.name = used.version + 1, None
            self.mark(job, b"append", b"fault")
            return False
        placed = used.logs.get(used.version, b"")
        used.logs[used.version] = placed + data
        self.mark(job, b"append", b"placed", used.version, len(placed))
        return True

    # -- reading

    def latest(self):
        return max(self.commits, default=None)

    def snapshot(self, job):
        if job.what is not None and job.what not in self.commits:
            self.mark(job, b"pin", b"not_completed", job.what)
            return b"not_completed " + time_text(job.what)
        time = self.latest() if job.what is None else job.what
        self.pins += 1
        pin = self.pins
        self.mark(job, b"pin", b"pinned", time or 0, pin)
        for number, data in enumerate(self.logs() if time is not None else []):
            for at in range(0, len(data), PIECE):
                self.mark(job, b"read", b"bytes", number, at)
        self.mark(job, b"unpin", b"done", pin)
        commits = [(commit, self.commits[commit]) for commit in sorted(self.commits) if commit <= (time or 0)]
        return answer_rows(time, commits)

    def logs(self):
        """The placed bytes of all logs: by group, and then by version."""
        return [used.logs[version] for _, used in sorted(self.slices.items()) for version in sorted(used.logs)]

    def do(self, job):
        return self.snapshot(job) if job.kind == "snapshot" else self.write(job)


def run_jobs(jobs, table):
    """The status and the text of a run."""
    lines, failed = [], False
    for job in jobs:
        answer = table.do(job)
        failed = failed or answer.startswith((b"fault", b"damaged"))
        lines.append(b"%d %s %s\n" % (job.line, job.kind.encode(), answer))
    return int(failed), b"".join(lines + table.marks)


def play(script, store, clock):
    """The status and the text of a script over a store, and the instants that it completed."""
    if len(script) > MOST_SCRIPT:
        return 3, b"bad line 0 too_long\n", {}
    jobs = read_script(script)
    if isinstance(jobs, BadLine):
        return 3, b"bad line %d %s\n" % (jobs.number, jobs.cause.encode()), {}
    if store.files:
        return 9, b"table exists\n", {}
    if not jobs or jobs[0].kind != "init":
        return 9, b"no table\n", {}
    made, *others = jobs
    try:
        store.create(PROPERTIES, properties_text(made.what))
    except Fault:
        return 4, b"", {}
    except Exists:
        return 9, b"table exists\n", {}
    table = Table(made.what, store, Clock(clock))
    status, text = run_jobs(others, table)
    return status, b"%d init made\n" % made.line + text, table.commits


def run(script, words=("run", "1"), clock=(1704067200000,), files=(), failing_calls=(), prefix=0, existing_calls=()):
    """How a run ends."""
    store = Store([name.encode() for name in files], failing_calls, prefix, existing_calls)
    if list(words) != ["run", "1"]:
        return Ending(2, USAGE, store.files, 0, [], {})
    status, text, commits = play(script, store, clock)
    return Ending(status, text, store.files, store.calls, sorted(commits.items()), store.lost)


def changes_of(script, clock):
    """What a good run of a script does to the files, in order, and the instants that it completes, in order."""
    store = Store()
    _, _, commits = play(script, store, clock)
    return store.changes, sorted(commits.items())
