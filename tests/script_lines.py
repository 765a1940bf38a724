"""Lines of scripts, as texts: what the cases of run_cases.py are made of."""
import json

# A table of rows with a key, a partition and a number, without an ordering field, and the same ordered by the number.
FIELDS = [("id", "string"), ("p", "string"), ("v", "long")]
SNAPSHOT = '{"job":"snapshot"}\n'
T0 = 1704067200000  # the clock's time where a case says no other
TIME = "20240101000000000"


def told(value):
    return json.dumps(value, ensure_ascii=False, separators=(",", ":"))


def schema(fields=FIELDS, name="r"):
    return {"type": "record", "name": name, "fields": [{"name": field, "type": kind} for field, kind in fields]}


def init_members(**changed):
    """The members of a line that makes a table; those that change to None go."""
    members = dict(job="init", name="t", schema=schema(), key="id", partition="p", ordering=False, buckets=1)
    members.update(changed)
    kept = {name: value for name, value in members.items() if value is not None}
    return {name: None if value is False else value for name, value in kept.items()}


def init(**changed):
    """A line that makes a table. Without an ordering field it is False here, so that None can take a member away."""
    return told(init_members(**changed)) + "\n"


INIT = init()
ORDERED = init(ordering="v")


def row(key, number=1, partition="x"):
    return told({"id": key, "p": partition, "v": number})


def upsert(*rows):
    return '{"job":"upsert","rows":[%s]}\n' % ",".join(rows)


def up(key, number=1, partition="x"):
    return upsert(row(key, number, partition))


def key(name, partition="x", **rank):
    return told({"partition": partition, "key": name, **rank})


def delete(*keys):
    return '{"job":"delete","keys":[%s]}\n' % ",".join(keys)


def gone(name, partition="x", **rank):
    return delete(key(name, partition, **rank))


def snapshot(at):
    return told({"job": "snapshot", "at": at}) + "\n"
