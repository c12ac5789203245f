#!/usr/bin/env python3
"""scripts/exposition.py [--library]: the text that `tower_meter` writes is in Prometheus' text format, version 0.0.4. It
reads `crates/tests_meter/stdout`, which that program has to print, by the rules of the format's description: below each
rule stands where it is checked. With --library Prometheus' own parser (Debian's `python3-prometheus-client`) has to find
the same samples; where it isn't installed, that is skipped, and said."""
import re
import sys
from fractions import Fraction

from common import TOP

NAME = r"[a-zA-Z_:][a-zA-Z0-9_:]*"
LABEL = r'([a-zA-Z_][a-zA-Z0-9_]*)="((?:[^"\\\n]|\\["\\n])*)"'
SAMPLE = re.compile(rf"({NAME})(?:\{{((?:{LABEL})(?:,{LABEL})*,?)?\}})?[ \t]+(\S+)(?:[ \t]+-?[0-9]+)?")
COMMENT = re.compile(rf"# (HELP|TYPE) ({NAME}) ?(.*)")
TYPES = {"counter", "gauge", "histogram", "summary", "untyped"}
ENDS = {"histogram": ("_bucket", "_sum", "_count"), "summary": ("", "_sum", "_count")}
ESCAPES = {r"\\": "\\", r"\"": '"', r"\n": "\n"}


class Wrong(Exception):
    """The text breaks a rule."""


def number(text):
    """A number, exactly."""
    if text in ("+Inf", "-Inf", "NaN"):
        return float(text)
    if not re.fullmatch(r"[+-]?[0-9]+(\.[0-9]+)?([eE][+-]?[0-9]+)?", text):
        raise Wrong(f"{text!r} is no number")
    return Fraction(text)


def unescaped(text):
    return re.sub(r"\\.", lambda it: ESCAPES[it[0]], text)


def sample_of(line):
    """The name of a line of a sample, its labels and its number."""
    found = SAMPLE.fullmatch(line)
    if not found:
        raise Wrong(f"no sample: {line!r}")
    labels = [(label, unescaped(value)) for label, value in re.findall(LABEL, found[2] or "")]
    if len({label for label, _ in labels}) < len(labels):
        raise Wrong(f"a label twice: {line!r}")
    return found[1], frozenset(labels), number(found[7])


def families_of(text):
    """Each metric's type and samples, in their order."""
    if text and not text.endswith("\n"):
        raise Wrong("the last line has no end")
    families, helped, current, seen = {}, set(), None, set()
    for line in text.split("\n")[:-1]:
        comment = COMMENT.fullmatch(line)
        if comment:
            word, name, rest = comment.groups()
            known = helped if word == "HELP" else families
            if name in known or (word == "HELP" and name in families):
                raise Wrong(f"a second {word} of {name}, or one after its TYPE")
            if word == "HELP":
                if re.search(r"\\(?![\\n])", re.sub(r"\\\\", "", rest)):
                    raise Wrong(f"an escape in {line!r}")
                helped.add(name)
            elif rest not in TYPES:
                raise Wrong(f"{rest!r} is no type")
            else:
                families[name], current = (rest, []), name
        elif line and not line.startswith("#"):
            name, labels, value = sample_of(line)
            ends = ENDS.get(families.get(current, ("",))[0], ("",))
            if current is None or name not in [current + end for end in ends]:
                raise Wrong(f"{name} stands apart from its TYPE")
            if (name, labels) in seen:
                raise Wrong(f"a second {line!r}")
            seen.add((name, labels))
            families[current][1].append((name, labels, value))
    if helped != set(families):
        raise Wrong(f"HELP or TYPE alone: {helped ^ set(families)}")
    return families


def check_histogram(name, samples):
    """Of each set of labels: growing bounds to +Inf, counts that don't fall, a sum, and a count that is the last bucket's."""
    series = {}
    for sample, labels, value in samples:
        key = frozenset(it for it in labels if it[0] != "le")
        series.setdefault(key, {}).setdefault(sample.removeprefix(name), []).append((dict(labels).get("le"), value))
    for key, parts in series.items():
        if set(parts) != {"_bucket", "_sum", "_count"} or len(parts["_sum"]) != 1 or len(parts["_count"]) != 1:
            raise Wrong(f"a part lacks or stands twice: {name} {set(key)}")
        bounds = [number(bound or "") for bound, _ in parts["_bucket"]]
        counts = [count for _, count in parts["_bucket"]]
        if any(low >= high for low, high in zip(bounds, bounds[1:])) or bounds[-1] != float("inf"):
            raise Wrong(f"bounds that don't grow to +Inf: {name} {set(key)}")
        if any(low > high for low, high in zip(counts, counts[1:])) or counts[-1] != parts["_count"][0][1]:
            raise Wrong(f"counts that fall, or another count at the end: {name} {set(key)}")


def check(text):
    """The samples of a text that keeps to all rules."""
    families = families_of(text)
    for name, (sort, samples) in families.items():
        if sort == "histogram":
            check_histogram(name, samples)
        elif sort == "counter" and any(value < 0 for _, _, value in samples):
            raise Wrong(f"a counter below 0: {name}")
    return {(name, labels): value for _, samples in families.values() for name, labels, value in samples}


def check_sums(samples):
    """What the meter's law says of the numbers of each service."""
    def total(name, service, **labels):
        return sum(value for (it, has), value in samples.items() if it == name
                   and {("service", service), *labels.items()} <= has)
    for service in {dict(labels)["service"] for _, labels in samples}:
        calls, ended = (total(it, service) for it in ("tower_calls_total", "tower_ended_calls_total"))
        answers = ended - total("tower_ended_calls_total", service, outcome="dropped")
        if calls != ended + total("tower_in_flight", service):
            raise Wrong(f"calls of {service!r} are lost")
        if not answers == total("tower_answers_total", service) == total("tower_answer_seconds_count", service):
            raise Wrong(f"answers of {service!r} are lost")


def refuses(text):
    try:
        check_sums(check(text))
    except Wrong:
        return True
    return False


def wrong_texts(text):
    """Texts that break one rule each, from one that breaks none."""
    first = text.index("\ntower_calls_total") + 1
    line = text[first:text.index("\n", first) + 1]
    for old, new in [
        (line, line * 2), ("# TYPE tower_in_flight gauge\n", ""), ("# HELP tower_in_flight ", "# HELP tower_calls_total "),
        (" gauge\n", " gage\n"), ('le="+Inf"', 'le="1"'), (r"\"", '"'), (r"\\n", r"\x"), (r"\n", "\n"),
        ("_sum{", "_some{"), ('{service="idle"}', '{service="idle",service="idle"}'), ('{service="idle"} 0', '{service="idle"} 0,0'),
        ('outcome="ok"} 2', 'outcome="ok"} 3'), ('kind="own"} 1', 'kind="own"} 2'),
    ]:
        if old not in text:
            raise Wrong(f"the text has no {old!r}")
        yield text.replace(old, new, 1)
    yield text[:-1]


def library_samples(text):
    from prometheus_client.parser import text_string_to_metric_families as parse
    return {(it.name, frozenset(it.labels.items())): it.value for family in parse(text) for it in family.samples}


text = (TOP / "crates/tests_meter/stdout").read_text(encoding="utf-8")
samples = check(text)
check_sums(samples)
passed = [it for it in wrong_texts(text) if not refuses(it)]
print(f"exposition: {len(samples)} samples keep to the format, {len(passed)} wrong texts pass")
if "--library" in sys.argv[1:]:
    try:
        found = library_samples(text)
    except ImportError:
        print("exposition: skipped: Debian's python3-prometheus-client isn't installed")
    else:
        same = found.keys() == samples.keys() and all(found[it] == float(samples[it]) for it in found)
        passed += [] if same else ["another reading"]
        print(f"exposition: Prometheus' parser finds {'the same' if same else 'OTHER'} samples")
sys.exit(bool(passed) or not samples)
