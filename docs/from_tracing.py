#!/usr/bin/env python3
"""Gathers docs/FROM_TRACING.md: each public item that stands for one of the Rust crates.

Most items name their counterpart in their `///` lines; those of the tables `ALIKE` and `OTHERS` below don't. With no word the
page is written; with `check` the script ends with 1 where the page isn't what it would write, or a table names no item.
"""
import re
import sys
from pathlib import Path

TOP = Path(__file__).resolve().parent.parent
PAGE = TOP / "docs" / "FROM_TRACING.md"
CRATES = {
    "span_handles": "Spans, their guards and calls: `tracing::span`",
    "span_futures": "Futures: `tracing::instrument`",
    "traced": "What `span!` and `event!` do with a callsite: `tracing`",
    "traced_futures": "Futures of a program that is traced: `tracing::instrument`",
    "trace_base": "Callsites, levels, dispatch, traits: `tracing_core`, `tracing::dispatcher`, `tracing_subscriber::layer`",
    "span_registry": "The registry and layered subscribers: `tracing_subscriber::registry`, `layer`",
    "env_directives": "Directives and `Targets`: `tracing_subscriber::filter`",
    "env_filter": "`EnvFilter` and `reload`: `tracing_subscriber::filter`, `reload`",
    "reload_handle": "A lock over a layer: `tracing_subscriber::reload`",
    "otel_base": "Contexts, attributes, statuses, tracers: `opentelemetry`, `opentelemetry_sdk`",
    "otel_state": "What becomes of a span: `tracing_opentelemetry`, `opentelemetry_sdk`",
    "otel_layer": "The layer and its extension of spans: `tracing_opentelemetry`",
    "traced_layer": "That extension for a program that is traced: `tracing_opentelemetry`",
    "otel_metrics": "Metrics: `tracing_opentelemetry::metrics`",
    "span_script": "Requests of a script, each of which stands for a call",
}
# Items that have the name of their counterpart.
ALIKE = {
    "span_futures": "Instrument::instrument Instrument::in_current_span WithSubscriber::with_subscriber"
    " WithSubscriber::with_current_subscriber",
    "trace_base": "AsField::as_field AsId::as_id",
    "env_directives": "DirectiveSet::add DirectiveSet::extend DirectiveSet::is_empty DirectiveSet::max_level DirectiveSet::iter"
    " DirectiveSet::directives_for DirectiveSet::enabled DirectiveSet::target_enabled Match::cares_about Match::level"
    " StaticDirective::cares_about_target Targets::new Targets::with_target Targets::with_targets Targets::with_default"
    " Targets::default_level Targets::would_enable Targets::iter Targets::extend",
    "otel_base": "SpanContext::is_valid",
    "otel_state": "IdValueStack::new IdValueStack::push IdValueStack::pop IdValueStack::len",
    "otel_layer": "OpenTelemetrySpanExt::set_parent OpenTelemetrySpanExt::add_link"
    " OpenTelemetrySpanExt::add_link_with_attributes OpenTelemetrySpanExt::context OpenTelemetrySpanExt::set_attribute"
    " OpenTelemetrySpanExt::set_status OpenTelemetrySpanExt::add_event OpenTelemetrySpanExt::add_event_with_timestamp",
}
# Items whose counterpart has another name, or stands in front of it with words of their own.
OTHERS = {
    "span_futures": {"TracedFuture::poll_in": "`Future::poll` of `Instrumented` and `WithDispatch`"},
    "traced": {
        "close": "the drop of a `tracing::Span`",
        "enter": "`tracing::Span::enter`",
        "exit": "the drop of a `tracing::span::Entered`",
        "start": "`tracing_core::Dispatch::new`",
    },
    "traced_futures": {
        "poll": "`Future::poll` of an `Instrumented`",
        "into_inner": "`Instrumented::into_inner`",
    },
    "traced_layer": {
        name: f"`OpenTelemetrySpanExt::{name}`" for name in ("set_parent", "add_link", "set_attribute", "set_status")
    },
    "trace_base": {
        "DefaultGuard::end": "the drop of a `DefaultGuard`",
        "Value": "`tracing_core::field::Value`",
        "Lane": "a thread, and its locals that `tracing_core::dispatcher` and `opentelemetry::Context` keep",
        "World": "the statics of `tracing_core::callsite` and `tracing_core::dispatcher`",
        "World::add": "`tracing_core::Dispatch::new`",
        "World::admits": "`tracing::enabled!`, and what `span!` and `event!` ask",
        "quote": "`Debug` for `str`",
    },
    "env_directives": {
        "Directive::from_level": "`From<Level>` for `Directive`",
        "Directive::from_filter": "`From<LevelFilter>` for `Directive`",
        "DirectiveSet::new": "`Default` for `DirectiveSet`",
        "DirectiveSet::clone_set": "`Clone` for `DirectiveSet`",
        "DirectiveSet::as_slice": "`DirectiveSet::directives`",
        "BadFieldName": "`tracing_subscriber::filter::BadFieldName`",
    },
    "env_filter": {
        "EnvFilter::clone_filter": "`Clone` of `tracing_subscriber`'s directives, as a filter has them",
        "CloneLayer": "`Clone` of a layer",
        "CloneLayer::clone_layer": "`Clone::clone` of a layer",
    },
    "reload_handle": {"Handle::new": "the handle that `reload::Layer::new` answers"},
    "otel_base": {
        "Attached": "`opentelemetry::ContextGuard`",
        "Context::empty": "`opentelemetry::Context::new`",
        "Context::span_context": "`opentelemetry::trace::TraceContextExt::span`, and its `span_context`",
        "ContextStack::attach": "`opentelemetry::Context::attach`",
        "ContextStack::detach": "the drop of an `opentelemetry::ContextGuard`",
        "ContextStack::current": "`opentelemetry::Context::current`",
        "Recorder": "`opentelemetry_sdk::trace::InMemorySpanExporter`, with the tracer of its provider",
        "Recorder::take": "`InMemorySpanExporter::get_finished_spans`",
        "Text::into_string": "",
        "Tracer::start": "`opentelemetry::trace::Tracer::build_with_context`",
        "Tracer::finish": "`opentelemetry::trace::Span::end`",
    },
    "otel_layer": {"OtelPart": "`Subscriber::downcast_ref` to the layer, as `OpenTelemetrySpanExt` asks it"},
    "otel_metrics": {"Instruments::new": "`Default` for `Instruments`"},
}
# Traits of which an impl is a row, where its type is one.
TRAITS = "Clone Display FromStr Ord Iterator From<&Span> From<&EnteredSpan> Filter Layer Subscriber AsField Tracer".split()
HEAD = """# From tracing

Who knows the Rust crates finds here which item stands for which of theirs, where it is, and which clauses of its contract say what it does. Most rows are gathered from the comments of the items, by `docs/from_tracing.py`, which `.ci/run` runs to see that the page is theirs; "the result" stands for a clause without a name. `DIFFERENCES.md` has what differs, and what is left out.

A callsite is a value here (`Callsite` of `trace_base`), which a macro makes in its place. What `span!` and `event!` do with one is two calls, as `USING.md` shows, or one of `traced`.
"""
ITEM = re.compile(r"\s*(?:pub )?(?:unsafe |final )?(fn|struct|enum|trait|const|type)\s+(\w+)")
CALL = re.compile(r"    ([A-Z]\w+)")
OWNER = re.compile(r"^(?:impl|pub trait|trait)\b")
CLAUSE = re.compile(r"^\s*ensures\*?(?:\s+(\w+))?\s*\{")
HEAD_OF_IMPL = re.compile(r"impl\s+(?:\w+::)*(\w+(?:<[^ ]*>)?) for (.*?)(?: where.*)? *\{")
PROMISE = re.compile(r"^ *(?:ghost (?=(?:output|does|from_str_gives|next_gives|from_gives|cmp|interest|enables|hint|named)\b)|ensures\*? ?)(\w*)\b.*")
NAMED = re.compile(r"(?:; |stands? for )((?:[^.;`]|`[^`]*`)*`[^`]+`(?:[^.;`]|`[^`]*`)*)")


def rows_of(crate):
    """The rows of a crate: what stands in Rust, the item here, its file, its clauses."""
    others = {**{name: f"`{name}`" for name in ALIKE.get(crate, "").split()}, **OTHERS.get(crate, {})}
    rows = []
    for path in sorted((TOP / "crates" / crate / "src").rglob("*.rt")):
        rows += [(*row, path.relative_to(TOP / "crates")) for row in rows_in(path.read_text().split("\n"), others)]
    items = {here for _, here, _, _ in rows} | {"Option", "str"}
    for name in others:
        if name not in items and others[name]:
            sys.exit(f"docs/from_tracing.py: {crate} has no {name}")
    return [row for row in rows if not row[1].startswith("impl ") or base_of(row[1]) in items]


def rows_in(lines, others):
    owner, comment = "", []
    for at, line in enumerate(lines):
        if OWNER.match(line):
            owner = "" if line.endswith("}") else base_of(line)
            yield from impl_row(lines, at)
        owner = "Call" if line.startswith("pub enum Call ") else "" if line.startswith("}") else owner
        if line.strip().startswith("///"):
            comment.append(line.strip()[3:].strip())
        elif not (comment and line.strip().startswith("#[")):
            yield from item_rows(lines, at, owner, " ".join(comment), others)
            comment = []


def item_rows(lines, at, owner, told, others):
    item, call = ITEM.match(lines[at]), CALL.match(lines[at]) if owner == "Call" else None
    if call and "; " in told:
        yield told.rsplit("; ", 1)[1].rstrip("."), f"Call::{call.group(1)}", ""
    if told and item:
        here = f"{owner}::{item.group(2)}" if owner and item.group(1) in ("fn", "const") else item.group(2)
        named = [tidy(name) for name in NAMED.findall(told) if is_rust(name)]
        for name in [others[here]] if here in others else named[-1:]:
            if name:
                yield name, here, clauses(lines, at) if item.group(1) == "fn" else ""


def impl_row(lines, at):
    head = HEAD_OF_IMPL.match(without_bounds(lines[at]))
    if head and head.group(1) in TRAITS and head.group(2) != "Text" and not lines[at].endswith("}"):
        end = next(end for end in range(at, len(lines)) if lines[end].startswith("}"))
        found = [row.group(1) or "the result" for row in map(PROMISE.match, lines[at:end]) if row]
        told = ", ".join(name if name == "the result" else f"`{name}`" for name in dict.fromkeys(found))
        yield f"`{head.group(1)}` for `{head.group(2)}`", f"impl {head.group(1)} for {head.group(2)}", told


def without_bounds(line):
    """A head without the parameters behind `impl`."""
    if not line.startswith("impl<"):
        return line
    depth = 0
    for at, letter in enumerate(line):
        depth += (letter == "<") - (letter == ">" and line[at - 1] != "-")
        if depth == 0 and letter == ">":
            return "impl" + line[at + 1 :]
    return line


def base_of(head):
    """The type, or the trait, that a head of an impl or a trait speaks of."""
    head = re.sub(r"^(impl|pub trait|trait)\b", "", without_bounds(head)).split("{")[0].split(" for ")[-1]
    named = re.match(r"\s*[&\w:]*?(\w+)\s*(?:[<:{ ].*)?$", head)
    return named.group(1) if named else ""


def is_rust(text):
    return re.search(r"`[A-Za-z_]+(::|`)", text) and re.search(r"`[^`]*[A-Z:][^`]*`", text)


def tidy(text):
    text = text.strip().rstrip(",")
    return re.sub(r",? (where|with|without|of which|but|and|which|that|to be)\b.*$", "", text) if text.count("`") == 2 else text


def clauses(lines, at):
    names = []
    for line in lines[at:]:
        if line.rstrip() in ("{", "    {"):
            break
        clause = CLAUSE.match(line)
        if clause:
            names.append(f"`{clause.group(1)}`" if clause.group(1) else "the result")
        if line.endswith(";"):
            break
    return ", ".join(dict.fromkeys(names))


def page():
    parts = [HEAD]
    for crate, heading in CRATES.items():
        rows = [f"| {rust} | `{here}` | `{path}` | {named} |" for rust, here, named, path in rows_of(crate)]
        parts.append(f"\n## {heading}\n\n| in Rust | here | file | clauses |\n|---|---|---|---|\n" + "\n".join(rows) + "\n")
    return "".join(parts)


def main():
    text = page()
    if sys.argv[1:] == ["check"]:
        if PAGE.read_text() != text:
            print("docs/FROM_TRACING.md isn't what docs/from_tracing.py gathers")
            sys.exit(1)
    else:
        PAGE.write_text(text)


if __name__ == "__main__":
    main()
