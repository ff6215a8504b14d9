#!/usr/bin/env python3
"""Writes clients in Python and Java from a description: generate.py NAME FOLDER < openapi.json.

They have what any generator makes of it: a class for each schema, and a method for each service. NAME is that of the files.
"""
import json
import re
import sys
from pathlib import Path

PYTHON = {"string": "str", "integer": "int", "number": "Decimal", "boolean": "bool"}
JAVA = {"string": "String", "integer": "Long", "number": "BigDecimal", "boolean": "Boolean"}
LISTED = {"List<Long>": "Json::whole", "List<BigDecimal>": "Json::decimal"}


def camel(*names):
    words = re.findall(r"[A-Z]?[a-z0-9]+|[A-Z]+(?![a-z])", " ".join(names))
    return "".join(word[0].upper() + word[1:] for word in words)


def snake(name):
    return "_".join(re.findall(r"[A-Z]?[a-z0-9]+|[A-Z]+(?![a-z])", name)).lower()


def lower_camel(name):
    return camel(name)[0].lower() + camel(name)[1:]


class Types:
    """The classes of a document, and how types are called in both languages."""

    def __init__(self, schemas):
        self.classes = {}
        # (a Trial is for explanations alone, which these clients don't ask by themselves)
        for name in sorted(it for it in schemas if not it.endswith("Trial")):
            self.type(schemas[name], camel(name))

    def type(self, schema, name):
        """A type as (Python, Java, class or None, whether it is a list)."""
        if schema.get("type") == "array":
            python, java, of, _ = self.type(schema["items"], name)
            return f"list[{python}]", f"List<{java}>", of, True
        if schema.get("type") == "object" and "properties" in schema:
            required = schema.get("required", [])
            self.classes[name] = []
            for key, part in schema["properties"].items():
                optional = key not in required or part.get("nullable", "type" not in part)
                self.classes[name].append((key, key in required, optional, *self.type(part, name + camel(key))))
            self.classes[name].sort(key=lambda it: (not it[1], it[0]))
            return name, name, name, False
        kind = schema.get("type")
        return PYTHON.get(kind, "Any"), JAVA.get(kind, "Object"), None, False


PYTHON_HEAD = '''"""A client of {title}, made by generate.py."""
from __future__ import annotations

import json
import urllib.error
import urllib.parse
import urllib.request
from dataclasses import dataclass
from decimal import Decimal
from typing import Any


def _write(value):
    if isinstance(value, dict):
        return "{{" + ",".join(json.dumps(key) + ":" + _write(part) for key, part in value.items()) + "}}"
    if isinstance(value, list):
        return "[" + ",".join(map(_write, value)) + "]"
    return format(value, "f") if isinstance(value, Decimal) else json.dumps(value)


class _Value:
    """A value with named parts; FIELDS has the key of each, whether it is required, and its class."""

    FIELDS: dict[str, tuple[str, bool, Any]] = {{}}

    def to_json(self):
        made = {{}}
        for name, (key, required, _) in self.FIELDS.items():
            value = getattr(self, name)
            if value is not None or required:
                made[key] = _plain(value)
        return made

    @classmethod
    def from_json(cls, value):
        if value is None:
            return None
        return cls(**{{name: _read(of, value.get(key)) for name, (key, _, of) in cls.FIELDS.items()}})


def _plain(value):
    if isinstance(value, list):
        return [_plain(item) for item in value]
    return value.to_json() if isinstance(value, _Value) else value


def _read(of, value):
    if of is None:
        return value
    return [_read(of, item) for item in value] if isinstance(value, list) else of().from_json(value)


class ProblemError(Exception):
    """The service refuses a request; `problem` says why."""

    def __init__(self, problem):
        super().__init__(f"{{problem.status}} {{problem.type}}: {{problem.detail or problem.title}}")
        self.problem = problem
'''

PYTHON_CLIENT = '''

class Client:
    """Asks the services at a URL."""

    def __init__(self, url="http://127.0.0.1:8080", token=None, timeout=30):
        self.url, self.token, self.timeout = url, token, timeout

    def _ask(self, path, body, client, request_id, explain):
        headers = {"Content-Type": "application/json", "X-Client": client, "X-Request-Id": request_id,
                   "Authorization": self.token and "Bearer " + self.token}
        url = self.url + path + ("?explain=true" if explain else "")
        request = urllib.request.Request(url, _write(body).encode(), {key: text for key, text in headers.items() if text})
        try:
            with urllib.request.urlopen(request, timeout=self.timeout) as answer:
                return json.load(answer, parse_float=Decimal)
        except urllib.error.HTTPError as problem:
            raise ProblemError(Problem.from_json(json.load(problem))) from None
'''

PYTHON_CALL = '''
    def {id}(self, inputs: {name}Inputs, client=None, request_id=None, explain=False) -> {name}Answer:
        """{said}."""
        return {name}Answer.from_json(self._ask("{path}", inputs.to_json(), client, request_id, explain))

    def {id}_list(self, inputs: list[{name}Inputs], client=None, request_id=None, explain=False) -> list[{name}Answer | Problem]:
        """{said}, for each of a list."""
        answers = self._ask("{path}", _plain(inputs), client, request_id, explain)
        return [({name}Answer if "result" in it else Problem).from_json(it) for it in answers]
'''


def python(title, types, calls):
    text = [PYTHON_HEAD.format(title=title)]
    for name, fields in sorted(types.classes.items()):
        text.append(f"\n\n@dataclass\nclass {name}(_Value):\n")
        for key, required, optional, kind, *_ in fields:
            text.append(f"    {snake(key)}: {kind}{' | None' if optional else ''}{'' if required else ' = None'}\n")
        text.append("\n    FIELDS = {\n")
        for key, required, _, _, _, of, _ in fields:
            text.append(f"        {snake(key)!r}: ({key!r}, {required}, {'lambda: ' + of if of else None}),\n".replace("'", '"'))
        text.append("    }\n")
    text.append(PYTHON_CLIENT)
    text += [PYTHON_CALL.format(**call) for call in calls]
    return "".join(text)


JAVA_HEAD = '''import java.math.BigDecimal;
import java.net.URI;
import java.net.http.HttpClient;
import java.net.http.HttpRequest;
import java.net.http.HttpRequest.BodyPublishers;
import java.net.http.HttpResponse.BodyHandlers;
import java.time.Duration;
import java.util.ArrayList;
import java.util.LinkedHashMap;
import java.util.List;
import java.util.Map;

/** A client of {title}, made by generate.py. It needs Json.java. */
public class {file} {{
    private final HttpClient client = HttpClient.newBuilder().version(HttpClient.Version.HTTP_1_1).build();
    private final String url;
    private final String token;

    /** Asks the services at a URL; the token may be null. */
    public {file}(String url, String token) {{
        this.url = url;
        this.token = token;
    }}

    /** The service refuses a request. */
    public static class ProblemException extends Exception {{
        public final Problem problem;

        ProblemException(Problem problem) {{
            super(problem.status() + " " + problem.type() + ": " + (problem.detail() != null ? problem.detail() : problem.title()));
            this.problem = problem;
        }}
    }}

    /** What a request of a list comes to: an answer, or a problem; the other one is null. */
    public record Outcome<T>(T answer, Problem problem) {{}}

    private Object ask(String path, Object body, String client, String requestId, boolean explain) throws Exception {{
        var request = HttpRequest.newBuilder(URI.create(url + path + (explain ? "?explain=true" : ""))).timeout(Duration.ofSeconds(30))
                .header("Content-Type", "application/json").POST(BodyPublishers.ofString(Json.write(body)));
        if (client != null) request.header("X-Client", client);
        if (requestId != null) request.header("X-Request-Id", requestId);
        if (token != null) request.header("Authorization", "Bearer " + token);
        var answer = this.client.send(request.build(), BodyHandlers.ofString());
        Object read = Json.read(answer.body());
        if (answer.statusCode() != 200) throw new ProblemException(Problem.fromJson(read));
        return read;
    }}
'''

JAVA_CALL = '''
    /** {said}. Client and requestId may be null. */
    public {name}Answer {id}({name}Inputs inputs, String client, String requestId, boolean explain) throws Exception {{
        return {name}Answer.fromJson(ask("{path}", inputs.toJson(), client, requestId, explain));
    }}

    /** {said}, for each of a list. */
    public List<Outcome<{name}Answer>> {id}List(List<{name}Inputs> inputs, String client, String requestId, boolean explain)
            throws Exception {{
        List<Object> body = new ArrayList<>();
        for (var it : inputs) body.add(it.toJson());
        List<Outcome<{name}Answer>> answers = new ArrayList<>();
        for (Object it : (List<?>) ask("{path}", body, client, requestId, explain)) {{
            boolean is = ((Map<?, ?>) it).containsKey("result");
            answers.add(new Outcome<>(is ? {name}Answer.fromJson(it) : null, is ? null : Problem.fromJson(it)));
        }}
        return answers;
    }}
'''


def java_record(name, fields):
    parts = ", ".join(f"{kind} {lower_camel(key)}" for key, _, _, _, kind, _, _ in fields)
    text = [f"\n    public record {name}({parts}) {{\n        Map<String, Object> toJson() {{\n"
            "            Map<String, Object> made = new LinkedHashMap<>();\n"]
    for key, required, _, _, _, of, many in fields:
        own = lower_camel(key)
        value = own if not of else f"{own} == null ? null : {own}.stream().map({of}::toJson).toList()" if many else \
            f"{own} == null ? null : {own}.toJson()"
        text.append(f"            {'' if required else f'if ({own} != null) '}made.put({json.dumps(key)}, {value});\n")
    text.append("            return made;\n        }\n\n"
                f"        static {name} fromJson(Object value) {{\n            if (value == null) return null;\n"
                f"            var of = (Map<?, ?>) value;\n            return new {name}(")
    reads = []
    for key, _, _, _, kind, of, many in fields:
        got = f"of.get({json.dumps(key)})"
        if of and many:
            reads.append(f"{got} == null ? null : ((List<?>) {got}).stream().map({of}::fromJson).toList()")
        elif of:
            reads.append(f"{of}.fromJson({got})")
        elif many:
            reads.append(f"Json.list({got}, {LISTED.get(kind, f'it -> ({kind[5:-1]}) it')})")
        else:
            reads.append({"Object": got, "BigDecimal": f"Json.decimal({got})", "Long": f"Json.whole({got})"}.get(kind, f"({kind}) {got}"))
    return "".join(text) + ",\n                    ".join(reads) + ");\n        }\n    }\n"


def java(title, file, types, calls):
    text = [JAVA_HEAD.format(title=title, file=file)]
    text += [JAVA_CALL.format(**call) for call in calls]
    text += [java_record(name, fields) for name, fields in sorted(types.classes.items())]
    return "".join(text) + "}\n"


def main():
    name, folder = sys.argv[1], Path(sys.argv[2])
    page = json.load(sys.stdin)
    types, calls = Types(page["components"]["schemas"]), []
    for path, methods in sorted(page["paths"].items()):
        if path.startswith("/v1/services/"):
            it = methods["post"]
            calls.append({"id": it["operationId"], "name": camel(it["operationId"]), "path": path, "said": it["summary"]})
    (folder / f"{name}.py").write_text(python(name, types, calls))
    (folder / f"{camel(name)}.java").write_text(java(name, camel(name), types, calls))


main()
