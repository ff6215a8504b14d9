"""The description of each service, and the clients that it gives."""

from __future__ import annotations

import json
import os
import shutil
import subprocess
import sys
from pathlib import Path

from serving.service import PATIENCE, Service, install
from suite import TOP

SCHEMA = Path("/usr/share/openapi-specification/schemas/v3.0/schema.json")


def described(programs: list[str], folder: Path) -> None:
    """The description of each example holds to the schema of OpenAPI 3.0, and its examples are answered."""
    code = ("import json, sys, jsonschema\n"
            "jsonschema.Draft4Validator(json.load(open(sys.argv[1]))).validate(json.load(open(sys.argv[2])))\n")
    if not SCHEMA.exists() or subprocess.run(["/usr/bin/python3", "-c", "import jsonschema"], capture_output=True).returncode:
        install("openapi-specification", "python3-jsonschema")
    for model in [*sorted((TOP / "examples").glob("*.json")), *sorted((TOP / "examples" / "dmn").glob("*.dmn"))]:
        service = Service(programs, folder, model, "--processes", 1)
        _, page = service.ask("", path="/openapi.json", method="GET")
        assert isinstance(page, dict)
        (folder / "page.json").write_text(json.dumps(page))
        checked = subprocess.run(["/usr/bin/python3", "-c", code, str(SCHEMA), str(folder / "page.json")], capture_output=True)
        assert checked.returncode == 0, checked.stderr.decode()[-2000:]
        for path, calls in page["paths"].items():
            if path.startswith("/v1/services/"):
                for example in calls["post"]["requestBody"]["content"]["application/json"]["examples"].values():
                    assert service.ask(example["value"], path=path)[0] == 200, (path, example)
        assert service.end() == 0


def required_by_domains(programs: list[str], folder: Path) -> None:
    """An input or a component whose domain has no null is required, of a model in JSON too, unless --lenient, and the description says
    so in the terms of OpenAPI."""
    model = {"model": json.loads((TOP / "examples" / "parcel.json").read_text()), "domains": {"weight": "[1..30]", "express": "true, false, null"}}
    path = "/v1/services/shipping"
    for lenient in (False, True):
        service = Service(programs, folder, model, "--processes", 1, *["--lenient"] * lenient)
        for body, said in (({"express": True}, '"weight" is missing, and it has to be from 1 to 30'),
                           ({"weight": None, "express": True}, '"weight" is null, and it has to be from 1 to 30')):
            status, answer = service.ask(body, path=path)
            if lenient:
                assert (status, answer) == (200, {"result": None}), answer
            else:
                assert isinstance(answer, dict) and (status, answer["type"], answer["detail"], answer["pointer"]) == (
                    422, "/problems/value", said, "/weight"), answer
        assert service.ask({"weight": 31}, path=path)[0] == 422
        assert service.ask({"weight": 30}, path=path) == (200, {"result": None})
        assert service.ask({"weight": 30, "express": False}, path=path) == (200, {"result": 4700})
        _, page = service.ask("", path="/openapi.json", method="GET")
        assert isinstance(page, dict)
        inputs = page["components"]["schemas"]["shippingInputs"]
        weight = {"type": "integer", "format": "int64", "minimum": 1, "maximum": 30}
        assert inputs["properties"] == {"weight": {**weight, "nullable": True} if lenient else weight,
                                        "express": {"type": "boolean", "nullable": True}}, inputs
        assert inputs.get("required") == (None if lenient else ["weight"]), inputs
        assert service.end() == 0, service.said()
    model["domains"] = {"parcel.weight": "[1..30]"}
    model["model"] = {"inputs": ["parcel"], "decisions": [{"name": "fee", "needs": ["parcel"], "expr": "parcel.weight * 5"}], "services": [
        {"name": "fee", "outputs": ["fee"], "encapsulated": [], "inputDecisions": [], "inputData": ["parcel"]}]}
    service = Service(programs, folder, model, "--processes", 1)
    for body, said, pointer in (({}, '"parcel" is missing, and "parcel.weight" has to be from 1 to 30', "/parcel"),
                                ({"parcel": {}}, '"parcel.weight" is missing, and it has to be from 1 to 30', "/parcel/weight")):
        status, answer = service.ask(body, path="/v1/services/fee")
        assert isinstance(answer, dict) and (status, answer["detail"], answer["pointer"]) == (422, said, pointer), answer
    assert service.ask({"parcel": {"weight": 3}}, path="/v1/services/fee") == (200, {"result": 15})
    assert service.end() == 0, service.said()


# Of each model whose client is kept: a program in Python that uses it, one in Java, and what both print.
CLIENTS = {
    "parcel": ("parcel.json", """
print(client.shipping(ShippingInputs(express=False, weight=5)).result)
print([it.result if isinstance(it, ShippingAnswer) else it.type for it in client.shipping_list(
    [ShippingInputs(weight=1, express=True), ShippingInputs(weight=1.5)])])
try:
    client.shipping(ShippingInputs(weight=1.5))
except ProblemError as problem:
    print(problem.problem.status, problem.problem.pointer)
""", """
        System.out.println(client.shipping(new Parcel.ShippingInputs(false, 5), null, null, false).result());
        var all = client.shippingList(List.of(new Parcel.ShippingInputs(true, 1), new Parcel.ShippingInputs(null, 1.5)), "a", "b", false);
        System.out.println("[" + all.get(0).answer().result() + ", '" + all.get(1).problem().type() + "']");
        try {
            client.shipping(new Parcel.ShippingInputs(null, 1.5), null, null, false);
        } catch (Parcel.ProblemException problem) {
            System.out.println(problem.problem.status() + " " + problem.problem.pointer());
        }
""", "950\n[900, '/problems/value']\n422 /weight\n"),
    "loan": ("dmn/loan.dmn", """
person = SBureauStrategyDecisionService28b2f2b0InputsApplicantData(age=35, employment_status="EMPLOYED", existing_customer=False,
    marital_status="M", monthly=SBureauStrategyDecisionService28b2f2b0InputsApplicantDataMonthly(expenses=1000, income=6000, repayments=0))
answer = client.s_Bureau_Strategy_Decision_Service_28b2f2b0(SBureauStrategyDecisionService28b2f2b0Inputs(person, 900), explain=True)
print(answer.result.strategy, answer.result.bureau_call_type, len(answer.decisions) > 3)
""", """
        var monthly = new Loan.SBureauStrategyDecisionService28b2f2b0InputsApplicantDataMonthly(1000L, 6000L, 0L);
        var person = new Loan.SBureauStrategyDecisionService28b2f2b0InputsApplicantData(35L, "EMPLOYED", false, "M", monthly);
        var inputs = new Loan.SBureauStrategyDecisionService28b2f2b0Inputs(person, 900L);
        var answer = client.s_Bureau_Strategy_Decision_Service_28b2f2b0(inputs, null, null, true);
        System.out.println(answer.result().strategy() + " " + answer.result().bureauCallType() + " "
                + (answer.decisions().size() > 3 ? "True" : "False"));
""", ""),
}


def clients(programs: list[str], folder: Path) -> None:
    """The clients of examples/http are those that the descriptions of their models give, and they are answered, in both languages."""
    examples = TOP / "examples" / "http"
    kept = examples / "generated"
    for name, (model, python, java, due) in CLIENTS.items():
        service = Service(programs, folder, TOP / "examples" / model, "--processes", 1)
        _, page = service.ask("", path="/openapi.json", method="GET")
        url, file = f"http://127.0.0.1:{service.port}", name.capitalize()
        subprocess.run([sys.executable, examples / "generate.py", name, folder], input=json.dumps(page).encode(), check=True)
        for made in (f"{name}.py", f"{file}.java"):
            assert (folder / made).read_text() == (kept / made).read_text(), f"run examples/http/generate.py {name} {kept}"
        ran = subprocess.run([sys.executable, "-c", f"from {name} import *\nclient = Client('{url}')\n{python}"], capture_output=True,
                             text=True, cwd=kept, env=dict(os.environ, PYTHONDONTWRITEBYTECODE="1"), timeout=PATIENCE)
        assert ran.returncode == 0 and (ran.stdout == due or not due), (ran.stdout, ran.stderr)
        if shutil.which("javac"):
            (folder / "Main.java").write_text("import java.util.List;\n\npublic class Main {\n    public static void main(String[] words) "
                                              f"throws Exception {{\n        var client = new {file}(words[0], null);\n{java}    }}\n}}\n")
            sources = [kept / "Json.java", kept / f"{file}.java", folder / "Main.java"]
            subprocess.run(["javac", "-Werror", "-d", folder, *sources], check=True, timeout=5 * PATIENCE)
            said = subprocess.run(["java", "-cp", folder, "Main", url], capture_output=True, text=True, timeout=PATIENCE)
            assert said.stdout == ran.stdout, (said.stdout, said.stderr, ran.stdout)
        else:
            print("clients: no javac is here, so those in Java were not tried", flush=True)
        assert service.end() == 0, service.said()
