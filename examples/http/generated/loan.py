"""A client of loan, made by generate.py."""
from __future__ import annotations

import json
import urllib.error
import urllib.parse
import urllib.request
from dataclasses import dataclass
from decimal import Decimal
from typing import Any


def _write(value):
    if isinstance(value, dict):
        return "{" + ",".join(json.dumps(key) + ":" + _write(part) for key, part in value.items()) + "}"
    if isinstance(value, list):
        return "[" + ",".join(map(_write, value)) + "]"
    return format(value, "f") if isinstance(value, Decimal) else json.dumps(value)


class _Value:
    """A value with named parts; FIELDS has the key of each, whether it is required, and its class."""

    FIELDS: dict[str, tuple[str, bool, Any]] = {}

    def to_json(self):
        made = {}
        for name, (key, required, _) in self.FIELDS.items():
            value = getattr(self, name)
            if value is not None or required:
                made[key] = _plain(value)
        return made

    @classmethod
    def from_json(cls, value):
        if value is None:
            return None
        return cls(**{name: _read(of, value.get(key)) for name, (key, _, of) in cls.FIELDS.items()})


def _plain(value):
    if isinstance(value, list):
        return [_plain(item) for item in value]
    return value.to_json() if isinstance(value, _Value) else value


def _read(of, value):
    if of is None:
        return value
    return [_read(of, item) for item in value] if isinstance(value, list) else of().from_json(value)


class ProblemError(Exception):
    """The service refuses a request; `problem` says why."""

    def __init__(self, problem):
        super().__init__(f"{problem.status} {problem.type}: {problem.detail or problem.title}")
        self.problem = problem


@dataclass
class Problem(_Value):
    status: int
    title: str
    type: str
    column: int | None = None
    decisions: list[Any] | None = None
    detail: str | None = None
    errors: list[Any] | None = None
    explained: str | None = None
    fault: str | None = None
    line: int | None = None
    pointer: str | None = None
    request: str | None = None
    services: list[str] | None = None

    FIELDS = {
        "status": ("status", True, None),
        "title": ("title", True, None),
        "type": ("type", True, None),
        "column": ("column", False, None),
        "decisions": ("decisions", False, None),
        "detail": ("detail", False, None),
        "errors": ("errors", False, None),
        "explained": ("explained", False, None),
        "fault": ("fault", False, None),
        "line": ("line", False, None),
        "pointer": ("pointer", False, None),
        "request": ("request", False, None),
        "services": ("services", False, None),
    }


@dataclass
class SBureauStrategyDecisionService28b2f2b0Answer(_Value):
    result: SBureauStrategyDecisionService28b2f2b0AnswerResult
    decisions: list[Any] | None = None
    explained: str | None = None

    FIELDS = {
        "result": ("result", True, lambda: SBureauStrategyDecisionService28b2f2b0AnswerResult),
        "decisions": ("decisions", False, None),
        "explained": ("explained", False, None),
    }


@dataclass
class SBureauStrategyDecisionService28b2f2b0AnswerResult(_Value):
    bureau_call_type: str | None = None
    strategy: str | None = None

    FIELDS = {
        "bureau_call_type": ("Bureau call type", False, None),
        "strategy": ("Strategy", False, None),
    }


@dataclass
class SBureauStrategyDecisionService28b2f2b0Inputs(_Value):
    applicant_data: SBureauStrategyDecisionService28b2f2b0InputsApplicantData
    required_monthly_installment: int

    FIELDS = {
        "applicant_data": ("Applicant data", True, lambda: SBureauStrategyDecisionService28b2f2b0InputsApplicantData),
        "required_monthly_installment": ("Required monthly installment", True, None),
    }


@dataclass
class SBureauStrategyDecisionService28b2f2b0InputsApplicantData(_Value):
    age: int
    employment_status: str
    existing_customer: bool
    marital_status: str
    monthly: SBureauStrategyDecisionService28b2f2b0InputsApplicantDataMonthly

    FIELDS = {
        "age": ("Age", True, None),
        "employment_status": ("Employment Status", True, None),
        "existing_customer": ("Existing Customer", True, None),
        "marital_status": ("Marital Status", True, None),
        "monthly": ("Monthly", True, lambda: SBureauStrategyDecisionService28b2f2b0InputsApplicantDataMonthly),
    }


@dataclass
class SBureauStrategyDecisionService28b2f2b0InputsApplicantDataMonthly(_Value):
    expenses: int
    income: int
    repayments: int

    FIELDS = {
        "expenses": ("Expenses", True, None),
        "income": ("Income", True, None),
        "repayments": ("Repayments", True, None),
    }


class Client:
    """Asks the services at a URL."""

    def __init__(self, url="http://127.0.0.1:8080", token=None, timeout=30):
        self.url, self.token, self.timeout = url, token, timeout

    def _ask(self, path, body, client, request_id, explain):
        headers = {"Content-Type": "application/json", "X-Client": client, "X-Request-Id": request_id,
                   "Authorization": self.token and "Bearer " + self.token}
        url = self.url + path + ("?explain=true" if explain else "")
        request = urllib.request.Request(url, _write(body).encode(), {key: text for key, text in headers.items() if text})
        try:
            with urllib.request.urlopen(request, timeout=self.timeout) as answer:
                return json.load(answer, parse_float=Decimal)
        except urllib.error.HTTPError as problem:
            raise ProblemError(Problem.from_json(json.load(problem))) from None

    def s_Bureau_Strategy_Decision_Service_28b2f2b0(self, inputs: SBureauStrategyDecisionService28b2f2b0Inputs, client=None, request_id=None, explain=False) -> SBureauStrategyDecisionService28b2f2b0Answer:
        """Asks the decision service Bureau Strategy Decision Service."""
        return SBureauStrategyDecisionService28b2f2b0Answer.from_json(self._ask("/v1/services/Bureau%20Strategy%20Decision%20Service", inputs.to_json(), client, request_id, explain))

    def s_Bureau_Strategy_Decision_Service_28b2f2b0_list(self, inputs: list[SBureauStrategyDecisionService28b2f2b0Inputs], client=None, request_id=None, explain=False) -> list[SBureauStrategyDecisionService28b2f2b0Answer | Problem]:
        """Asks the decision service Bureau Strategy Decision Service, for each of a list."""
        answers = self._ask("/v1/services/Bureau%20Strategy%20Decision%20Service", _plain(inputs), client, request_id, explain)
        return [(SBureauStrategyDecisionService28b2f2b0Answer if "result" in it else Problem).from_json(it) for it in answers]
