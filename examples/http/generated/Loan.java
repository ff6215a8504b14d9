import java.math.BigDecimal;
import java.net.URI;
import java.net.http.HttpClient;
import java.net.http.HttpRequest;
import java.net.http.HttpRequest.BodyPublishers;
import java.net.http.HttpResponse.BodyHandlers;
import java.time.Duration;
import java.util.ArrayList;
import java.util.LinkedHashMap;
import java.util.List;
import java.util.Map;

/** A client of loan, made by generate.py. It needs Json.java. */
public class Loan {
    private final HttpClient client = HttpClient.newBuilder().version(HttpClient.Version.HTTP_1_1).build();
    private final String url;
    private final String token;

    /** Asks the services at a URL; the token may be null. */
    public Loan(String url, String token) {
        this.url = url;
        this.token = token;
    }

    /** The service refuses a request. */
    public static class ProblemException extends Exception {
        public final Problem problem;

        ProblemException(Problem problem) {
            super(problem.status() + " " + problem.type() + ": " + (problem.detail() != null ? problem.detail() : problem.title()));
            this.problem = problem;
        }
    }

    /** What a request of a list comes to: an answer, or a problem; the other one is null. */
    public record Outcome<T>(T answer, Problem problem) {}

    private Object ask(String path, Object body, String client, String requestId, boolean explain) throws Exception {
        var request = HttpRequest.newBuilder(URI.create(url + path + (explain ? "?explain=true" : ""))).timeout(Duration.ofSeconds(30))
                .header("Content-Type", "application/json").POST(BodyPublishers.ofString(Json.write(body)));
        if (client != null) request.header("X-Client", client);
        if (requestId != null) request.header("X-Request-Id", requestId);
        if (token != null) request.header("Authorization", "Bearer " + token);
        var answer = this.client.send(request.build(), BodyHandlers.ofString());
        Object read = Json.read(answer.body());
        if (answer.statusCode() != 200) throw new ProblemException(Problem.fromJson(read));
        return read;
    }

    /** Asks the decision service Bureau Strategy Decision Service. Client and requestId may be null. */
    public SBureauStrategyDecisionService28b2f2b0Answer s_Bureau_Strategy_Decision_Service_28b2f2b0(SBureauStrategyDecisionService28b2f2b0Inputs inputs, String client, String requestId, boolean explain) throws Exception {
        return SBureauStrategyDecisionService28b2f2b0Answer.fromJson(ask("/v1/services/Bureau%20Strategy%20Decision%20Service", inputs.toJson(), client, requestId, explain));
    }

    /** Asks the decision service Bureau Strategy Decision Service, for each of a list. */
    public List<Outcome<SBureauStrategyDecisionService28b2f2b0Answer>> s_Bureau_Strategy_Decision_Service_28b2f2b0List(List<SBureauStrategyDecisionService28b2f2b0Inputs> inputs, String client, String requestId, boolean explain)
            throws Exception {
        List<Object> body = new ArrayList<>();
        for (var it : inputs) body.add(it.toJson());
        List<Outcome<SBureauStrategyDecisionService28b2f2b0Answer>> answers = new ArrayList<>();
        for (Object it : (List<?>) ask("/v1/services/Bureau%20Strategy%20Decision%20Service", body, client, requestId, explain)) {
            boolean is = ((Map<?, ?>) it).containsKey("result");
            answers.add(new Outcome<>(is ? SBureauStrategyDecisionService28b2f2b0Answer.fromJson(it) : null, is ? null : Problem.fromJson(it)));
        }
        return answers;
    }

    public record Problem(Long status, String title, String type, Long column, List<Object> decisions, String detail, List<Object> errors, String explained, String fault, Long line, String pointer, String request, List<String> services) {
        Map<String, Object> toJson() {
            Map<String, Object> made = new LinkedHashMap<>();
            made.put("status", status);
            made.put("title", title);
            made.put("type", type);
            if (column != null) made.put("column", column);
            if (decisions != null) made.put("decisions", decisions);
            if (detail != null) made.put("detail", detail);
            if (errors != null) made.put("errors", errors);
            if (explained != null) made.put("explained", explained);
            if (fault != null) made.put("fault", fault);
            if (line != null) made.put("line", line);
            if (pointer != null) made.put("pointer", pointer);
            if (request != null) made.put("request", request);
            if (services != null) made.put("services", services);
            return made;
        }

        static Problem fromJson(Object value) {
            if (value == null) return null;
            var of = (Map<?, ?>) value;
            return new Problem(Json.whole(of.get("status")),
                    (String) of.get("title"),
                    (String) of.get("type"),
                    Json.whole(of.get("column")),
                    Json.list(of.get("decisions"), it -> (Object) it),
                    (String) of.get("detail"),
                    Json.list(of.get("errors"), it -> (Object) it),
                    (String) of.get("explained"),
                    (String) of.get("fault"),
                    Json.whole(of.get("line")),
                    (String) of.get("pointer"),
                    (String) of.get("request"),
                    Json.list(of.get("services"), it -> (String) it));
        }
    }

    public record SBureauStrategyDecisionService28b2f2b0Answer(SBureauStrategyDecisionService28b2f2b0AnswerResult result, List<Object> decisions, String explained) {
        Map<String, Object> toJson() {
            Map<String, Object> made = new LinkedHashMap<>();
            made.put("result", result == null ? null : result.toJson());
            if (decisions != null) made.put("decisions", decisions);
            if (explained != null) made.put("explained", explained);
            return made;
        }

        static SBureauStrategyDecisionService28b2f2b0Answer fromJson(Object value) {
            if (value == null) return null;
            var of = (Map<?, ?>) value;
            return new SBureauStrategyDecisionService28b2f2b0Answer(SBureauStrategyDecisionService28b2f2b0AnswerResult.fromJson(of.get("result")),
                    Json.list(of.get("decisions"), it -> (Object) it),
                    (String) of.get("explained"));
        }
    }

    public record SBureauStrategyDecisionService28b2f2b0AnswerResult(String bureauCallType, String strategy) {
        Map<String, Object> toJson() {
            Map<String, Object> made = new LinkedHashMap<>();
            if (bureauCallType != null) made.put("Bureau call type", bureauCallType);
            if (strategy != null) made.put("Strategy", strategy);
            return made;
        }

        static SBureauStrategyDecisionService28b2f2b0AnswerResult fromJson(Object value) {
            if (value == null) return null;
            var of = (Map<?, ?>) value;
            return new SBureauStrategyDecisionService28b2f2b0AnswerResult((String) of.get("Bureau call type"),
                    (String) of.get("Strategy"));
        }
    }

    public record SBureauStrategyDecisionService28b2f2b0Inputs(SBureauStrategyDecisionService28b2f2b0InputsApplicantData applicantData, Long requiredMonthlyInstallment) {
        Map<String, Object> toJson() {
            Map<String, Object> made = new LinkedHashMap<>();
            made.put("Applicant data", applicantData == null ? null : applicantData.toJson());
            made.put("Required monthly installment", requiredMonthlyInstallment);
            return made;
        }

        static SBureauStrategyDecisionService28b2f2b0Inputs fromJson(Object value) {
            if (value == null) return null;
            var of = (Map<?, ?>) value;
            return new SBureauStrategyDecisionService28b2f2b0Inputs(SBureauStrategyDecisionService28b2f2b0InputsApplicantData.fromJson(of.get("Applicant data")),
                    Json.whole(of.get("Required monthly installment")));
        }
    }

    public record SBureauStrategyDecisionService28b2f2b0InputsApplicantData(Long age, String employmentStatus, Boolean existingCustomer, String maritalStatus, SBureauStrategyDecisionService28b2f2b0InputsApplicantDataMonthly monthly) {
        Map<String, Object> toJson() {
            Map<String, Object> made = new LinkedHashMap<>();
            made.put("Age", age);
            made.put("Employment Status", employmentStatus);
            made.put("Existing Customer", existingCustomer);
            made.put("Marital Status", maritalStatus);
            made.put("Monthly", monthly == null ? null : monthly.toJson());
            return made;
        }

        static SBureauStrategyDecisionService28b2f2b0InputsApplicantData fromJson(Object value) {
            if (value == null) return null;
            var of = (Map<?, ?>) value;
            return new SBureauStrategyDecisionService28b2f2b0InputsApplicantData(Json.whole(of.get("Age")),
                    (String) of.get("Employment Status"),
                    (Boolean) of.get("Existing Customer"),
                    (String) of.get("Marital Status"),
                    SBureauStrategyDecisionService28b2f2b0InputsApplicantDataMonthly.fromJson(of.get("Monthly")));
        }
    }

    public record SBureauStrategyDecisionService28b2f2b0InputsApplicantDataMonthly(Long expenses, Long income, Long repayments) {
        Map<String, Object> toJson() {
            Map<String, Object> made = new LinkedHashMap<>();
            made.put("Expenses", expenses);
            made.put("Income", income);
            made.put("Repayments", repayments);
            return made;
        }

        static SBureauStrategyDecisionService28b2f2b0InputsApplicantDataMonthly fromJson(Object value) {
            if (value == null) return null;
            var of = (Map<?, ?>) value;
            return new SBureauStrategyDecisionService28b2f2b0InputsApplicantDataMonthly(Json.whole(of.get("Expenses")),
                    Json.whole(of.get("Income")),
                    Json.whole(of.get("Repayments")));
        }
    }
}
