import java.math.BigDecimal;
import java.net.URI;
import java.net.http.HttpClient;
import java.net.http.HttpRequest;
import java.net.http.HttpRequest.BodyPublishers;
import java.net.http.HttpResponse.BodyHandlers;
import java.time.Duration;
import java.util.ArrayList;
import java.util.LinkedHashMap;
import java.util.List;
import java.util.Map;

/** A client of parcel, made by generate.py. It needs Json.java. */
public class Parcel {
    private final HttpClient client = HttpClient.newBuilder().version(HttpClient.Version.HTTP_1_1).build();
    private final String url;
    private final String token;

    /** Asks the services at a URL; the token may be null. */
    public Parcel(String url, String token) {
        this.url = url;
        this.token = token;
    }

    /** The service refuses a request. */
    public static class ProblemException extends Exception {
        public final Problem problem;

        ProblemException(Problem problem) {
            super(problem.status() + " " + problem.type() + ": " + (problem.detail() != null ? problem.detail() : problem.title()));
            this.problem = problem;
        }
    }

    /** What a request of a list comes to: an answer, or a problem; the other one is null. */
    public record Outcome<T>(T answer, Problem problem) {}

    private Object ask(String path, Object body, String client, String requestId, boolean explain) throws Exception {
        var request = HttpRequest.newBuilder(URI.create(url + path + (explain ? "?explain=true" : ""))).timeout(Duration.ofSeconds(30))
                .header("Content-Type", "application/json").POST(BodyPublishers.ofString(Json.write(body)));
        if (client != null) request.header("X-Client", client);
        if (requestId != null) request.header("X-Request-Id", requestId);
        if (token != null) request.header("Authorization", "Bearer " + token);
        var answer = this.client.send(request.build(), BodyHandlers.ofString());
        Object read = Json.read(answer.body());
        if (answer.statusCode() != 200) throw new ProblemException(Problem.fromJson(read));
        return read;
    }

    /** Asks the decision service shipping. Client and requestId may be null. */
    public ShippingAnswer shipping(ShippingInputs inputs, String client, String requestId, boolean explain) throws Exception {
        return ShippingAnswer.fromJson(ask("/v1/services/shipping", inputs.toJson(), client, requestId, explain));
    }

    /** Asks the decision service shipping, for each of a list. */
    public List<Outcome<ShippingAnswer>> shippingList(List<ShippingInputs> inputs, String client, String requestId, boolean explain)
            throws Exception {
        List<Object> body = new ArrayList<>();
        for (var it : inputs) body.add(it.toJson());
        List<Outcome<ShippingAnswer>> answers = new ArrayList<>();
        for (Object it : (List<?>) ask("/v1/services/shipping", body, client, requestId, explain)) {
            boolean is = ((Map<?, ?>) it).containsKey("result");
            answers.add(new Outcome<>(is ? ShippingAnswer.fromJson(it) : null, is ? null : Problem.fromJson(it)));
        }
        return answers;
    }

    public record Problem(Long status, String title, String type, Long column, List<Object> decisions, String detail, List<Object> errors, String explained, String fault, Long line, String pointer, String request, List<String> services) {
        Map<String, Object> toJson() {
            Map<String, Object> made = new LinkedHashMap<>();
            made.put("status", status);
            made.put("title", title);
            made.put("type", type);
            if (column != null) made.put("column", column);
            if (decisions != null) made.put("decisions", decisions);
            if (detail != null) made.put("detail", detail);
            if (errors != null) made.put("errors", errors);
            if (explained != null) made.put("explained", explained);
            if (fault != null) made.put("fault", fault);
            if (line != null) made.put("line", line);
            if (pointer != null) made.put("pointer", pointer);
            if (request != null) made.put("request", request);
            if (services != null) made.put("services", services);
            return made;
        }

        static Problem fromJson(Object value) {
            if (value == null) return null;
            var of = (Map<?, ?>) value;
            return new Problem(Json.whole(of.get("status")),
                    (String) of.get("title"),
                    (String) of.get("type"),
                    Json.whole(of.get("column")),
                    Json.list(of.get("decisions"), it -> (Object) it),
                    (String) of.get("detail"),
                    Json.list(of.get("errors"), it -> (Object) it),
                    (String) of.get("explained"),
                    (String) of.get("fault"),
                    Json.whole(of.get("line")),
                    (String) of.get("pointer"),
                    (String) of.get("request"),
                    Json.list(of.get("services"), it -> (String) it));
        }
    }

    public record ShippingAnswer(Object result, List<Object> decisions, String explained) {
        Map<String, Object> toJson() {
            Map<String, Object> made = new LinkedHashMap<>();
            made.put("result", result);
            if (decisions != null) made.put("decisions", decisions);
            if (explained != null) made.put("explained", explained);
            return made;
        }

        static ShippingAnswer fromJson(Object value) {
            if (value == null) return null;
            var of = (Map<?, ?>) value;
            return new ShippingAnswer(of.get("result"),
                    Json.list(of.get("decisions"), it -> (Object) it),
                    (String) of.get("explained"));
        }
    }

    public record ShippingInputs(Object express, Object weight) {
        Map<String, Object> toJson() {
            Map<String, Object> made = new LinkedHashMap<>();
            if (express != null) made.put("express", express);
            if (weight != null) made.put("weight", weight);
            return made;
        }

        static ShippingInputs fromJson(Object value) {
            if (value == null) return null;
            var of = (Map<?, ?>) value;
            return new ShippingInputs(of.get("express"),
                    of.get("weight"));
        }
    }
}
