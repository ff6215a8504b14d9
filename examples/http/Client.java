import java.net.URI;
import java.net.http.HttpClient;
import java.net.http.HttpRequest;
import java.net.http.HttpRequest.BodyPublishers;
import java.net.http.HttpResponse.BodyHandlers;
import java.time.Duration;

/** Asks for the price of a parcel: java Client.java [URL]. First run ./desk http examples/parcel.json. */
public class Client {
    public static void main(String[] words) throws Exception {
        String url = (words.length > 0 ? words[0] : "http://127.0.0.1:8080") + "/v1/services/shipping";
        HttpClient client = HttpClient.newBuilder().version(HttpClient.Version.HTTP_1_1).build();
        for (String inputs : new String[] {"{\"weight\":5,\"express\":false}", "{\"weight\":1.5}"}) {
            HttpRequest request = HttpRequest.newBuilder(URI.create(url)).timeout(Duration.ofSeconds(10))
                    .header("X-Client", "shop").POST(BodyPublishers.ofString(inputs)).build();
            var answer = client.send(request, BodyHandlers.ofString());
            System.out.print(answer.statusCode() + " " + answer.body());
        }
    }
}
