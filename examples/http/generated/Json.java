import java.math.BigDecimal;
import java.util.ArrayList;
import java.util.LinkedHashMap;
import java.util.List;
import java.util.Map;
import java.util.function.Function;

/** Reads and writes JSON: a client of yours takes Jackson or the like in its place. */
final class Json {
    private final String text;
    private int at;

    private Json(String text) {
        this.text = text;
    }

    static Object read(String text) {
        return new Json(text).value();
    }

    static Long whole(Object value) {
        return value == null ? null : ((BigDecimal) value).longValueExact();
    }

    static BigDecimal decimal(Object value) {
        return (BigDecimal) value;
    }

    static <T> List<T> list(Object value, Function<Object, T> read) {
        if (value == null) return null;
        List<T> made = new ArrayList<>();
        for (Object it : (List<?>) value) made.add(read.apply(it));
        return made;
    }

    static String write(Object value) {
        if (value instanceof Map<?, ?> map) {
            List<String> parts = new ArrayList<>();
            map.forEach((key, part) -> parts.add(quoted(key.toString()) + ":" + write(part)));
            return "{" + String.join(",", parts) + "}";
        }
        if (value instanceof List<?> list) return "[" + String.join(",", list.stream().map(Json::write).toList()) + "]";
        if (value instanceof BigDecimal number) return number.toPlainString();
        return value instanceof String string ? quoted(string) : String.valueOf(value);
    }

    private static String quoted(String string) {
        var made = new StringBuilder("\"");
        for (char c : string.toCharArray()) {
            if (c == '"' || c == '\\') made.append('\\').append(c);
            else if (c < ' ') made.append(String.format("\\u%04x", (int) c));
            else made.append(c);
        }
        return made.append('"').toString();
    }

    private char next() {
        while (Character.isWhitespace(text.charAt(at))) at++;
        return text.charAt(at);
    }

    private boolean takes(char c) {
        boolean is = next() == c;
        if (is) at++;
        return is;
    }

    private Object value() {
        switch (next()) {
            case '{' -> {
                Map<String, Object> map = new LinkedHashMap<>();
                for (at++; !takes('}'); takes(',')) {
                    String key = string();
                    takes(':');
                    map.put(key, value());
                }
                return map;
            }
            case '[' -> {
                List<Object> list = new ArrayList<>();
                for (at++; !takes(']'); takes(',')) list.add(value());
                return list;
            }
            case '"' -> {
                return string();
            }
            default -> {
                int start = at;
                while (at < text.length() && ",]} \r\n\t".indexOf(text.charAt(at)) < 0) at++;
                String word = text.substring(start, at);
                return word.equals("null") ? null : word.equals("true") || word.equals("false") ? word.equals("true") : new BigDecimal(word);
            }
        }
    }

    private String string() {
        next();
        var made = new StringBuilder();
        for (at++; text.charAt(at) != '"'; at++) {
            char c = text.charAt(at);
            if (c == '\\') {
                c = text.charAt(++at);
                int plain = "bfnrt".indexOf(c);
                if (plain >= 0) c = "\b\f\n\r\t".charAt(plain);
                if (text.charAt(at) == 'u') {
                    c = (char) Integer.parseInt(text.substring(at + 1, at + 5), 16);
                    at += 4;
                }
            }
            made.append(c);
        }
        at++;
        return made.toString();
    }
}
