// An outside judge of zone readings: java.time's ZoneRules, made from explicit transitions, to the nanosecond.
// Standard input, a line each: `Z first` begins a zone with its first offset in seconds, `T at offset` adds a transition (seconds),
// `R instant` asks for the reading of an instant and `W reading` for the instants of a reading (nanoseconds since 1970, as if UTC).
// Answers, a line each: `R reading`; `C instant`; `F earlier later`; `G before after`.
import java.io.BufferedReader;
import java.io.InputStreamReader;
import java.time.Instant;
import java.time.LocalDateTime;
import java.time.ZoneOffset;
import java.time.zone.ZoneOffsetTransition;
import java.time.zone.ZoneRules;
import java.util.ArrayList;
import java.util.List;

class Readings {
    static final long NS = 1_000_000_000L;

    static Instant instant(long ns) {
        return Instant.ofEpochSecond(Math.floorDiv(ns, NS), Math.floorMod(ns, NS));
    }

    static LocalDateTime wall(long ns) {
        return LocalDateTime.ofEpochSecond(Math.floorDiv(ns, NS), (int) Math.floorMod(ns, NS), ZoneOffset.UTC);
    }

    static long number(LocalDateTime wall, ZoneOffset offset) {
        return wall.toEpochSecond(offset) * NS + wall.getNano();
    }

    public static void main(String[] words) throws Exception {
        BufferedReader in = new BufferedReader(new InputStreamReader(System.in));
        StringBuilder out = new StringBuilder();
        ZoneOffset first = ZoneOffset.UTC;
        ZoneOffset last = first;
        List<ZoneOffsetTransition> changes = new ArrayList<>();
        ZoneRules rules = null;
        for (String line = in.readLine(); line != null; line = in.readLine()) {
            String[] w = line.split(" ");
            switch (w[0]) {
                case "Z":
                    first = last = ZoneOffset.ofTotalSeconds(Integer.parseInt(w[1]));
                    changes = new ArrayList<>();
                    rules = null;
                    break;
                case "T": {
                    ZoneOffset after = ZoneOffset.ofTotalSeconds(Integer.parseInt(w[2]));
                    if (!after.equals(last)) {
                        changes.add(ZoneOffsetTransition.of(LocalDateTime.ofEpochSecond(Long.parseLong(w[1]), 0, last), last, after));
                        last = after;
                    }
                    break;
                }
                default: {
                    if (rules == null) {
                        rules = ZoneRules.of(first, first, List.of(), changes, List.of());
                    }
                    long ns = Long.parseLong(w[1]);
                    if (w[0].equals("R")) {
                        out.append("R ").append(number(LocalDateTime.ofInstant(instant(ns), rules.getOffset(instant(ns))), ZoneOffset.UTC)).append('\n');
                        break;
                    }
                    LocalDateTime x = wall(ns);
                    List<ZoneOffset> valid = rules.getValidOffsets(x);
                    if (valid.size() == 1) {
                        out.append("C ").append(number(x, valid.get(0))).append('\n');
                    } else {
                        ZoneOffsetTransition t = rules.getTransition(x);
                        out.append(valid.isEmpty() ? "G " : "F ").append(number(x, t.getOffsetBefore())).append(' ').append(number(x, t.getOffsetAfter())).append('\n');
                    }
                }
            }
        }
        System.out.print(out);
    }
}
