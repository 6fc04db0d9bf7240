import java.io.BufferedReader;
import java.io.IOException;
import java.io.InputStreamReader;
import java.util.ArrayList;
import java.util.List;
import java.util.Map;
import java.util.concurrent.ConcurrentSkipListMap;
import java.util.concurrent.atomic.AtomicInteger;

/**
 * The generated calls, or those of a script on standard input, over Java's ConcurrentSkipListMap.
 *
 * <p>usage: java SkipList CALLERS CALLS FIRST, or java SkipList script WORKERS
 *
 * <p>Workers draw callers; for generated calls each caller has one. The map gives no order of all calls, so calls have
 * no numbers, and a run has 0 in their place. Other calls are served over another map first, so that what is measured is
 * compiled.
 */
public final class SkipList {
    private enum Kind { PUT, GET, DEL }

    private record Call(Kind kind, Long key, Long value) {}

    private static final class Generator {
        private long state;

        Generator(long first) {
            state = first;
        }

        private long draw() {
            state = state * 6364136223846793005L + 1442695040888963407L;
            return state >>> 33;
        }

        Call call(long caller, long callers) {
            long kind = draw() % 4;
            long key = caller + callers * (draw() % 256);
            if (kind < 2) {
                return new Call(Kind.PUT, key, draw());
            }
            return new Call(kind == 2 ? Kind.GET : Kind.DEL, key, 0L);
        }
    }

    private static Call[][] madeScript(int callers, int calls, long first) {
        Generator generator = new Generator(first);
        Call[][] script = new Call[callers][calls];
        for (int caller = 0; caller < callers; caller++) {
            for (int made = 0; made < calls; made++) {
                script[caller][made] = generator.call(caller, callers);
            }
        }
        return script;
    }

    /** Gives the value that stood at the key before the call, or null. */
    private static Long serve(Map<Long, Long> map, Call call) {
        return switch (call.kind()) {
            case PUT -> map.put(call.key(), call.value());
            case GET -> map.get(call.key());
            case DEL -> map.remove(call.key());
        };
    }

    private static Thread worker(Map<Long, Long> map, Call[][] script, Long[][] answers, AtomicInteger next) {
        Thread thread = new Thread(() -> {
            for (int caller = next.getAndIncrement(); caller < script.length; caller = next.getAndIncrement()) {
                Long[] told = new Long[script[caller].length];
                for (int at = 0; at < told.length; at++) {
                    told[at] = serve(map, script[caller][at]);
                }
                answers[caller] = told;
            }
        });
        thread.start();
        return thread;
    }

    /** Gives the answers to each caller's calls, by so many workers that draw callers. */
    private static Long[][] serve(Map<Long, Long> map, Call[][] script, int workers) throws InterruptedException {
        Long[][] answers = new Long[script.length][];
        AtomicInteger next = new AtomicInteger();
        List<Thread> threads = new ArrayList<>();
        for (int at = 0; at < workers; at++) {
            threads.add(worker(map, script, answers, next));
        }
        for (Thread thread : threads) {
            thread.join();
        }
        return answers;
    }

    private static Call[][] readScript() throws IOException {
        List<List<Call>> script = new ArrayList<>();
        BufferedReader text = new BufferedReader(new InputStreamReader(System.in));
        for (String line = text.readLine(); line != null; line = text.readLine()) {
            String[] words = line.split(" ");
            if (words[0].equals("caller")) {
                script.add(new ArrayList<>());
                continue;
            }
            Kind kind = Kind.valueOf(words[0].toUpperCase());
            Long value = kind == Kind.PUT ? Long.parseLong(words[2]) : 0L;
            script.get(script.size() - 1).add(new Call(kind, Long.parseLong(words[1]), value));
        }
        return script.stream().map(calls -> calls.toArray(Call[]::new)).toArray(Call[][]::new);
    }

    private static void printRun(Map<Long, Long> map, Long[][] answers) {
        StringBuilder text = new StringBuilder();
        for (int caller = 0; caller < answers.length; caller++) {
            text.append("caller ").append(caller).append('\n');
            for (Long answer : answers[caller]) {
                text.append("0 ").append(answer == null ? "none" : answer.toString()).append('\n');
            }
        }
        text.append("map\n");
        map.forEach((key, value) -> text.append(key).append(' ').append(value).append('\n'));
        System.out.print(text.append("end\n"));
    }

    private static void printSummary(Map<Long, Long> map, Long[][] answers) {
        long calls = 0;
        long found = 0;
        for (Long[] ofCaller : answers) {
            calls += ofCaller.length;
            for (Long answer : ofCaller) {
                found += answer == null ? 0 : 1;
            }
        }
        long sum = 0;
        for (Map.Entry<Long, Long> pair : map.entrySet()) {
            sum += pair.getKey() * pair.getValue();
        }
        System.out.print("callers " + answers.length + "\ncalls " + calls + "\nfound " + found + "\nnone " + (calls - found)
                + "\nfull 0\npairs " + map.size() + "\nsum " + Long.toUnsignedString(sum) + "\n");
    }

    public static void main(String[] words) throws InterruptedException, IOException {
        boolean isScript = words.length == 2 && words[0].equals("script");
        if (words.length != 3 && !isScript) {
            System.err.println("usage: java SkipList CALLERS CALLS FIRST, or java SkipList script WORKERS");
            System.exit(1);
        }
        serve(new ConcurrentSkipListMap<>(), madeScript(8, 16384, 1), 8);
        Map<Long, Long> map = new ConcurrentSkipListMap<>();
        if (isScript) {
            printRun(map, serve(map, readScript(), Integer.parseInt(words[1])));
            return;
        }
        int callers = Integer.parseInt(words[0]);
        Call[][] script = madeScript(callers, Integer.parseInt(words[1]), Long.parseUnsignedLong(words[2]));
        printSummary(map, serve(map, script, callers));
    }
}
