// Phases a second of Java's Phaser with a sum: what scripts/bench/shared sync sum is measured
// beside. The same is run for a second before it is measured, so that the machine code is there.
// usage: java scripts/bench/PlainPhaser.java THREADS COUNT, where a COUNT of 0 is as many phases as
// take a second, after as many that take as long

import java.util.concurrent.Phaser;
import java.util.concurrent.atomic.AtomicLong;

public class PlainPhaser {
    // Of the phases with an even number, and of the others: nobody is two phases ahead of a reader.
    static final AtomicLong[] sent = {new AtomicLong(), new AtomicLong()};
    static final AtomicLong[] values = {new AtomicLong(), new AtomicLong()};

    record Run(double seconds, long check) {}

    static Run run(int threads, int count) throws Exception {
        int warm = count / 10;
        Phaser phaser = new Phaser(threads) {
            protected boolean onAdvance(int phase, int registered) {
                values[phase & 1].set(sent[phase & 1].getAndSet(0));
                return false;
            }
        };
        long[] sums = new long[threads];
        long[] nanos = new long[1];
        Thread[] all = new Thread[threads];
        for (int thread = 0; thread < threads; thread++) {
            int me = thread;
            all[me] = new Thread(() -> {
                long start = 0;
                for (int phase = 0; phase < warm + count; phase++) {
                    if (me == 0 && phase == warm) {
                        start = System.nanoTime();
                    }
                    sent[phase & 1].addAndGet(phase + me);
                    phaser.arriveAndAwaitAdvance();
                    sums[me] += values[phase & 1].get();
                }
                if (me == 0) {
                    nanos[0] = System.nanoTime() - start;
                }
            });
            all[me].start();
        }
        long check = 0;
        for (int thread = 0; thread < threads; thread++) {
            all[thread].join();
            check += sums[thread];
        }
        long allPhases = warm + count;
        long wanted = threads * (threads * (allPhases * (allPhases - 1) / 2)
            + allPhases * (threads * (threads - 1) / 2));
        if (check != wanted) {
            throw new IllegalStateException("the sums are " + check + ", and not " + wanted);
        }
        return new Run(nanos[0] / 1e9, check);
    }

    public static void main(String[] words) throws Exception {
        int threads = Integer.parseInt(words[0]);
        int count = Integer.parseInt(words[1]);
        if (count == 0) {
            count = 1000;
            while (run(threads, count).seconds() < 1) {
                count *= 2;
            }
        } else {
            long start = System.nanoTime();
            while (System.nanoTime() - start < 1_000_000_000) {
                run(threads, count);
            }
        }
        Run run = run(threads, count);
        System.out.printf("{\"rows\": [{\"name\": \"java sync sum %d\", \"count\": %d, "
                + "\"seconds\": %.6f, \"check\": %d}]}%n",
            threads, count, run.seconds(), run.check());
    }
}
