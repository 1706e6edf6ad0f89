import java.io.IOException;
import java.io.InputStream;
import java.security.AccessControlException;
import java.security.AccessController;
import java.security.CodeSource;
import java.security.Permission;
import java.security.Permissions;
import java.security.PrivilegedAction;
import java.security.ProtectionDomain;
import java.security.cert.Certificate;
import java.util.ArrayList;
import java.util.List;

/**
 * Times {@code AccessController.checkPermission} with 1, 2, 4 and 16 frames on the stack, each of a protection domain
 * of its own that grants the permission among eight, and refused since the oldest doesn't. Prints Java's version and a
 * line for each stack: granted or refused, the depth and nanoseconds a call, the least mean of some rounds. Fails where
 * the check doesn't ask every domain of the stack, and no other.
 */
@SuppressWarnings({"removal", "deprecation"})
public final class StackCheck {
    private static final int[] DEPTHS = {1, 2, 4, 16};
    private static final Permission WRITE = new RuntimePermission("totals.write");
    private static final int OTHER_PERMISSIONS = 7;
    private static final int ROUNDS = 25;
    private static final double ROUND_NANOS = 10e6;
    /** Warming up goes on until this many rounds in a row are hardly faster than those before. */
    private static final int SETTLED_ROUNDS = 20;
    private static final double HARDLY_FASTER = 0.98;
    private static final int NOBODY = -1;

    /** What frames of different class loaders know each other by. */
    public interface Link {
        int enter(Permission permission, int calls);

        int enterPrivileged(Permission permission, int calls);
    }

    /**
     * A frame. Its class is defined anew for each domain. The newest asks in a loop; the oldest is entered
     * privileged, so that no frame below it is looked at.
     */
    public static final class Frame implements Link {
        private final Link newer;

        public Frame(Link newer) {
            this.newer = newer;
        }

        @Override
        public int enterPrivileged(Permission permission, int calls) {
            return AccessController.doPrivileged((PrivilegedAction<Integer>) () -> enter(permission, calls));
        }

        @Override
        public int enter(Permission permission, int calls) {
            return newer == null ? grants(permission, calls) : newer.enter(permission, calls);
        }

        private static int grants(Permission permission, int calls) {
            int grants = 0;
            for (int call = 0; call < calls; call++) {
                try {
                    AccessController.checkPermission(permission);
                    grants++;
                } catch (AccessControlException refused) {
                    // Counted by what is missing from the grants.
                }
            }
            return grants;
        }
    }

    private static final class FrameLoader extends ClassLoader {
        FrameLoader() {
            super(StackCheck.class.getClassLoader());
        }

        Class<?> define(byte[] bytes, ProtectionDomain domain) {
            return defineClass(Frame.class.getName(), bytes, 0, bytes.length, domain);
        }
    }

    /** A stack of frames and what was measured on it. */
    private static final class Stack {
        final String outcome;
        final int depth;
        final Link oldest;
        final int expectedGrants;
        int calls = 16;
        double least = Double.MAX_VALUE;

        /** The frame at a place, counted from the oldest, lacks the permission. */
        Stack(int depth, int lacking) throws ReflectiveOperationException, IOException {
            this.depth = depth;
            outcome = lacking == NOBODY ? "granted" : "refused";
            expectedGrants = lacking == NOBODY ? 1 : 0;
            byte[] bytes = frameBytes();
            Link newer = null;
            for (int place = depth - 1; place >= 0; place--) {
                Class<?> frame = new FrameLoader().define(bytes, domain(place != lacking));
                newer = (Link) frame.getConstructor(Link.class).newInstance(newer);
            }
            oldest = newer;
        }

        /** Nanoseconds a call. The number of grants is looked at, so that no call can be left out. */
        double mean() {
            long start = System.nanoTime();
            int grants = oldest.enterPrivileged(WRITE, calls);
            double mean = (double) (System.nanoTime() - start) / calls;
            if (grants != expectedGrants * calls) {
                throw new IllegalStateException(
                        grants + " of " + calls + " calls are granted at depth " + depth + ", all should be " + outcome);
            }
            return mean;
        }

        private double leastOf(int rounds) {
            double least = Double.MAX_VALUE;
            for (int round = 0; round < rounds; round++) {
                double mean = mean();
                least = Math.min(least, mean);
                calls = (int) Math.max(16, ROUND_NANOS / mean);
            }
            return least;
        }

        void warmUp() {
            double before = leastOf(SETTLED_ROUNDS);
            double after = leastOf(SETTLED_ROUNDS);
            while (after < HARDLY_FASTER * before) {
                before = after;
                after = leastOf(SETTLED_ROUNDS);
            }
        }
    }

    private static byte[] frameBytes() throws IOException {
        try (InputStream bytes = StackCheck.class.getResourceAsStream("StackCheck$Frame.class")) {
            return bytes.readAllBytes();
        }
    }

    /** A domain with permissions of its own, so that no policy is asked. */
    private static ProtectionDomain domain(boolean mayWrite) {
        Permissions permissions = new Permissions();
        for (int other = 0; other < OTHER_PERMISSIONS; other++) {
            permissions.add(new RuntimePermission("other" + other + ".write"));
        }
        if (mayWrite) {
            permissions.add(WRITE);
        }
        permissions.setReadOnly();
        return new ProtectionDomain(new CodeSource(null, (Certificate[]) null), permissions);
    }

    /**
     * Every domain of a stack is asked: it is refused if any one lacks the permission. No other is: it is granted if
     * all have it, though this class's own domain hasn't.
     */
    private static void verify(int depth) throws ReflectiveOperationException, IOException {
        if (StackCheck.class.getProtectionDomain().implies(WRITE)) {
            throw new IllegalStateException("this program's own domain has the permission");
        }
        for (int lacking = NOBODY; lacking < depth; lacking++) {
            new Stack(depth, lacking).mean();
        }
    }

    private static List<Stack> measured() throws ReflectiveOperationException, IOException {
        List<Stack> stacks = new ArrayList<>();
        for (int depth : DEPTHS) {
            verify(depth);
            stacks.add(new Stack(depth, NOBODY));
            stacks.add(new Stack(depth, 0));
        }
        stacks.forEach(Stack::warmUp);
        for (int round = 0; round < ROUNDS; round++) {
            for (Stack stack : stacks) {
                stack.least = Math.min(stack.least, stack.mean());
            }
        }
        return stacks;
    }

    public static void main(String[] arguments) throws ReflectiveOperationException, IOException {
        try {
            List<Stack> stacks = measured();
            System.out.println("version " + System.getProperty("java.version"));
            for (Stack stack : stacks) {
                System.out.println(stack.outcome + " " + stack.depth + " " + stack.least);
            }
        } catch (IllegalStateException unfit) {
            System.err.println(unfit.getMessage());
            System.exit(1);
        }
    }
}
