package tillermoss;

import java.lang.reflect.InvocationTargetException;
import java.lang.reflect.Method;
import java.lang.reflect.Modifier;

/** Runs each method of the classes of tests that has no argument and isn't private; beside a server too where TILLERMOSSD and CELLCTL name the programs. */
public final class Tests {
    private Tests() {}

    /** The status is 0 where none fails. */
    public static void main(String[] words) throws Exception {
        int done = run(VectorTests.class) + run(SessionTests.class);
        if (System.getenv("TILLERMOSSD") != null) {
            done += run(ServerTests.class);
        }
        System.out.println(done + " tests");
        System.exit(0);
    }

    private static int run(Class<?> tests) throws Exception {
        int done = 0;
        for (Method test : tests.getDeclaredMethods()) {
            if (test.getParameterCount() == 0 && !test.isSynthetic() && !Modifier.isPrivate(test.getModifiers())) {
                try {
                    test.invoke(null);
                    done++;
                } catch (InvocationTargetException why) {
                    System.err.println(tests.getSimpleName() + "." + test.getName() + ":");
                    why.getCause().printStackTrace();
                    System.exit(1);
                }
            }
        }
        return done;
    }
}
