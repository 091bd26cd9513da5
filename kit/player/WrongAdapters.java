package kit.player;

import java.io.IOException;
import java.lang.reflect.Modifier;
import java.nio.file.Files;
import java.nio.file.Path;
import java.util.List;
import java.util.Set;
import java.util.SortedMap;
import java.util.TreeMap;
import java.util.stream.Stream;

/**
 * The wrong adapters of a folder, by their names: each is a class inside one of those whose names begin with {@code
 * Wrong}.
 */
final class WrongAdapters {
    final List<Path> sources;
    private final SortedMap<String, Class<?>> classes = new TreeMap<>();
    private final Class<?> maker;

    /** {@code maker} names the factory in their package that makes wrong objects by an adapter. */
    WrongAdapters(Path folder, String maker) throws IOException {
        this.maker = classOf(maker);
        try (Stream<Path> files = Files.list(folder)) {
            sources = files.filter(file -> file.getFileName().toString().matches("Wrong.*\\.java")).toList();
        }
        for (Path source : sources) {
            String subject = source.getFileName().toString().replace(".java", "");
            Stream.of(classOf(this.maker.getPackageName() + "." + subject).getDeclaredClasses())
                .filter(each -> !Modifier.isAbstract(each.getModifiers()))
                .forEach(each -> classes.put(each.getSimpleName(), each));
        }
    }

    /** By its name, since who compiles the player may not have it. */
    private static Class<?> classOf(String name) {
        try {
            return Class.forName(name);
        } catch (ClassNotFoundException none) {
            throw new IllegalStateException(none);
        }
    }

    Set<String> names() {
        return classes.keySet();
    }

    Stage stage(String name) {
        return stage(classes.get(name));
    }

    /** What the maker makes without an adapter. */
    Stage right() {
        return stage(maker);
    }

    private Stage stage(Class<?> adapter) {
        try {
            return new JvmStage((Factory) maker.getConstructor(Class.class).newInstance(adapter));
        } catch (ReflectiveOperationException none) {
            throw new IllegalStateException(none);
        }
    }
}
