import java.lang.module.Configuration;
import java.lang.module.ModuleFinder;
import java.lang.module.ModuleReference;
import java.lang.module.ResolvedModule;
import java.nio.file.Path;
import java.util.Arrays;
import java.util.Comparator;
import java.util.List;
import java.util.Optional;
import java.util.Set;

/** Prints the graph of roots over a module path as jlayers does, by java.lang.module, with java.base alone before it. */
public class Graph {
    public static void main(String[] words) {
        ModuleReference base = ModuleFinder.ofSystem().find("java.base").get();
        ModuleFinder before = new ModuleFinder() {
            @Override
            public Optional<ModuleReference> find(String name) {
                return name.equals("java.base") ? Optional.of(base) : Optional.empty();
            }

            @Override
            public Set<ModuleReference> findAll() {
                return Set.of(base);
            }
        };
        Path[] elements = Arrays.stream(words[0].split(":")).map(Path::of).toArray(Path[]::new);
        List<String> roots = Arrays.asList(words).subList(1, words.length);
        Configuration graph;
        try {
            graph = Configuration.empty().resolveAndBind(before, ModuleFinder.of(elements), roots);
        } catch (RuntimeException refusal) {
            System.out.println("refused");
            return;
        }
        StringBuilder text = new StringBuilder();
        graph.modules().stream().sorted(Comparator.comparing(ResolvedModule::name)).forEach(module -> {
            text.append("module ").append(module.name()).append('\n');
            module.reads().stream().map(ResolvedModule::name).sorted()
                    .forEach(name -> text.append("  reads ").append(name).append('\n'));
        });
        System.out.print(text);
    }
}
