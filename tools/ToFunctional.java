import java.io.IOException;
import java.io.OutputStreamWriter;
import java.io.Writer;
import java.nio.charset.StandardCharsets;
import java.util.List;
import java.util.Map;
import java.util.Optional;
import java.util.TreeMap;
import java.util.stream.Collectors;
import org.eclipse.rdf4j.model.BNode;
import org.eclipse.rdf4j.model.impl.SimpleValueFactory;
import org.eclipse.rdf4j.rio.helpers.BasicParserSettings;
import org.eclipse.rdf4j.rio.helpers.StatementCollector;
import org.eclipse.rdf4j.rio.turtle.TurtleParser;
import org.semanticweb.owlapi.apibinding.OWLManager;
import org.semanticweb.owlapi.formats.ManchesterSyntaxDocumentFormat;
import org.semanticweb.owlapi.formats.OWLXMLDocumentFormat;
import org.semanticweb.owlapi.formats.RDFXMLDocumentFormat;
import org.semanticweb.owlapi.formats.RioTurtleDocumentFormat;
import org.semanticweb.owlapi.functional.renderer.FunctionalSyntaxObjectRenderer;
import org.semanticweb.owlapi.io.OWLOntologyDocumentSource;
import org.semanticweb.owlapi.io.OWLParserException;
import org.semanticweb.owlapi.io.RDFTriple;
import org.semanticweb.owlapi.io.StreamDocumentSource;
import org.semanticweb.owlapi.io.UnparsableOntologyException;
import org.semanticweb.owlapi.model.AxiomType;
import org.semanticweb.owlapi.model.IRI;
import org.semanticweb.owlapi.model.OWLDocumentFormat;
import org.semanticweb.owlapi.model.OWLOntology;
import org.semanticweb.owlapi.model.OWLOntologyLoaderConfiguration;
import org.semanticweb.owlapi.model.OWLOntologyManager;
import org.semanticweb.owlapi.rio.RioMemoryTripleSource;
import org.semanticweb.owlapi.util.DefaultPrefixManager;
import org.semanticweb.owlapi.vocab.Namespaces;

/**
 * Converts an ontology on standard input to functional-style syntax on standard output, through the OWL API.
 *
 * <p>Arguments: its syntax, one of FORMATS, and the IRI that relative ones are read against. Imports are kept as they
 * are written and not fetched. Standard error has lines of three fields with tabs between them: "triples", how many
 * triples are in no axiom, and the first of them; "links", how many links were taken for annotations, and their
 * property. For an ontology that cannot be read it has the line "refused: .." and the exit status is 1.
 */
public class ToFunctional {
    static final Map<String, OWLDocumentFormat> FORMATS = Map.of(
        "Turtle", new RioTurtleDocumentFormat(), "RDF/XML", new RDFXMLDocumentFormat(),
        "OWL/XML", new OWLXMLDocumentFormat(), "Manchester syntax", new ManchesterSyntaxDocumentFormat());

    public static void main(String[] args) {
        try {
            OWLOntologyManager manager = OWLManager.createOWLOntologyManager();
            OWLOntology ontology = manager.loadOntologyFromOntologyDocument(
                source(FORMATS.get(args[0]), args[1]), new NothingFetched());
            OWLDocumentFormat format = manager.getOntologyFormat(ontology);
            noteTriples(format);
            if (format instanceof RioTurtleDocumentFormat || format instanceof RDFXMLDocumentFormat) {
                noteUndeclared(ontology);
            }
            write(ontology, new ShortNames(format));
        } catch (Exception | StackOverflowError fault) {
            System.err.println("refused: " + reason(fault).strip().replaceAll("\\s*\\R\\s*", " ")
                .replaceFirst("^[\\w.]*Exception[:;] (systemId: \\S*; )?", ""));
            System.exit(1);
        }
    }

    static OWLOntologyDocumentSource source(OWLDocumentFormat format, String base) throws IOException {
        return format instanceof RioTurtleDocumentFormat ? Turtle.read(base)
            : new StreamDocumentSource(System.in, IRI.create(base), format, null);
    }

    /**
     * Turtle as the triples that Rio reads, which takes all of Turtle, as the OWL API's own parser does not. Nodes
     * without a label are numbered as they come, not by the clock, so that every run gives the same text.
     */
    static class Turtle extends RioMemoryTripleSource {
        Turtle(StatementCollector triples) {
            super(triples.getStatements().iterator(), triples.getNamespaces());
        }

        static Turtle read(String base) throws IOException {
            TurtleParser parser = new TurtleParser(new SimpleValueFactory() {
                private int nodes;

                @Override
                public synchronized BNode createBNode() {
                    return createBNode("unlabelled-" + nodes++);
                }
            });
            parser.getParserConfig().set(BasicParserSettings.PRESERVE_BNODE_IDS, true);
            StatementCollector triples = new StatementCollector();
            parser.setRDFHandler(triples);
            parser.parse(System.in, base);
            return new Turtle(triples);
        }

        @Override
        public Optional<OWLDocumentFormat> getFormat() {
            return Optional.of(new RioTurtleDocumentFormat());
        }
    }

    /** Reads what is given and nothing else. */
    static class NothingFetched extends OWLOntologyLoaderConfiguration {
        @Override
        public boolean isIgnoredImport(IRI iri) {
            return true;
        }
    }

    /** The prefixes of a document, for the names that the grammar of functional-style syntax lets them shorten. */
    static class ShortNames extends DefaultPrefixManager {
        ShortNames(OWLDocumentFormat format) {
            if (format.isPrefixOWLDocumentFormat()) {
                format.asPrefixOWLDocumentFormat().getPrefixName2PrefixMap().forEach((name, iri) -> {
                    if (!name.startsWith("_")) {
                        setPrefix(name, iri);
                    }
                });
            }
        }

        @Override
        public String getPrefixIRIIgnoreQName(IRI iri) {
            String name = super.getPrefixIRIIgnoreQName(iri);
            return name == null || name.endsWith(".") ? null : name;
        }
    }

    /** Tells of the triples of which no axiom was made, but for those that annotate an annotation. */
    static void noteTriples(OWLDocumentFormat format) {
        List<RDFTriple> unread = format.getOntologyLoaderMetaData().map(data -> data.getUnparsedTriples()
            .filter(triple -> !triple.getPredicate().getIRI().toString().startsWith(Namespaces.OWL + "annotated"))
            .collect(Collectors.toList())).orElse(List.of());
        if (!unread.isEmpty()) {
            System.err.println("triples\t" + unread.size() + "\t" + unread.get(0).toString().replaceAll("\\s+", " "));
        }
    }

    /**
     * Tells of the links between resources that were taken for annotations, as RDF does not say what they are: those
     * by a property that is not declared.
     */
    static void noteUndeclared(OWLOntology ontology) {
        Map<IRI, Long> links = ontology.axioms(AxiomType.ANNOTATION_ASSERTION)
            .filter(link -> !link.getValue().isLiteral() && !link.getProperty().isBuiltIn()
                && !ontology.isDeclared(link.getProperty()))
            .collect(Collectors.groupingBy(link -> link.getProperty().getIRI(), TreeMap::new, Collectors.counting()));
        links.forEach((property, count) ->
            System.err.println("links\t" + count + "\t" + property.toQuotedString()));
    }

    static void write(OWLOntology ontology, ShortNames names) throws IOException {
        Writer out = new OutputStreamWriter(System.out, StandardCharsets.UTF_8);
        FunctionalSyntaxObjectRenderer renderer = new FunctionalSyntaxObjectRenderer(ontology, out);
        renderer.setPrefixManager(names);
        ontology.accept(renderer);
        out.flush();
    }

    /** What the parser says of a document that it refuses. */
    static String reason(Throwable fault) {
        if (fault instanceof UnparsableOntologyException) {
            for (OWLParserException each : ((UnparsableOntologyException) fault).getExceptions().values()) {
                return each.getMessage();
            }
        }
        return fault.toString();
    }
}
