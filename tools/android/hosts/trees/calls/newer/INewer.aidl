package newer;

import calls.Sample;
import newer.Choice;
import newer.Kind;

interface INewer {
    newer.Choice choice(in newer.Choice a, out newer.Choice b, inout newer.Choice c);
    @nullable newer.Choice[] choices(in newer.Choice[] a, out newer.Choice[] b, inout @nullable newer.Choice[] c);
    newer.Kind kind(newer.Kind a, out newer.Kind[] b);
    List<calls.Sample> samples(in List<calls.Sample> a, out List<calls.Sample> b, inout @nullable List<calls.Sample> c);
    oneway void told(in @nullable newer.Choice a);
}
