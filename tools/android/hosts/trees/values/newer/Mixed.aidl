package newer;

import newer.ByteKind;
import newer.Choice;
import newer.Fixed;
import newer.FixedUnion;
import newer.IntKind;
import newer.LongKind;
import values.R;

parcelable Mixed {
    newer.ByteKind small = newer.ByteKind.SECOND;
    newer.IntKind middle = newer.IntKind.FIRST;
    newer.LongKind large = newer.LongKind.LAST;
    newer.Mixed.Inner inner;
    @nullable newer.Mixed.Inner[] inners;
    newer.Choice choice;
    @nullable newer.Choice maybeChoice;
    newer.Choice[] choices;
    List<values.R> records;
    newer.Fixed fixed;
    newer.FixedUnion fixedUnion;
    newer.ByteKind[] smalls;
    @nullable newer.LongKind[] larges;
    int[] numbers = {1, 2};
    String[] texts = {"a", ""};
    parcelable Inner {
        newer.Mixed.Inner.Kind kind = newer.Mixed.Inner.Kind.ON;
        newer.Mixed.Inner.Either[] either;
        @Backing(type="int") enum Kind {
            OFF = 0,
            ON = 1,
        }
        union Either {
            long one = 5;
            String other;
        }
    }
}
