package newer;

import newer.ByteKind;
import values.R;

union Choice {
    int number;
    String text;
    values.R record;
    @nullable values.R[] records;
    List<String> texts;
    newer.ByteKind kind;
    boolean[] flags;
}
