package plain;

import plain.Point;

parcelable Nulls {
    @nullable String text;
    @nullable int[] numbers;
    @nullable byte[] octets;
    @nullable String[] texts;
    @nullable List<String> list;
    @nullable plain.Point point;
}
