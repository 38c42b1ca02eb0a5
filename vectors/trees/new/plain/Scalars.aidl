package plain;

import plain.Point;

parcelable Scalars {
    boolean flag = true;
    byte octet = -1;
    char unit = 'a';
    int number = 7;
    long wide;
    String text = "x";
    boolean more = true;
    int[] numbers;
    @nullable plain.Point point;
}
