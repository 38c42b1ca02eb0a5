package plain;

import plain.Point;

parcelable Outer {
    plain.Point point;
    plain.Point[] points;
    @nullable plain.Point other;
    int last = 5;
}
