package plain;

parcelable Point {
    int x;
    int y = 7;
}
