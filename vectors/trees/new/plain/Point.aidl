package plain;

parcelable Point {
    int x;
    int y = 7;
    @nullable String label;
    long time = 5;
}
