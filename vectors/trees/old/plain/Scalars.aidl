package plain;

parcelable Scalars {
    boolean flag = true;
    byte octet = -1;
    char unit = 'a';
    int number = 7;
    long wide;
    String text = "x";
}
