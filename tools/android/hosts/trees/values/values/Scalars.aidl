package values;

parcelable Scalars {
    boolean flag = true;
    byte small = -1;
    char letter = 'a';
    int number = 7;
    long large;
}
