package calls;

parcelable Sample {
    int key;
    String name = "x";
    @nullable byte[] data;
    long[] times;
}
