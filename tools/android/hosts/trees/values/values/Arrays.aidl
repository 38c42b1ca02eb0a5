package values;

parcelable Arrays {
    boolean[] flags;
    byte[] bytes;
    char[] letters;
    int[] numbers;
    long[] larges;
    @nullable boolean[] maybeFlags;
    @nullable byte[] maybeBytes;
    @nullable char[] maybeLetters;
    @nullable int[] maybeNumbers;
    @nullable long[] maybeLarges;
}
