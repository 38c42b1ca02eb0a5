package plain;

parcelable Arrays {
    boolean[] flags;
    byte[] octets;
    char[] units;
    int[] numbers;
    long[] wides;
    String[] texts;
    List<String> list;
}
