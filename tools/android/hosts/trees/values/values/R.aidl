package values;

// The R of docs/BYTES.md.
parcelable R {
    int a;
    String s = "x";
}
