package newer;

@FixedSize union FixedChoice {
    int number;
    long wide;
}
