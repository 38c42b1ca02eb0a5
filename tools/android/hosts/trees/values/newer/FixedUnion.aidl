package newer;

@FixedSize union FixedUnion {
    int a;
    long b;
}
