package newer;

@Backing(type="long") enum LongKind {
    FIRST = 0,
    SECOND = 2,
    LAST = 1099511627776,
}
