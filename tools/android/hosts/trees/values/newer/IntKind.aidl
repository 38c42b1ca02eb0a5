package newer;

@Backing(type="int") enum IntKind {
    FIRST = 0,
    SECOND = 2,
    LAST = -2147483648,
}
