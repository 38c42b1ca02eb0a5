package newer;

@Backing(type="byte") enum ByteKind {
    FIRST = 0,
    SECOND = 2,
    LAST = -128,
}
